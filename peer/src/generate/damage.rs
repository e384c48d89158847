//! Bytes that cannot be read.

use super::rng::Rng;

/// Event starts of a log, found by the kinds' lengths.
fn starts(log: &[u8]) -> Vec<usize> {
    let mut starts = Vec::new();
    let mut at = 1;
    while at < log.len() {
        starts.push(at);
        at += match log[at] {
            1 => 33,
            4..=6 => 6,
            _ => 5,
        };
    }
    starts
}

/// An event start, mostly in the log's last quarter.
fn place(log: &[u8], rng: &mut Rng) -> Option<usize> {
    let starts = starts(log);
    let from = match rng.below(4) {
        0 => 0,
        _ => starts.len() * 3 / 4,
    };
    let late = &starts[from..];
    (!late.is_empty()).then(|| rng.pick(late))
}

/// Leaves most logs whole.
pub fn damage(log: &mut Vec<u8>, rng: &mut Rng) {
    match rng.below(100) {
        0 => log.clear(),
        1 => log[0] = rng.pick(&[0, 4, 5, 0x21, 255]),
        2 => log.truncate(1),
        3..=9 => cut(log, rng),
        10..=15 => unknown_kind(log, rng),
        16..=21 => bad_last_byte(log, rng),
        22..=24 => flip(log, rng),
        _ => (),
    }
}

fn cut(log: &mut Vec<u8>, rng: &mut Rng) {
    if let Some(at) = place(log, rng) {
        let length = rng.below(33) as usize;
        log.truncate(at + length);
    }
}

fn unknown_kind(log: &mut Vec<u8>, rng: &mut Rng) {
    let kind = rng.pick(&[0, 8, 9, 0x20, 0x21, 0x22, 0x81, 255]);
    match rng.below(3) {
        0 => log.push(kind),
        _ => {
            if let Some(at) = place(log, rng) {
                log[at] = kind;
            }
        }
    }
}

fn bad_last_byte(log: &mut Vec<u8>, rng: &mut Rng) {
    let (kind, bad): (u8, &[u8]) = match rng.below(3) {
        0 => (4, &[3, 4, 128, 255]),
        1 => (5, &[0, 4, 255]),
        _ => (6, &[2, 3, 255]),
    };
    let at = place(log, rng).unwrap_or(log.len());
    let time = (rng.word() as u32).to_le_bytes();
    let event = [kind, time[0], time[1], time[2], time[3], rng.pick(bad)];
    log.splice(at..at, event);
}

/// Any byte changed: what follows may be read as other events altogether.
fn flip(log: &mut [u8], rng: &mut Rng) {
    let at = rng.below(log.len() as u64) as usize;
    log[at] ^= 1 << rng.below(8);
}
