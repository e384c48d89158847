//! Frames at and around every limit.

use super::rng::Rng;
use crate::wire::Frame;

/// Hold and release of each protection.
pub const TIMES: [(u32, u32); 8] = [
    (500, 2_000),
    (2_000, 2_000),
    (1_000, 5_000),
    (1_000, 5_000),
    (3_000, 10_000),
    (0, 1_000),
    (30_500, 10_000),
    (10_000, 10_000),
];

#[derive(Clone, Copy, Debug, PartialEq, Eq)]
pub enum Zone {
    Beyond,
    Between,
    Within,
}

pub fn discharge(battery: u8) -> i64 {
    if battery == 3 {
        180_000
    } else {
        120_000
    }
}

/// The permitted charge current, for aiming at it.
fn permitted(battery: u8, coldest: i64) -> i64 {
    let rating = discharge(battery) / 2;
    match coldest {
        ..=-1 => 0,
        0..=249 => rating * (coldest + 50).pow(2) / 90_000,
        _ => rating,
    }
}

/// One end of the range, a neighbour of it, or anything in it.
fn edge(rng: &mut Rng, near: i64, far: i64) -> i64 {
    let step = (far - near).signum();
    match rng.below(8) {
        0..=4 => near,
        5 => near + step,
        6 => far,
        _ => rng.between(near.min(far), near.max(far)),
    }
}

fn coldest(frame: &Frame) -> i64 {
    frame.temperatures.iter().copied().min().unwrap_or(0).into()
}

fn highest(frame: &Frame) -> i64 {
    frame.cells.iter().copied().max().unwrap_or(0).into()
}

fn set_cell(frame: &mut Frame, rng: &mut Rng, value: i64) {
    frame.cells[rng.below(8) as usize] = value.clamp(500, 5_000) as u16;
}

fn set_temperature(frame: &mut Frame, rng: &mut Rng, value: i64) {
    frame.temperatures[rng.below(4) as usize] = value as i16;
}

/// Moves the frame to the protection's zone, mostly to its very edge.
pub fn aim(frame: &mut Frame, rng: &mut Rng, battery: u8, protection: u8, zone: Zone) {
    match protection {
        0 => {
            let value = pick_edge(rng, zone, [(3_651, 5_000), (3_501, 3_650), (3_500, 3_300)]);
            set_cell(frame, rng, value);
        }
        1 => {
            let value = pick_edge(rng, zone, [(1_699, 500), (2_799, 1_700), (2_800, 3_300)]);
            if rng.one_in(2) {
                frame.cells = [value as u16; 8];
            }
            set_cell(frame, rng, value);
        }
        2 => {
            let value = pick_edge(rng, zone, [(711, 880), (601, 710), (600, 100)]);
            set_temperature(frame, rng, value);
        }
        3 => aim_cold(frame, rng, zone),
        7 => {
            let spread = pick_edge(rng, zone, [(501, 900), (301, 500), (300, 0)]);
            let value = highest(frame) - spread;
            set_cell(frame, rng, value);
        }
        _ => aim_current(frame, rng, battery, protection, zone),
    }
}

fn pick_edge(rng: &mut Rng, zone: Zone, [beyond, between, within]: [(i64, i64); 3]) -> i64 {
    let (near, far) = match zone {
        Zone::Beyond => beyond,
        Zone::Between if rng.one_in(2) => (between.1, between.0),
        Zone::Between => between,
        Zone::Within => within,
    };
    edge(rng, near, far)
}

fn aim_cold(frame: &mut Frame, rng: &mut Rng, zone: Zone) {
    let value = match zone {
        Zone::Beyond => edge(rng, -1, -540),
        Zone::Between => rng.pick(&[-1, -1, 0, 0, 1, 49, 48]),
        Zone::Within => edge(rng, 50, 600),
    };
    set_temperature(frame, rng, value);
    match zone {
        Zone::Beyond => frame.current = rng.pick(&[501, 501, 502, 2_000, 2_001, 30_000]),
        Zone::Between if value < 0 => frame.current = rng.pick(&[500, 500, 500, 499, 0, -5]),
        Zone::Between => frame.current = rng.pick(&[501, 501, 1_000, 500]),
        Zone::Within => (),
    }
}

fn aim_current(frame: &mut Frame, rng: &mut Rng, battery: u8, protection: u8, zone: Zone) {
    if protection == 4 && rng.one_in(3) {
        let coldest = rng.pick(&[-1, 0, 1, 49, 50, 248, 249, 250, 251]);
        set_temperature(frame, rng, coldest);
    }
    let limit = permitted(battery, coldest(frame));
    let rating = discharge(battery);
    let value = match (protection, zone) {
        (4, Zone::Beyond) => edge(rng, limit + 2_001, 2_000_000),
        (4, Zone::Between) => rng.pick(&[limit + 1, limit + 2_000, limit + 700]),
        (4, Zone::Within) => edge(rng, limit, 0),
        (5, Zone::Beyond) => edge(rng, -1_100_001, -2_000_000),
        (5, Zone::Between) => rng.pick(&[-1_100_000, -rating - 1, -rating - 1_000]),
        (6, Zone::Beyond) => edge(rng, -rating - 1, -1_100_000),
        _ => edge(rng, -rating, 0),
    };
    frame.current = value as i32;
}

/// Everything beyond at once that can be, on discharge or on cold charge.
pub fn disaster(rng: &mut Rng, battery: u8) -> Frame {
    let mut frame = Frame::NOMINAL;
    frame.cells[rng.below(4) as usize] = rng.pick(&[3_651, 4_000]);
    frame.cells[4 + rng.below(4) as usize] = rng.pick(&[1_699, 500]);
    frame.temperatures[0] = rng.pick(&[711, 880]);
    if rng.one_in(2) {
        frame.current = rng.pick(&[-1_100_001, -2_000_000]);
    } else {
        let protection = rng.pick(&[3, 4]);
        aim_cold(&mut frame, rng, Zone::Beyond);
        if protection == 4 {
            aim_current(&mut frame, rng, battery, 4, Zone::Beyond);
        }
    }
    frame
}

/// Puts one sensor, seldom more, outside its range.
pub fn spoil(frame: &mut Frame, rng: &mut Rng) {
    loop {
        match rng.below(13) as usize {
            cell @ 0..=7 => frame.cells[cell] = rng.pick(&[499, 5_001, 0, u16::MAX]),
            8 => frame.current = rng.pick(&[-2_000_001, 2_000_001, i32::MIN, i32::MAX]),
            other => {
                let value = rng.pick(&[-541, 881, i16::MIN, i16::MAX]);
                frame.temperatures[other - 9] = value;
            }
        }
        if !rng.one_in(6) {
            return;
        }
    }
}

/// Sensors at the last plausible value.
pub fn to_the_rim(frame: &mut Frame, rng: &mut Rng) {
    match rng.below(3) {
        0 => set_cell_to_rim(frame, rng),
        1 => frame.current = rng.pick(&[-2_000_000, 2_000_000]),
        _ => {
            let value = rng.pick(&[-540, 880]);
            set_temperature(frame, rng, value);
        }
    }
}

fn set_cell_to_rim(frame: &mut Frame, rng: &mut Rng) {
    let value = rng.pick(&[500, 5_000]);
    set_cell(frame, rng, value);
}

/// A current too small to be beyond any protection.
pub fn faint(rng: &mut Rng) -> i32 {
    rng.pick(&[0, 0, 0, 1, -1, 2, -2, 3, -3, 7, -7, 499, -499])
}

/// A current to follow the last: one that leaves little of their sum or
/// nothing, one of the opposite sign, or any.
pub fn neighbour(rng: &mut Rng, last: i32) -> i32 {
    let last = i64::from(last);
    let current = match rng.below(8) {
        0..=3 => rng.pick(&[1, -1, 3, -3, 2, -5]) - last,
        4 => -last,
        5 => -last.signum() * rng.between(1, 2_000_000),
        6 => rng.pick(&[-2_000_000, 2_000_000, 60_000, -20_000]),
        _ => rng.between(-2_000_000, 2_000_000),
    };
    current.clamp(-2_000_000, 2_000_000) as i32
}

pub fn zone(rng: &mut Rng) -> Zone {
    rng.pick(&[Zone::Beyond, Zone::Beyond, Zone::Between, Zone::Within])
}

/// A frame with some protections aimed at.
pub fn any(rng: &mut Rng, battery: u8) -> Frame {
    let mut frame = Frame::NOMINAL;
    frame.current = faint(rng);
    for _ in 0..rng.below(4) {
        let protection = rng.below(8) as u8;
        let zone = zone(rng);
        aim(&mut frame, rng, battery, protection, zone);
    }
    match rng.below(24) {
        0 => spoil(&mut frame, rng),
        1 => to_the_rim(&mut frame, rng),
        _ => (),
    }
    frame
}
