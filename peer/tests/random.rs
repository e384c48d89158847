//! A few random logs, and logs longer than the buffers.

mod common;

use common::both;
use peer::model::Tally;
use peer::view::View;
use peer::wire::Log;
use peer::{fast, generate, model};

#[test]
fn random_logs_agree() {
    for seed in 0..60 {
        both(&generate::log(seed, 120));
    }
}

#[test]
fn a_seed_makes_one_log() {
    assert_eq!(generate::log(5, 50), generate::log(5, 50));
    assert_ne!(generate::log(5, 50), generate::log(6, 50));
}

/// The records that the log of a seed parks: Maintenance, Dormant just after.
fn parked(seed: u64) -> Vec<View> {
    let views = fast::views(&generate::log(seed, 120));
    let straight = |pair: &&[View]| (pair[0].state, pair[1].state) == (3, 1);
    let pairs = views.windows(2).filter(straight);
    pairs.map(|pair| pair[0].clone()).collect()
}

/// What occurred in the logs of the seeds below 200.
fn tally() -> Tally {
    let mut tally = Tally::default();
    for seed in 0..200 {
        tally.add(&model::tally(&generate::log(seed, 120)));
    }
    tally
}

#[test]
fn random_logs_park_from_maintenance() {
    let records: Vec<View> = (0..200).flat_map(parked).collect();
    let count = |test: fn(&View) -> bool| records.iter().filter(|view| test(view)).count();
    let tally = tally();
    assert_eq!(tally.parkings[0], records.len() as u64);
    assert!(count(|view| view.command == 2) > 100);
    assert!(count(|view| view.override_on) > 100);
    assert!(count(|view| view.tripped != 0) > 100);
    assert!(count(|view| view.contactor) > 50);
    assert!(tally.parkings[6] > 20 && tally.parkings[7] > 20);
    assert!(tally.refusals[9] > 100, "Dormant to Maintenance");
}

#[test]
fn random_logs_try_the_halving() {
    let Tally { odd, cancelled, .. } = tally();
    assert!(odd.iter().all(|&count| count > 500), "{odd:?}");
    assert!(cancelled > 200, "{cancelled}");
}

/// 20,001 lines: several times the output buffer.
#[test]
fn longer_than_the_buffers() {
    let mut log = Log::new(3);
    let mut expected = String::new();
    for number in 1..=20_001 {
        log.power_on(0);
        let refusal = if number == 1 { 0 } else { 8 };
        expected.push_str(&format!("{number} {refusal} 1 0 00 0 0\n"));
    }
    log.bytes.push(9);
    expected.push_str("stop 2 100006\n");
    assert_eq!(model::text(&log.bytes), expected);
    for buffer in [33, 1_000, 65_536, 1_000_000] {
        assert_eq!(fast::text(&log.bytes, buffer), expected);
    }
}

/// A source that hands out one byte at a time.
struct Drip<'a>(&'a [u8]);

impl std::io::Read for Drip<'_> {
    fn read(&mut self, buffer: &mut [u8]) -> std::io::Result<usize> {
        let length = 1.min(self.0.len()).min(buffer.len());
        let (now, later) = self.0.split_at(length);
        buffer[..length].copy_from_slice(now);
        self.0 = later;
        Ok(length)
    }
}

#[test]
fn one_byte_at_a_time() {
    for seed in 0..40 {
        let log = generate::log(seed, 60);
        let mut out = Vec::new();
        fast::run(Drip(&log), &mut out, 33).expect("reading memory");
        assert_eq!(String::from_utf8_lossy(&out), model::text(&log));
    }
}
