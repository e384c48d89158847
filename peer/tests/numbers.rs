//! "Where each number is raised": every row that a log can reach.

mod common;

use common::*;
use peer::wire::{Frame, Log};

const MISSION: u32 = 345_600_000;

#[test]
fn row_1_bad_type() {
    assert_eq!(both(&[]).0, "stop 1 0\n");
    for battery in [0, 4, 0x21, 255] {
        let mut log = Log::new(battery);
        log.power_on(0);
        let (text, view) = both(&log.bytes);
        assert_eq!(text, "stop 1 0\n");
        assert_eq!((view.battery, view.state, view.last), (1, 0, 0));
    }
}

#[test]
fn row_2_unknown_kind() {
    for kind in (0..=255).filter(|kind| !(1..=7).contains(kind)) {
        for rest in [0, 3, 40] {
            let mut log = Log::new(1);
            log.power_on(0);
            log.bytes.push(kind);
            log.bytes.extend(vec![0; rest]);
            assert_eq!(text(&log), "1 0 1 0 00 0 0\nstop 2 6\n");
        }
    }
}

#[test]
fn row_3_cut_body() {
    let lengths = [(1, 32), (2, 4), (3, 4), (4, 5), (5, 5), (6, 5), (7, 4)];
    for (kind, length) in lengths {
        for had in 0..length {
            let mut bytes = vec![1, kind];
            bytes.extend(vec![255; had]);
            assert_eq!(both(&bytes).0, "stop 3 1\n", "kind {kind}, {had} bytes");
        }
    }
}

#[test]
fn row_4_last_byte() {
    for (kind, list) in [(4, 0..=2), (5, 1..=3), (6, 0..=1)] {
        for last in 0..=255 {
            let mut log = Log::new(1);
            log.raw(kind, 0, &[last]);
            let stops = text(&log) == "stop 4 1\n";
            assert_eq!(stops, !list.contains(&last), "kind {kind}, last {last}");
        }
    }
}

#[test]
fn a_stop_comes_after_the_lines_before_it() {
    let mut log = at_state(2);
    log.measurement(0, &amps(5)).raw(6, 0, &[2]).power_loss(0);
    let lines = "1 0 1 0 00 0 0\n2 0 2 0 00 0 0\n3 0 2 1 00 0 1\nstop 4 45\n";
    assert_eq!(text(&log), lines);
}

/// Kind and last byte of every call but the measurement.
const CALLS: [(u8, &[u8]); 11] = [
    (2, &[]),
    (3, &[]),
    (4, &[0]),
    (4, &[1]),
    (4, &[2]),
    (5, &[1]),
    (5, &[2]),
    (5, &[3]),
    (6, &[0]),
    (6, &[1]),
    (7, &[]),
];

/// The refusals of two measurements and of the calls above, each made on its
/// own after the log.
fn every_call(log: &Log, time: u32) -> Vec<u8> {
    let measured = [Frame::NOMINAL, implausible()].map(|frame| {
        refused(&mut log.clone(), |log| {
            log.measurement(time, &frame);
        })
    });
    let others = CALLS.map(|(kind, last)| {
        refused(&mut log.clone(), |log| {
            log.raw(kind, time, last);
        })
    });
    [&measured[..], &others[..]].concat()
}

#[test]
fn row_6_time_below() {
    for state in 0..=3 {
        let mut log = match state {
            0 => Log::new(1),
            _ => at_state(state),
        };
        match state {
            0 => log.power_on(100).power_loss(100),
            _ => log.measurement(100, &Frame::NOMINAL),
        };
        assert_eq!(every_call(&log, 99), [6; 13]);
        assert!(every_call(&log, 100).iter().all(|&number| number != 6));
    }
}

#[test]
fn row_7_time_above() {
    for state in 1..=3 {
        let log = at_state(state);
        assert_eq!(every_call(&log, MISSION + 1), [7; 13]);
        assert_eq!(every_call(&log, u32::MAX), [7; 13]);
        assert!(every_call(&log, MISSION).iter().all(|&number| number != 7));
    }
    assert_eq!(every_call(&Log::new(1), MISSION + 1), [7; 13]);
}

#[test]
fn rows_8_to_10_unpowered() {
    let mut expected = [8; 13];
    expected[2] = 0;
    assert_eq!(every_call(&Log::new(1), 0), expected);
}

#[test]
fn rows_8_to_10_dormant() {
    let expected = [0, 0, 8, 0, 10, 10, 10, 0, 0, 9, 10, 10, 10];
    assert_eq!(every_call(&at_state(1), 0), expected);
}

#[test]
fn rows_8_to_10_operational() {
    let expected = [0, 0, 8, 0, 0, 0, 10, 0, 0, 0, 0, 0, 10];
    assert_eq!(every_call(&at_state(2), 0), expected);
}

#[test]
fn rows_8_to_10_maintenance() {
    let expected = [0, 0, 8, 0, 0, 0, 0, 0, 0, 0, 0, 0, 0];
    assert_eq!(every_call(&at_state(3), 0), expected);
}

#[test]
fn a_refused_call_leaves_the_time() {
    let mut log = at_state(1);
    log.command(500, 0).measurement(10, &Frame::NOMINAL);
    assert_eq!(refusals(&log), [0, 10, 0]);
    assert_eq!(view(&log).last, 10);
}
