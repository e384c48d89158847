//! "Bench examples" and "Bench mistakes seen", on both engines.

mod common;

use common::*;
use peer::wire::{Frame, Log};

/// Current at a coldest temperature, held for the time.
fn charge(battery: u8, coldest: i16, current: i32, length: u32) -> Log {
    let frame = amps(current).with_temperature(1, coldest);
    frames(battery, &[(0, frame), (length, frame)])
}

/// Through the trip and release limits of protection 4, L is this.
fn permits(battery: u8, coldest: i16, permitted: i32) {
    let beyond = permitted + 2_001;
    assert!(tripped(&charge(battery, coldest, beyond, 3_000), 4));
    assert!(!tripped(&charge(battery, coldest, beyond, 2_999), 4));
    assert!(!tripped(&charge(battery, coldest, beyond - 1, 3_000), 4));
    for (current, still) in [(permitted + 1, true), (permitted, false)] {
        let mut log = charge(battery, coldest, beyond, 3_000);
        let frame = amps(current).with_temperature(2, coldest);
        log.measurement(3_001, &frame).measurement(13_001, &frame);
        assert_eq!(tripped(&log, 4), still);
    }
}

#[test]
fn permitted_current_type_1() {
    for (coldest, permitted) in [(-1, 0), (0, 1_666), (249, 59_600), (250, 60_000)] {
        permits(1, coldest, permitted);
        permits(2, coldest, permitted);
    }
}

#[test]
fn permitted_current_type_3() {
    permits(3, 0, 2_500);
}

#[test]
fn high_cell_holds_500() {
    assert!(!tripped(
        &frames(1, &[(0, high(3_651)), (499, high(3_651))]),
        0
    ));
    assert!(tripped(
        &frames(1, &[(0, high(3_651)), (500, high(3_651))]),
        0
    ));
}

#[test]
fn implausible_breaks_the_span() {
    let list = [(0, high(3_651)), (300, implausible()), (600, high(3_651))];
    assert!(!tripped(&frames(1, &list), 0));
}

#[test]
fn one_frame_of_short_circuit_current() {
    assert!(!tripped(&frames(1, &[(0, amps(-1_100_000))]), 5));
    assert!(tripped(&frames(1, &[(0, amps(-1_100_001))]), 5));
}

#[test]
fn discharge_holds_30_500() {
    let run = |last| frames(1, &[(0, amps(-120_001)), (last, amps(-120_001))]);
    assert!(!tripped(&run(30_499), 6));
    assert!(tripped(&run(30_500), 6));
}

/// As S-5 has it: 60,000 mA at both times.
#[test]
fn charged_account() {
    let edges = Frame {
        cells: [500; 8],
        current: 60_000,
        temperatures: [880, -540, 0, 0],
    };
    for later in [amps(60_000), edges] {
        let log = frames(1, &[(0, amps(60_000)), (1_000, later)]);
        assert_eq!(view(&log).charged, 60_000_000);
        assert!(text(&log).ends_with("\nend 60000000 0 0\n"));
    }
    let broken = frames(1, &[(0, amps(60_000)), (1_000, implausible())]);
    assert_eq!(view(&broken).charged, 0);
}

#[test]
fn mistake_between_is_not_within() {
    let mut log = frames(1, &[(0, high(3_651)), (500, high(3_651))]);
    for time in [501, 2_501, 9_000] {
        log.measurement(time, &high(3_600));
        assert!(tripped(&log, 0));
    }
    log.measurement(10_000, &high(3_500))
        .measurement(11_999, &high(3_500));
    assert!(tripped(&log, 0));
    log.measurement(12_000, &high(3_500));
    assert!(!tripped(&log, 0));
}

#[test]
fn mistake_between_breaks_a_beyond_span() {
    let list = [(0, high(3_651)), (250, high(3_650)), (500, high(3_651))];
    assert!(!tripped(&frames(1, &list), 0));
}

#[test]
fn mistake_stretching_over_a_power_loss() {
    let mut log = frames(1, &[(0, high(3_651).with_current(1_000))]);
    log.power_loss(100).power_on(100);
    log.measurement(500, &high(3_651).with_current(1_000));
    assert!(!tripped(&log, 0));
    assert_eq!(view(&log).charged, 0);
    log.measurement(999, &high(3_651));
    assert!(!tripped(&log, 0));
    log.measurement(1_000, &high(3_651));
    assert!(tripped(&log, 0));
}

/// Maintenance, Force closed, with the two frames' protection tripped.
fn forced(frame: Frame, hold: u32) -> Log {
    let mut log = at_state(3);
    log.measurement(0, &frame)
        .measurement(hold, &frame)
        .command(hold, 2);
    log
}

#[test]
fn mistake_force_closed_with_override_off() {
    let liftable = [
        (1, Frame::NOMINAL.with_cells(1_699), 2_000),
        (3, amps(501).with_temperature(0, -1), 1_000),
        (6, amps(-120_001), 30_500),
        (7, Frame::NOMINAL.with_cell(5, 2_799), 10_000),
    ];
    for (protection, frame, hold) in liftable {
        let mut log = forced(frame, hold);
        assert!(!view(&log).contactor);
        assert_eq!(view(&log).tripped, 1 << protection);
        log.battle_override(hold, 1);
        assert!(view(&log).contactor);
        log.battle_override(hold, 0);
        assert!(!view(&log).contactor);
    }
}

#[test]
fn override_never_lifts_the_others() {
    let fixed = [
        (0, high(3_651), 500),
        (2, Frame::NOMINAL.with_temperature(3, 711), 1_000),
        (4, amps(62_001), 3_000),
        (5, amps(-1_100_001), 0),
    ];
    for (protection, frame, hold) in fixed {
        let mut log = forced(frame, hold);
        log.battle_override(hold, 1);
        assert_eq!(view(&log).tripped, 1 << protection);
        assert!(!view(&log).contactor);
    }
}

#[test]
fn mistake_skipping_entries_under_override() {
    let mut log = at_state(2);
    let low = Frame::NOMINAL.with_cells(1_699);
    log.battle_override(0, 1)
        .measurement(0, &low)
        .measurement(2_000, &low);
    let view = view(&log);
    assert!(view.contactor && view.override_on);
    assert_eq!(view.tripped, 0x02);
    assert_eq!(view.long, [0x21, 0xD0, 7, 0, 0, 1, 0xA3, 6, 0, 0]);
    assert_eq!(view.short, view.long);
    assert!(text(&log).ends_with("end 0 0 1\n"));
}

#[test]
fn mistake_keeping_the_newest_64() {
    let mut log = frames(1, &[]);
    for cycle in 0..70u32 {
        let start = 2_000 * cycle;
        log.measurement(start, &amps(-1_100_001 - cycle as i32));
        log.measurement(start + 1, &Frame::NOMINAL);
        log.measurement(start + 1_001, &Frame::NOMINAL);
    }
    let view = view(&log);
    assert_eq!(view.long.len(), 640);
    for (cycle, entry) in view.long.chunks(10).enumerate() {
        let time = u32::from_le_bytes([entry[1], entry[2], entry[3], entry[4]]);
        let value = i32::from_le_bytes([entry[6], entry[7], entry[8], entry[9]]);
        assert_eq!(
            (time, value),
            (2_000 * cycle as u32, -1_100_001 - cycle as i32)
        );
    }
    assert!(text(&log).lines().last().expect("a line").ends_with(" 64"));
}
