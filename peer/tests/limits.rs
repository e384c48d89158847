//! Every row of the table of protections at its limits, on both engines.

mod common;

use common::*;
use peer::wire::Frame;

struct Row {
    protection: u8,
    hold: u32,
    release: u32,
    /// The value just beyond, just not beyond, just within, just not within.
    frames: [Frame; 4],
    value: i32,
}

fn rows() -> Vec<Row> {
    let cold = |tenths: i16| Frame::NOMINAL.with_temperature(2, tenths).with_current(501);
    let hot = |tenths: i16| Frame::NOMINAL.with_temperature(0, tenths);
    let low = |millivolts: u16| Frame::NOMINAL.with_cells(millivolts);
    let spread = |millivolts: u16| Frame::NOMINAL.with_cell(7, 3_300 - millivolts);
    let row = |protection, hold, release, frames, value| Row {
        protection,
        hold,
        release,
        frames,
        value,
    };
    let short = [
        amps(-1_100_001),
        amps(-1_100_000),
        amps(-120_000),
        amps(-120_001),
    ];
    let over = [
        amps(-120_001),
        amps(-120_000),
        amps(-120_000),
        amps(-120_001),
    ];
    vec![
        row(0, 500, 2_000, [3_651, 3_650, 3_500, 3_501].map(high), 3_651),
        row(
            1,
            2_000,
            2_000,
            [1_699, 1_700, 2_800, 2_799].map(low),
            1_699,
        ),
        row(2, 1_000, 5_000, [711, 710, 600, 601].map(hot), 711),
        row(3, 1_000, 5_000, [-1, 0, 50, 49].map(cold), -1),
        row(
            4,
            3_000,
            10_000,
            [62_001, 62_000, 60_000, 60_001].map(amps),
            62_001,
        ),
        row(5, 0, 1_000, short, -1_100_001),
        row(6, 30_500, 10_000, over, -120_001),
        row(7, 10_000, 10_000, [501, 500, 300, 301].map(spread), 501),
    ]
}

#[test]
fn trips_at_the_hold_and_not_before() {
    for row in rows() {
        let [beyond, not_beyond, ..] = row.frames;
        let p = row.protection;
        let log = frames(1, &[(7, beyond), (7 + row.hold, beyond)]);
        assert!(tripped(&log, p), "{p}");
        let entry = view(&log).long;
        let (time, number, value) = (&entry[1..5], entry[5], &entry[6..10]);
        assert_eq!((number, value), (p, &row.value.to_le_bytes()[..]));
        assert_eq!(time, (7 + row.hold).to_le_bytes());
        if row.hold > 0 {
            let log = frames(1, &[(7, beyond), (6 + row.hold, beyond)]);
            assert!(!tripped(&log, p), "{p} early");
        }
        let log = frames(1, &[(7, not_beyond), (7 + row.hold, not_beyond)]);
        assert!(!tripped(&log, p), "{p} not beyond");
    }
}

#[test]
fn releases_at_the_time_and_not_before() {
    for row in rows() {
        let [beyond, _, within, not_within] = row.frames;
        let p = row.protection;
        let start = row.hold + 1;
        let trip = [(0, beyond), (row.hold, beyond), (start, within)];
        for (length, frame, still) in [
            (row.release, within, false),
            (row.release - 1, within, true),
            (row.release, not_within, true),
        ] {
            let mut log = frames(1, &trip);
            log.measurement(start + length, &frame);
            assert_eq!(tripped(&log, p), still, "{p}");
        }
    }
}

#[test]
fn broken_within_spans_do_not_release() {
    for row in rows() {
        let [beyond, _, within, not_within] = row.frames;
        for breaker in [not_within, implausible()] {
            let middle = row.hold + row.release / 2;
            let end = row.hold + 1 + row.release;
            let mut log = frames(1, &[(0, beyond), (row.hold, beyond)]);
            log.measurement(row.hold + 1, &within);
            log.measurement(middle, &breaker);
            log.measurement(end, &within);
            assert!(tripped(&log, row.protection));
            log.measurement(end + row.release, &within);
            assert!(!tripped(&log, row.protection));
        }
    }
}

#[test]
fn cold_needs_charge_current() {
    let cold = |current| amps(current).with_temperature(0, -1);
    assert!(!tripped(
        &frames(1, &[(0, cold(500)), (1_000, cold(500))]),
        3
    ));
    assert!(tripped(
        &frames(1, &[(0, cold(501)), (1_000, cold(501))]),
        3
    ));
}

#[test]
fn type_3_ratings() {
    let run = |current| frames(3, &[(0, amps(current)), (30_500, amps(current))]);
    assert!(!tripped(&run(-180_000), 6));
    assert!(tripped(&run(-180_001), 6));
    assert!(!tripped(&run(92_000), 4));
    assert!(tripped(&run(92_001), 4));
}

#[test]
fn other_calls_do_not_break_a_span() {
    let mut log = at_state(2);
    log.measurement(0, &high(3_651))
        .command(100, 1)
        .request(200, 3);
    log.command(250, 2)
        .clear(300)
        .battle_override(400, 1)
        .power_on(450);
    log.request(475, 1).measurement(500, &high(3_651));
    assert!(tripped(&log, 0));
}
