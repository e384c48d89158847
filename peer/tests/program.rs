//! "The program" and the bytes of the stores.

mod common;

use common::*;
use peer::wire::{Frame, Log};

fn unhex(text: &str) -> Vec<u8> {
    let digits: Vec<u8> = text.bytes().filter(u8::is_ascii_hexdigit).collect();
    let byte = |pair: &[u8]| {
        let pair = std::str::from_utf8(pair).expect("digits");
        u8::from_str_radix(pair, 16).expect("hex")
    };
    digits.chunks(2).map(byte).collect()
}

const EXAMPLE: &str = "01 02 00000000 05 00000000 02 01 E8030000 \
    E40C E40C E40C E40C E40C E40C E40C E40C 00000000 FA00 FA00 FA00 FA00 \
    04 E8030000 02";

const EXAMPLE_LINES: &str = "1 0 1 0 00 0 0\n2 0 2 0 00 0 0\n3 0 2 1 00 0 1\n4 10 2 1 00 0 1\n";

#[test]
fn example() {
    let (text, view) = both(&unhex(EXAMPLE));
    assert_eq!(text, format!("{EXAMPLE_LINES}end 0 0 0\n"));
    assert!(view.contactor);
    assert_eq!((view.last, view.commands), (1_000, 0));
}

#[test]
fn example_written_with_the_log_builder() {
    let mut log = at_state(2);
    log.measurement(1_000, &Frame::NOMINAL).command(1_000, 2);
    assert_eq!(log.bytes, unhex(EXAMPLE));
}

#[test]
fn view_of_the_example() {
    let (_, view) = both(&unhex(EXAMPLE));
    let lines = "type 1\nstate 2\ncommand 0\noverride 0\nlast 1000\ncommands 0\ntest 1\n\
        failed 0000\nfailed_count 0\ntripped 00\ncontactor 1\ncharged 0\ndischarged 0\n\
        long -\nshort -\n";
    assert_eq!(view.to_string(), lines);
}

#[test]
fn a_type_alone_ends() {
    for battery in 1..=3 {
        let (text, view) = both(&[battery]);
        assert_eq!(text, "end 0 0 0\n");
        assert_eq!(view.battery, battery);
    }
}

#[test]
fn every_cut_of_the_example() {
    let whole = unhex(EXAMPLE);
    let lines: Vec<&str> = EXAMPLE_LINES.lines().collect();
    let starts = [1, 6, 12, 45, 51];
    for length in 1..whole.len() {
        let read = starts[1..].iter().filter(|&&at| at <= length).count();
        let mut expected: String = lines[..read].iter().map(|l| format!("{l}\n")).collect();
        let last = if starts.contains(&length) {
            "end 0 0 0\n".to_string()
        } else {
            format!("stop 3 {}\n", starts[read])
        };
        expected.push_str(&last);
        assert_eq!(both(&whole[..length]).0, expected, "cut at {length}");
    }
}

#[test]
fn failed_sensors_by_bit() {
    for cell in 0..8 {
        for value in [0, 499, 5_001, u16::MAX] {
            let view = view(&frames(1, &[(0, Frame::NOMINAL.with_cell(cell, value))]));
            assert_eq!(
                (view.failed, view.failed_count, view.test),
                (1 << cell, 1, 2)
            );
        }
    }
    for value in [i32::MIN, -2_000_001, 2_000_001, i32::MAX] {
        assert_eq!(view(&frames(1, &[(0, amps(value))])).failed, 1 << 8);
    }
    for sensor in 0..4 {
        for value in [i16::MIN, -541, 881, i16::MAX] {
            let frame = Frame::NOMINAL.with_temperature(sensor, value);
            assert_eq!(view(&frames(1, &[(0, frame)])).failed, 1 << (9 + sensor));
        }
    }
}

#[test]
fn edges_are_plausible() {
    for frame in [
        Frame::NOMINAL.with_cells(500),
        Frame::NOMINAL.with_cells(5_000),
        amps(2_000_000),
        amps(-2_000_000),
        Frame::NOMINAL.with_temperature(0, -540),
        Frame::NOMINAL.with_temperature(3, 880),
    ] {
        let view = view(&frames(1, &[(0, frame)]));
        assert_eq!((view.test, view.failed, view.failed_count), (1, 0, 0));
    }
}

#[test]
fn all_sensors_failed() {
    let frame = Frame {
        cells: [0; 8],
        current: i32::MIN,
        temperatures: [i16::MAX; 4],
    };
    let view = view(&frames(1, &[(0, frame)]));
    assert_eq!((view.failed, view.failed_count), (0x1FFF, 13));
}

#[test]
fn entry_bytes_trips_before_releases_in_rising_number() {
    let mut log = frames(1, &[(0, amps(-1_100_001)), (1, Frame::NOMINAL)]);
    log.measurement(501, &high(3_651))
        .measurement(1_001, &high(3_651));
    let view = view(&log);
    assert_eq!(view.tripped, 0x01);
    let trip_5 = unhex("21 00000000 05 1F37EFFF");
    let trip_0 = unhex("21 E9030000 00 430E0000");
    let release_5 = unhex("22 E9030000 05");
    assert_eq!(view.long, [trip_5.clone(), trip_0.clone()].concat());
    assert_eq!(view.short, [trip_5, trip_0, release_5].concat());
}

#[test]
fn the_short_term_store_keeps_the_last_16() {
    let mut log = frames(1, &[]);
    for cycle in 0..9u32 {
        let start = 2_000 * cycle;
        log.measurement(start, &amps(-1_100_001));
        log.measurement(start + 1, &Frame::NOMINAL);
        log.measurement(start + 1_001, &Frame::NOMINAL);
    }
    let view = view(&log);
    assert_eq!(view.short.len(), 8 * (10 + 6));
    assert_eq!(view.short[..6], unhex("21 D0070000 05"));
    assert_eq!(view.short[122..], unhex("22 69420000 05"));
    assert_eq!(view.long.len(), 90);
}

#[test]
fn clear_empties_the_long_term_store_alone() {
    let mut log = at_state(3);
    log.measurement(0, &amps(-1_100_001)).clear(5);
    let after = view(&log);
    assert!(after.long.is_empty());
    assert_eq!(
        (after.short.len(), after.tripped, after.last),
        (10, 0x20, 5)
    );
    log.measurement(6, &Frame::NOMINAL)
        .measurement(1_006, &Frame::NOMINAL);
    log.measurement(1_007, &amps(-1_100_001));
    assert_eq!(view(&log).long.len(), 10);
}

#[test]
fn power_loss_keeps_the_long_term_store_accounts_and_count() {
    let mut log = at_state(3);
    log.command(0, 2).battle_override(0, 1);
    log.measurement(0, &amps(-1_100_001))
        .measurement(10, &implausible());
    log.power_loss(10);
    let off = view(&log);
    assert_eq!((off.state, off.command, off.override_on), (0, 0, false));
    assert_eq!((off.test, off.failed, off.tripped), (0, 0, 0));
    assert_eq!((off.long.len(), off.short.len(), off.commands), (10, 0, 1));
    log.power_on(11);
    let on = view(&log);
    assert_eq!(
        (on.state, on.long.len(), on.short.len(), on.commands),
        (1, 10, 0, 1)
    );
}

#[test]
fn a_real_change_of_state_sets_automated() {
    let mut log = at_state(3);
    log.command(0, 2).request(0, 3);
    assert_eq!(view(&log).command, 2);
    log.request(0, 2);
    assert_eq!(view(&log).command, 0);
    log.battle_override(0, 1).request(0, 2);
    assert!(view(&log).override_on);
    log.request(0, 1);
    assert!(!view(&log).override_on);
}

#[test]
fn equal_times_are_accepted_up_to_the_mission_time() {
    let mut log = Log::new(2);
    log.power_on(345_600_000).request(345_600_000, 2);
    log.measurement(345_600_000, &Frame::NOMINAL)
        .power_loss(345_600_000);
    assert_eq!(refusals(&log), [0, 0, 0, 0]);
}
