//! S-3 of document 02, "Maintenance straight to Dormant", on both engines.

mod common;

use common::*;
use peer::view::View;
use peer::wire::{Frame, Log};

const MISSION: u32 = 345_600_000;
/// The last accepted time in Maintenance; protections 0 and 1 trip by then.
const LAST: u32 = 2_000;

/// Maintenance after two equal frames, under the command and the override.
fn maintenance(frame: Frame, command: u8, on: u8) -> Log {
    let mut log = at_state(3);
    log.measurement(0, &frame).measurement(LAST, &frame);
    log.command(LAST, command).battle_override(LAST, on);
    log
}

/// Nothing tripped, a liftable protection, another one, a failed test; each
/// under every command, override off and on.
fn records() -> Vec<Log> {
    let low = Frame::NOMINAL.with_cells(1_699);
    let under_all = |frame| (0..6).map(move |n| maintenance(frame, n % 3, n / 3));
    [Frame::NOMINAL, low, high(3_651), implausible()]
        .into_iter()
        .flat_map(under_all)
        .collect()
}

/// The log with a request for each of the states at the time.
fn asked(log: &Log, time: u32, states: &[u8]) -> Log {
    let mut log = log.clone();
    for &state in states {
        log.request(time, state);
    }
    log
}

#[test]
fn a_closed_battery_is_parked() {
    let log = maintenance(Frame::NOMINAL, 2, 1);
    let before = view(&log);
    assert_eq!((before.state, before.command), (3, 2));
    assert!(before.contactor && before.override_on);
    let parked = asked(&log, LAST, &[1]);
    assert_eq!(refusals(&parked).last(), Some(&0));
    let after = view(&parked);
    assert_eq!((after.state, after.command), (1, 0));
    assert!(!after.contactor && !after.override_on);
}

/// All but what the two requests set is left as it was.
#[test]
fn parking_means_operational_then_dormant() {
    for log in records() {
        let time = LAST + 5;
        let expected = View {
            state: 1,
            command: 0,
            override_on: false,
            contactor: false,
            last: time,
            ..view(&log)
        };
        assert_eq!(view(&asked(&log, time, &[1])), expected);
        assert_eq!(view(&asked(&log, time, &[2, 1])), expected);
    }
}

#[test]
fn numbers_of_the_request() {
    let closed = maintenance(Frame::NOMINAL, 2, 1);
    let parked = asked(&closed, LAST, &[1]);
    let mut unpowered = closed.clone();
    unpowered.power_loss(LAST);
    let cases = [
        (&closed, LAST, 1, 0),
        (&closed, MISSION, 1, 0),
        (&closed, 0, 1, 6),
        (&closed, LAST - 1, 1, 6),
        (&closed, MISSION + 1, 1, 7),
        (&closed, u32::MAX, 1, 7),
        (&unpowered, LAST, 1, 8),
        (&parked, LAST, 3, 9),
        (&at_state(1), 0, 3, 9),
    ];
    for (log, time, state, number) in cases {
        let answer = refused(&mut log.clone(), |log| {
            log.request(time, state);
        });
        assert_eq!(answer, number, "state {state} at {time}");
    }
}
