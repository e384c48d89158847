#![allow(dead_code)]

use peer::view::View;
use peer::wire::{Frame, Log};
use peer::{fast, model};

/// Runs both engines, demands that they agree, and answers what they say.
pub fn both(bytes: &[u8]) -> (String, View) {
    let text = model::text(bytes);
    for buffer in [1, 34, 4_096] {
        assert_eq!(text, fast::text(bytes, buffer), "texts, buffer {buffer}");
    }
    assert_eq!(model::views(bytes), fast::views(bytes), "views");
    let view = model::view(bytes);
    assert_eq!(view, fast::view(bytes), "last view");
    (text, view)
}

pub fn text(log: &Log) -> String {
    both(&log.bytes).0
}

pub fn view(log: &Log) -> View {
    both(&log.bytes).1
}

/// The refusal numbers of the events, in order.
pub fn refusals(log: &Log) -> Vec<u8> {
    let field = |line: &str| line.split(' ').nth(1).and_then(|f| f.parse().ok());
    text(log)
        .lines()
        .filter(|line| line.as_bytes()[0].is_ascii_digit())
        .map(|line| field(line).expect("a refusal"))
        .collect()
}

/// The last event's refusal, which must have changed nothing.
pub fn refused(log: &mut Log, add: impl Fn(&mut Log)) -> u8 {
    let before = view(log);
    add(log);
    let number = *refusals(log).last().expect("an event");
    if number != 0 {
        assert_eq!(before, view(log), "a refused call changes nothing");
    }
    number
}

/// Powered on at 0, then these frames at these times.
pub fn frames(battery: u8, list: &[(u32, Frame)]) -> Log {
    let mut log = Log::new(battery);
    log.power_on(0);
    for (time, frame) in list {
        log.measurement(*time, frame);
    }
    log
}

/// A log that has reached the state (1 to 3) at time 0.
pub fn at_state(state: u8) -> Log {
    let mut log = Log::new(1);
    log.power_on(0);
    (2..=state).for_each(|next| {
        log.request(0, next);
    });
    log
}

/// Whether the protection is tripped after the log.
pub fn tripped(log: &Log, protection: u8) -> bool {
    view(log).tripped >> protection & 1 == 1
}

pub fn high(millivolts: u16) -> Frame {
    Frame::NOMINAL.with_cell(3, millivolts)
}

pub fn amps(milliamperes: i32) -> Frame {
    Frame::NOMINAL.with_current(milliamperes)
}

pub fn implausible() -> Frame {
    Frame::NOMINAL.with_cell(0, 499)
}
