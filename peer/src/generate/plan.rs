//! A log in the making, with a rough idea of where the record stands.

use super::rng::Rng;
use crate::wire::{Frame, Log};

pub const MISSION: u32 = 345_600_000;

pub struct Plan {
    pub rng: Rng,
    pub log: Log,
    pub battery: u8,
    pub left: usize,
    /// The last accepted time.
    pub now: u32,
    /// The last accepted frame's current.
    pub current: i32,
    pub state: u8,
    /// Whether a call may jump to the mission time.
    pub may_finish: bool,
}

impl Plan {
    pub fn new(mut rng: Rng, battery: u8, events: usize) -> Plan {
        let may_finish = rng.one_in(4);
        Plan {
            rng,
            log: Log::new(battery),
            battery,
            left: events,
            now: 0,
            current: 0,
            state: 0,
            may_finish,
        }
    }

    fn event(&mut self, kind: u8, time: u32, last: u8) {
        if self.left == 0 {
            return;
        }
        self.left -= 1;
        match kind {
            4..=6 => self.log.raw(kind, time, &[last]),
            _ => self.log.raw(kind, time, &[]),
        };
        self.follow(kind, time, last);
    }

    /// The frame at the time, mostly put back to the mission's end if later.
    pub fn frame(&mut self, time: u32, frame: &Frame) {
        let late = time > MISSION && !self.rng.one_in(6);
        self.frame_at(if late { MISSION } else { time }, frame);
    }

    /// The frame at the very time, be it refused.
    pub fn frame_at(&mut self, time: u32, frame: &Frame) {
        if self.left == 0 {
            return;
        }
        self.left -= 1;
        self.log.measurement(time, frame);
        if self.follow(1, time, 0) {
            self.current = frame.current;
        }
    }

    /// Takes in what the call does; answers whether it is accepted.
    fn follow(&mut self, kind: u8, time: u32, last: u8) -> bool {
        let timely = (self.now..=MISSION).contains(&time);
        if !timely || (self.state == 0) != (kind == 2) {
            return false;
        }
        let accepted = match kind {
            4 => self.state == 3 || (self.state == 2 && last < 2),
            5 => (self.state, last) != (1, 3),
            6 => self.state >= 2,
            7 => self.state == 3,
            _ => true,
        };
        if accepted {
            self.now = time;
            self.state = match kind {
                2 => 1,
                3 => 0,
                5 => last,
                _ => self.state,
            };
        }
        accepted
    }

    pub fn power_on(&mut self, time: u32) {
        self.event(2, time, 0);
    }

    pub fn power_loss(&mut self, time: u32) {
        self.event(3, time, 0);
    }

    pub fn command(&mut self, time: u32, command: u8) {
        self.event(4, time, command);
    }

    pub fn request(&mut self, time: u32, state: u8) {
        self.event(5, time, state);
    }

    pub fn battle_override(&mut self, time: u32, on: u8) {
        self.event(6, time, on);
    }

    pub fn clear(&mut self, time: u32) {
        self.event(7, time, 0);
    }

    /// Mostly the last time or just after it; at times one that is refused.
    pub fn time(&mut self) -> u32 {
        let now = self.now;
        match self.rng.below(40) {
            0..=2 => now.saturating_sub(1),
            3 => self.rng.below(u64::from(now) + 1) as u32,
            4 => 0,
            5 | 6 => MISSION + 1,
            7 => u32::MAX,
            8 => self.rng.word() as u32,
            9 if self.may_finish && self.rng.one_in(6) => MISSION - self.rng.below(2) as u32,
            10..=13 => now.saturating_add(1),
            14..=17 => now.saturating_add(self.rng.below(700) as u32),
            _ => now,
        }
    }

    /// Any call that is not a measurement, in whatever state.
    pub fn noise(&mut self) {
        let time = self.time();
        match self.rng.below(20) {
            0 => self.power_on(time),
            1 => self.power_loss(time),
            2..=7 => {
                let command = self.rng.below(3) as u8;
                self.command(time, command);
            }
            8..=12 => {
                let state = 1 + self.rng.below(3) as u8;
                self.request(time, state);
            }
            13..=17 => {
                let on = self.rng.below(2) as u8;
                self.battle_override(time, on);
            }
            18 if self.rng.one_in(3) => self.clear(time),
            _ => (),
        }
    }

    /// Powered, and usually where the contactor can close.
    pub fn drive(&mut self) {
        let now = self.now;
        if self.state == 0 {
            self.power_on(now);
        }
        if self.state == 1 && !self.rng.one_in(8) {
            self.request(now, 2);
        }
        if self.rng.one_in(3) {
            self.request(now, 3);
            self.command(now, 2);
        }
        if self.rng.one_in(3) {
            self.battle_override(now, 1);
        }
    }
}
