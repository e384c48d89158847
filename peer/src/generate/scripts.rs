//! What happens in a log: spans cut close, storms, walks through the states,
//! currents that nearly cancel.

use super::frames::{aim, any, disaster, faint, neighbour, spoil, zone, Zone, TIMES};
use super::plan::{Plan, MISSION};
use crate::wire::Frame;

/// A profile names how often each script comes: spans, loose frames, noise,
/// storms, power cycles, clears, parkings, currents.
pub type Profile = [u64; 8];

pub const PROFILES: [Profile; 9] = [
    [10, 4, 4, 0, 1, 1, 2, 1],
    [1, 30, 3, 0, 1, 1, 2, 2],
    [1, 1, 1, 12, 0, 0, 1, 0],
    [2, 4, 30, 0, 3, 2, 3, 2],
    [6, 6, 6, 3, 2, 2, 3, 3],
    [20, 0, 0, 0, 0, 0, 0, 0],
    [2, 2, 1, 10, 1, 3, 1, 1],
    [2, 3, 4, 0, 1, 1, 12, 1],
    [1, 2, 2, 0, 1, 0, 1, 12],
];

pub fn fill(plan: &mut Plan, profile: &Profile) {
    let mut rounds = 0;
    while plan.left > 0 && rounds < 100_000 {
        rounds += 1;
        if plan.state < 2 && plan.rng.one_in(2) {
            plan.drive();
        }
        match weighted(plan, profile) {
            0 => span(plan),
            1 => loose_frame(plan),
            2 => plan.noise(),
            3 => storm(plan),
            4 => power_cycle(plan),
            5 => clear(plan),
            6 => park(plan),
            _ => currents(plan),
        }
    }
}

fn weighted(plan: &mut Plan, weights: &Profile) -> usize {
    let mut at = plan.rng.below(weights.iter().sum());
    for (index, &weight) in weights.iter().enumerate() {
        if at < weight {
            return index;
        }
        at -= weight;
    }
    0
}

/// A length just under, at or just over the given one, or well off it.
fn close_to(plan: &mut Plan, length: u32) -> u32 {
    match plan.rng.below(8) {
        0 | 1 => length.saturating_sub(1),
        2..=4 => length,
        5 | 6 => length + 1,
        _ => plan.rng.below(2 * u64::from(length) + 2) as u32,
    }
}

/// One protection held beyond for about its hold, then within for about its
/// release, over a background that stays.
fn span(plan: &mut Plan) {
    let protection = plan.rng.below(8) as u8;
    let (hold, release) = TIMES[usize::from(protection)];
    let mut background = Frame::NOMINAL;
    if plan.rng.one_in(2) {
        let other = plan.rng.below(8) as u8;
        let zone = zone(&mut plan.rng);
        aim(&mut background, &mut plan.rng, plan.battery, other, zone);
    }
    let length = close_to(plan, hold);
    let zone = mostly(plan, Zone::Beyond);
    row(plan, background, protection, zone, length);
    if plan.rng.one_in(4) {
        between(plan, background, protection);
    }
    if !plan.rng.one_in(4) {
        let length = close_to(plan, release);
        let background = match plan.rng.below(3) {
            0 => background,
            _ => Frame::NOMINAL,
        };
        let zone = mostly(plan, Zone::Within);
        row(plan, background, protection, zone, length);
    }
}

/// The zone, or now and then just short of it.
fn mostly(plan: &mut Plan, zone: Zone) -> Zone {
    if plan.rng.one_in(6) {
        Zone::Between
    } else {
        zone
    }
}

/// Frames in one zone over a length, now and then with a break in it.
fn row(plan: &mut Plan, background: Frame, protection: u8, zone: Zone, length: u32) {
    let start = plan.now.saturating_add(plan.rng.pick(&[0, 1, 1, 37]));
    let steps = plan.rng.below(4) as u32;
    frame_in(plan, start, background, protection, zone);
    for step in 1..=steps {
        let time = start
            .saturating_add((u64::from(length) * u64::from(step) / u64::from(steps + 1)) as u32);
        middle(plan, time, background, protection, zone);
    }
    frame_in(
        plan,
        start.saturating_add(length),
        background,
        protection,
        zone,
    );
}

fn middle(plan: &mut Plan, time: u32, background: Frame, protection: u8, zone: Zone) {
    match plan.rng.below(24) {
        0 => between_at(plan, time, background, protection),
        1 => {
            let mut frame = background;
            spoil(&mut frame, &mut plan.rng);
            plan.frame(time, &frame);
        }
        2 => {
            plan.power_loss(time);
            plan.power_on(time);
        }
        3 | 4 => plan.noise(),
        5 => plan.request(time, 1),
        _ => frame_in(plan, time, background, protection, zone),
    }
}

fn frame_in(plan: &mut Plan, time: u32, mut frame: Frame, protection: u8, zone: Zone) {
    if frame.current == 0 {
        frame.current = faint(&mut plan.rng);
    }
    aim(&mut frame, &mut plan.rng, plan.battery, protection, zone);
    plan.frame(time, &frame);
}

fn between(plan: &mut Plan, background: Frame, protection: u8) {
    let now = plan.now;
    let (hold, release) = TIMES[usize::from(protection)];
    between_at(plan, now, background, protection);
    let later = close_to(plan, hold.max(release));
    between_at(plan, now.saturating_add(later), background, protection);
}

fn between_at(plan: &mut Plan, time: u32, background: Frame, protection: u8) {
    frame_in(plan, time, background, protection, Zone::Between);
}

/// Any frame at a step that may complete some hold or release.
fn loose_frame(plan: &mut Plan) {
    let (hold, release) = plan.rng.pick(&TIMES);
    let step = match plan.rng.below(6) {
        0 => 0,
        1 => plan.rng.pick(&[1, 2, 10]),
        2 => close_to(plan, hold),
        3 => close_to(plan, release),
        _ => plan.rng.below(3_000) as u32,
    };
    let time = match plan.rng.below(20) {
        0 => plan.time(),
        _ => plan.now.saturating_add(step),
    };
    let frame = any(&mut plan.rng, plan.battery);
    plan.frame(time, &frame);
}

/// Many trips and releases in few events.
fn storm(plan: &mut Plan) {
    if plan.rng.one_in(2) {
        return short_storm(plan);
    }
    let frame = disaster(&mut plan.rng, plan.battery);
    let start = plan.now.saturating_add(1);
    let hold = plan.rng.pick(&[500, 1_000, 2_000, 3_000, 10_000, 30_500]);
    let release = plan.rng.pick(&[1_000, 2_000, 5_000, 10_000]);
    let end = start.saturating_add(close_to(plan, hold));
    plan.frame(start, &frame);
    plan.frame(end, &frame);
    let calm = end.saturating_add(1);
    let over = calm.saturating_add(close_to(plan, release));
    plan.frame(calm, &Frame::NOMINAL);
    plan.frame(over, &Frame::NOMINAL);
}

/// Protection 5 alone, again and again.
fn short_storm(plan: &mut Plan) {
    for _ in 0..1 + plan.rng.below(20) {
        let now = plan.now.saturating_add(1);
        frame_in(plan, now, Frame::NOMINAL, 5, Zone::Beyond);
        let calm = now.saturating_add(1);
        let length = plan.rng.pick(&[999, 1_000, 1_000, 1_000, 1_001]);
        frame_in(plan, calm, Frame::NOMINAL, 5, Zone::Within);
        frame_in(
            plan,
            calm.saturating_add(length),
            Frame::NOMINAL,
            5,
            Zone::Within,
        );
    }
}

fn power_cycle(plan: &mut Plan) {
    let time = plan.time();
    plan.power_loss(time);
    if plan.rng.one_in(3) {
        plan.noise();
    }
    let time = plan.time();
    plan.power_on(time);
}

fn clear(plan: &mut Plan) {
    let now = plan.now;
    if !plan.rng.one_in(3) {
        maintain(plan);
    }
    plan.clear(now);
}

/// To Maintenance, from any powered state.
fn maintain(plan: &mut Plan) {
    let now = plan.now;
    plan.request(now, 2);
    plan.request(now, 3);
}

/// From Maintenance straight to Dormant: with something tripped or not, often
/// with Force closed and override in force, at times untimely. Then the way
/// back, which is not allowed.
fn park(plan: &mut Plan) {
    let protection = plan.rng.below(8) as u8;
    let (hold, _) = TIMES[usize::from(protection)];
    let zone = zone(&mut plan.rng);
    row(plan, Frame::NOMINAL, protection, zone, hold);
    maintain(plan);
    let now = plan.now;
    if !plan.rng.one_in(3) {
        plan.command(now, 2);
    }
    if plan.rng.one_in(2) {
        plan.battle_override(now, 1);
    }
    for state in [1, 3] {
        let time = plan.time();
        plan.request(time, state);
    }
}

/// A row of frames whose neighbours try the rounding and the sign of what
/// joins the accounts, with what parts neighbours, or does not, in between.
fn currents(plan: &mut Plan) {
    for _ in 0..2 + plan.rng.below(12) {
        match plan.rng.below(24) {
            0 => spoiled_frame(plan),
            1 => power_cycle(plan),
            2 => plan.noise(),
            3 => untimely_frame(plan),
            _ => (),
        }
        let current = neighbour(&mut plan.rng, plan.current);
        let time = plan.now.saturating_add(elapsed(plan));
        plan.frame(time, &Frame::NOMINAL.with_current(current));
    }
}

/// Mostly few milliseconds and odd; at times a good part of what is left.
fn elapsed(plan: &mut Plan) -> u32 {
    match plan.rng.below(24) {
        0 => 0,
        1..=3 => 2,
        4..=6 => plan.rng.pick(&[999, 1_000, 1_001]),
        7 => plan.rng.below(u64::from(MISSION - plan.now) / 8 + 2) as u32,
        _ => plan.rng.pick(&[1, 1, 1, 3, 3, 5, 7]),
    }
}

fn spoiled_frame(plan: &mut Plan) {
    let mut frame = Frame::NOMINAL.with_current(plan.current);
    spoil(&mut frame, &mut plan.rng);
    let time = plan.now.saturating_add(elapsed(plan));
    plan.frame(time, &frame);
}

/// A frame just before the last time, where that is not 0, or too late.
fn untimely_frame(plan: &mut Plan) {
    let before = plan.now.saturating_sub(1);
    let time = plan.rng.pick(&[before, before, MISSION + 1, u32::MAX]);
    let current = neighbour(&mut plan.rng, plan.current);
    plan.frame_at(time, &Frame::NOMINAL.with_current(current));
}

/// Where the log's time begins: 0, anywhere, or close to the mission's end.
pub fn begin(plan: &mut Plan) {
    let start = match plan.rng.below(24) {
        0..=2 => plan.rng.below(u64::from(MISSION) + 1) as u32,
        3 | 4 => MISSION - plan.rng.below(2_000_000) as u32,
        5 => MISSION - plan.rng.below(90_000) as u32,
        6 => MISSION - plan.rng.below(3) as u32,
        _ => 0,
    };
    plan.power_on(start);
    plan.drive();
    if start == 0 && plan.rng.one_in(12) {
        full_current(plan);
    }
}

/// The greatest current from 0 on: an account as large as a sound one can be.
fn full_current(plan: &mut Plan) {
    let current = plan.rng.pick(&[-2_000_000, 2_000_000]);
    let frame = Frame::NOMINAL.with_current(current);
    plan.frame(0, &frame);
    for _ in 0..1 + plan.rng.below(6) {
        let time = plan.now.saturating_add(elapsed(plan));
        plan.frame(time, &frame);
    }
    if plan.may_finish && plan.rng.one_in(4) {
        plan.frame(MISSION, &frame);
    }
}
