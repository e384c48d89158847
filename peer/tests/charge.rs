//! S-5 of document 02, "Charge by the mean current", on both engines.

mod common;

use common::*;
use peer::wire::{Frame, Log};

const MISSION: u32 = 345_600_000;
/// 2,000,000 × the mission time: the most that a sound account holds.
const MOST: u64 = 691_200_000_000_000;

/// Charged and discharged after the log.
fn accounts_of(log: &Log) -> (u64, u64) {
    let view = view(log);
    (view.charged, view.discharged)
}

/// The same after frames of these currents at these times.
fn accounts(list: &[(u32, i32)]) -> (u64, u64) {
    let list: Vec<(u32, Frame)> = list.iter().map(|&(time, ma)| (time, amps(ma))).collect();
    accounts_of(&frames(1, &list))
}

/// The same after two frames.
fn pair(earlier: i32, later: i32, elapsed: u32) -> (u64, u64) {
    accounts(&[(7, earlier), (7 + elapsed, later)])
}

/// The same after frames of these currents, a millisecond apart.
fn row(currents: &[i32]) -> (u64, u64) {
    let list: Vec<(u32, i32)> = (0..).zip(currents.iter().copied()).collect();
    accounts(&list)
}

#[test]
fn examples_of_the_paper() {
    assert_eq!(pair(60_000, 60_000, 1_000), (60_000_000, 0));
    assert_eq!(pair(60_000, -20_000, 1_000), (20_000_000, 0));
    let log = frames(1, &[(0, amps(60_000)), (1_000, amps(-20_000))]);
    assert!(text(&log).ends_with("\nend 20000000 0 0\n"));
}

/// What the marked example of document 01 left free now counts.
#[test]
fn the_later_current_counts() {
    assert_eq!(pair(60_000, 0, 1_000), (30_000_000, 0));
    assert_eq!(pair(60_000, -2_000_000, 1_000), (0, 970_000_000));
    assert_eq!(pair(0, 60_000, 1_000), (30_000_000, 0));
    assert_eq!(pair(0, -60_000, 1_000), (0, 30_000_000));
}

#[test]
fn the_sum_decides_the_account() {
    assert_eq!(pair(-20_000, 60_000, 1_000), (20_000_000, 0));
    assert_eq!(pair(20_000, -60_000, 1_000), (0, 20_000_000));
    assert_eq!(pair(-60_000, 20_000, 1_000), (0, 20_000_000));
    assert_eq!(pair(-60_000, -60_000, 1_000), (0, 60_000_000));
}

#[test]
fn halves_go_towards_zero() {
    let sums = [
        (1, (0, 0)),
        (-1, (0, 0)),
        (2, (1, 0)),
        (-2, (0, 1)),
        (3, (1, 0)),
        (-3, (0, 1)),
    ];
    for (sum, expected) in sums {
        for later in [0, 1, -1, 8, -8, 501, 1_999_997, -1_999_997] {
            assert_eq!(pair(sum - later, later, 1), expected, "{sum} {later}");
        }
    }
}

/// Halving the sum first would drop a half of every millisecond.
#[test]
fn the_product_is_halved_not_the_sum() {
    assert_eq!(pair(1, 0, 2), (1, 0));
    assert_eq!(pair(0, -1, 2), (0, 1));
    assert_eq!(pair(1, 0, 3), (1, 0));
    assert_eq!(pair(-1, 0, 3), (0, 1));
    assert_eq!(pair(2, 1, 3), (4, 0));
    assert_eq!(pair(-2, -1, 5), (0, 7));
    assert_eq!(pair(60_000, -59_999, 1_001), (500, 0));
    assert_eq!(pair(-60_000, 59_999, 1_001), (0, 500));
}

/// Halving each current's own product would round twice.
#[test]
fn the_two_currents_are_halved_together() {
    assert_eq!(pair(1, 1, 1), (1, 0));
    assert_eq!(pair(-1, -1, 1), (0, 1));
    assert_eq!(pair(3, 3, 3), (9, 0));
    assert_eq!(pair(2, -1, 1), (0, 0));
    assert_eq!(pair(1, -2, 1), (0, 0));
    assert_eq!(pair(4, -1, 1), (1, 0));
    assert_eq!(pair(1, -4, 1), (0, 1));
}

/// Halving the account would give 2, 6 and 10 where these give 0, 4 and 8.
#[test]
fn every_pair_is_halved_on_its_own() {
    assert_eq!(row(&[1, 0, 1, 0, 1]), (0, 0));
    assert_eq!(row(&[-1, 0, -1, 0, -1]), (0, 0));
    assert_eq!(row(&[3, 0, 3, 0, 3]), (4, 0));
    assert_eq!(row(&[-3, 0, -3, 0, -3]), (0, 4));
    assert_eq!(row(&[2, 3, 2, 3, 2]), (8, 0));
    assert_eq!(row(&[3, 0, -3, 0, 3]), (2, 2));
    assert_eq!(row(&[2, -1, 2, -1, -2, 5, -2, -1]), (2, 2));
}

#[test]
fn opposite_currents_cancel() {
    for current in [1, 3, 500, 60_000, 1_999_999, 2_000_000] {
        for elapsed in [1, 2, 999, MISSION - 7] {
            assert_eq!(pair(current, -current, elapsed), (0, 0));
            assert_eq!(pair(-current, current, elapsed), (0, 0));
        }
    }
}

/// The log goes on past the point where an unsound record would answer 5.
#[test]
fn the_whole_mission_meets_the_limit() {
    for (current, expected) in [(2_000_000, (MOST, 0)), (-2_000_000, (0, MOST))] {
        let frame = amps(current);
        for times in [&[0, MISSION][..], &[0, 1, 2, 172_800_001, MISSION]] {
            let list: Vec<_> = times.iter().map(|&time| (time, frame)).collect();
            let mut log = frames(1, &list);
            log.measurement(MISSION, &frame).request(MISSION, 2);
            log.power_loss(MISSION).power_on(MISSION);
            log.measurement(MISSION, &frame);
            assert!(refusals(&log).iter().all(|&number| number == 0));
            assert_eq!(accounts_of(&log), expected);
        }
    }
}

/// No time passes, but the second of the two is the next one's neighbour.
#[test]
fn two_measurements_at_one_time() {
    assert_eq!(pair(2_000_000, 2_000_000, 0), (0, 0));
    let list = [(0, 100), (10, 50), (10, -20), (20, 40)];
    assert_eq!(accounts(&list), (750 + 100, 0));
    let list = [(0, 100), (10, 50), (10, -90), (20, 40)];
    assert_eq!(accounts(&list), (750, 250));
}

#[test]
fn an_implausible_frame_parts_neighbours() {
    let mut breakers = vec![implausible().with_current(100)];
    breakers.extend([i32::MIN, -2_000_001, 2_000_001, i32::MAX].map(amps));
    for breaker in breakers {
        let mut log = frames(1, &[(0, amps(100)), (10, breaker), (20, amps(100))]);
        assert_eq!(accounts_of(&log), (0, 0));
        log.measurement(30, &amps(50));
        assert_eq!(accounts_of(&log), (750, 0));
    }
}

#[test]
fn a_power_loss_parts_neighbours() {
    let mut log = frames(1, &[(0, amps(100)), (10, amps(60))]);
    log.power_loss(10).power_on(10);
    log.measurement(10, &amps(-300)).measurement(20, &amps(100));
    assert_eq!(accounts_of(&log), (800, 1_000));
    log.power_loss(20).power_on(25);
    log.measurement(30, &amps(5)).measurement(31, &amps(6));
    assert_eq!(accounts_of(&log), (805, 1_000));
}

#[test]
fn a_refused_call_parts_nothing() {
    let mut log = Log::new(1);
    log.measurement(0, &amps(9_000)).power_on(0);
    log.measurement(10, &amps(100)).measurement(9, &amps(9_000));
    log.measurement(MISSION + 1, &amps(9_000));
    log.measurement(9, &implausible());
    log.power_on(15).power_loss(9);
    log.measurement(20, &amps(201));
    assert_eq!(refusals(&log), [8, 0, 0, 6, 7, 6, 8, 6, 0]);
    assert_eq!(accounts_of(&log), (1_505, 0));
}

#[test]
fn other_accepted_calls_part_nothing() {
    let mut log = at_state(2);
    log.measurement(0, &amps(-100)).command(1, 1).request(2, 3);
    log.command(3, 2).battle_override(4, 1).clear(5);
    log.request(6, 1).measurement(11, &amps(-101));
    assert!(refusals(&log).iter().all(|&number| number == 0));
    assert_eq!(accounts_of(&log), (0, 1_105));
}
