use super::decode::{Call, Command, Event, Reading, State};
use super::limits::{permitted, rating};
use super::record::{Kept, Record};

#[test]
fn permitted_current() {
    let table = [(-1, 0), (0, 1_666), (249, 59_600), (250, 60_000)];
    for (coldest, current) in table {
        assert_eq!(permitted(rating(1), coldest), current);
        assert_eq!(permitted(rating(2), coldest), current);
    }
    assert_eq!(permitted(rating(3), 0), 2_500);
}

#[test]
fn the_count_has_a_last_command() {
    let mut record = Record::of_type_one();
    record.state = State::Maintenance;
    record.commands = u32::MAX - 1;
    for command in [Command::Automated, Command::Open, Command::ForceClosed] {
        let event = Event {
            time: 0,
            call: Call::Command(command),
        };
        let mut last = record.clone();
        assert_eq!(last.call(&event), 0);
        assert_eq!(last.commands, u32::MAX);
        let before = last.clone();
        assert_eq!(last.call(&event), 10);
        assert_eq!(last, before);
    }
}

const QUIET: Reading = Reading {
    cells: [3_300; 8],
    current: 0,
    temperatures: [250; 4],
};

/// A record at last time 1,000 with room for every kind of damage.
fn sound_record() -> Record {
    let mut record = Record::of_type_one();
    record.state = State::Dormant;
    record.last = 1_000;
    record.long.count = 3;
    record.short.count = 3;
    record.charged = 2_000_000_000;
    record.discharged = 2_000_000_000;
    record
}

fn damaged(damage: impl Fn(&mut Record)) -> u8 {
    let mut record = sound_record();
    damage(&mut record);
    let before = record.clone();
    let refusal = record.call(&Event {
        time: 1_000,
        call: Call::Measurement(QUIET),
    });
    if refusal != 0 {
        assert_eq!(record, before);
    }
    refusal
}

fn kept(time: u32, current: i32) -> impl Fn(&mut Record) {
    move |record| record.kept = Some(Kept { time, current })
}

#[test]
fn each_unsound_part_gives_5() {
    assert_eq!(damaged(|_| ()), 0);
    for battery in [0, 4, 255] {
        assert_eq!(damaged(|r| r.battery = battery), 5);
    }
    assert_eq!(damaged(|r| r.last = 345_600_001), 5);
    assert_eq!(damaged(|r| r.long.count = 65), 5);
    assert_eq!(damaged(|r| r.long.count = usize::MAX), 5);
    assert_eq!(damaged(|r| r.short.count = 17), 5);
    assert_eq!(damaged(|r| r.failed = 1 << 13), 5);
    assert_eq!(damaged(|r| r.charged += 1), 5);
    assert_eq!(damaged(|r| r.discharged += 1), 5);
    for protection in 0..8 {
        assert_eq!(damaged(|r| r.spans.starts[protection] = 1_001), 5);
    }
    assert_eq!(damaged(kept(1_001, 0)), 5);
    assert_eq!(damaged(kept(1_000, 2_000_001)), 5);
    assert_eq!(damaged(kept(1_000, -2_000_001)), 5);
    assert_eq!(damaged(kept(1_000, i32::MIN)), 5);
    assert_eq!(damaged(kept(1_000, 2_000_000)), 0);
}

#[test]
fn unsound_comes_before_the_time() {
    let mut record = sound_record();
    record.battery = 9;
    let event = Event {
        time: 0,
        call: Call::PowerOn,
    };
    assert_eq!(record.call(&event), 5);
}

#[test]
fn counted_protection_numbers_alone_count() {
    for count in 0..=64 {
        for bad in 0..64 {
            let refusal = damaged(|record| {
                record.long.count = count;
                record.long.protections[bad] = 8;
            });
            assert_eq!(refusal == 5, bad < count, "long {count} {bad}");
        }
    }
    for count in 0..=16 {
        for bad in 0..16 {
            let refusal = damaged(|record| {
                record.short.count = count;
                record.short.protections[bad] = 255;
            });
            assert_eq!(refusal == 5, bad < count, "short {count} {bad}");
        }
    }
}
