use super::history::{History, Ledger, Measured};
use super::reader::{Call, Event};
use super::rules::{beyond, hold, permitted, release, within, Reading};

#[test]
fn permitted_current() {
    let table = [(-1, 0), (0, 1_666), (249, 59_600), (250, 60_000)];
    for (coldest, current) in table {
        assert_eq!(permitted(1, coldest), current);
        assert_eq!(permitted(2, coldest), current);
    }
    assert_eq!(permitted(3, 0), 2_500);
}

#[test]
fn the_count_has_a_last_command() {
    let mut ledger = Ledger {
        state: 3,
        command: 0,
        override_on: false,
        last: 0,
        commands: u32::MAX - 1,
    };
    for command in 0..3 {
        let event = Event {
            time: 0,
            call: Call::Command(command),
        };
        ledger.commands = u32::MAX - 1;
        assert_eq!(ledger.refusal(&event), 0);
        ledger.commands = u32::MAX;
        assert_eq!(ledger.refusal(&event), 10);
    }
}

/// "Tripped" word for word: every pair of positions, every row between.
fn tripped_word_for_word(battery: u8, list: &[&Measured], p: u8) -> bool {
    let span = |i: usize, j: usize, length: u32, test: &dyn Fn(&Reading) -> bool| {
        let row = &list[i..=j];
        row.iter()
            .all(|m| m.reading.plausible() && test(&m.reading))
            && list[j].time - list[i].time >= length
    };
    let ended = |j: usize, length: u32, test: &dyn Fn(&Reading) -> bool| {
        (0..=j).any(|i| span(i, j, length, test))
    };
    (0..list.len()).any(|j| {
        ended(j, hold(p), &|r| beyond(battery, p, r))
            && !(j + 1..list.len()).any(|l| ended(l, release(p), &|r| within(battery, p, r)))
    })
}

struct Dice(u64);

impl Dice {
    fn pick<T: Copy>(&mut self, list: &[T]) -> T {
        self.0 = self
            .0
            .wrapping_mul(6_364_136_223_846_793_005)
            .wrapping_add(1);
        list[(self.0 >> 33) as usize % list.len()]
    }

    fn reading(&mut self) -> Reading {
        let high = self.pick(&[3_300, 3_300, 3_500, 3_501, 3_650, 3_651, 5_001]);
        let low = self.pick(&[high, 2_800, 2_799, 1_700, 1_699, high - 300, high - 501]);
        let cold = self.pick(&[250, 250, 50, 49, 0, -1, -541]);
        let hot = self.pick(&[250, 250, 600, 601, 710, 711]);
        let currents = [
            0, 500, 501, 2_001, 60_000, 62_001, -120_000, -120_001, -1_100_001,
        ];
        Reading {
            cells: vec![high, low, high, high, high, high, high, high],
            current: self.pick(&currents),
            temperatures: vec![hot, cold, hot, hot],
        }
    }
}

#[test]
fn the_search_is_the_definition() {
    let mut dice = Dice(7);
    let mut seen = [0; 2];
    for _ in 0..40 {
        let mut history = History::fresh(dice.pick(&[1, 2, 3]));
        let mut time = 0;
        history.call(&Event {
            time,
            call: Call::PowerOn,
        });
        let mut reading = dice.reading();
        for _ in 0..20 {
            if dice.pick(&[0, 1, 2, 3]) == 0 {
                reading = dice.reading();
            }
            time += dice.pick(&[0, 1, 499, 500, 999, 1_000, 2_000, 5_000, 10_000, 30_500]);
            let call = Call::Measurement(reading.clone());
            assert_eq!(history.call(&Event { time, call }), 0);
            let list = history.measurements();
            for p in 0..8 {
                let word_for_word = tripped_word_for_word(history.battery, &list, p);
                assert_eq!(history.tripped() >> p & 1 == 1, word_for_word);
                seen[usize::from(word_for_word)] += 1;
            }
        }
    }
    assert!(seen.iter().all(|&count| count > 500), "{seen:?}");
}
