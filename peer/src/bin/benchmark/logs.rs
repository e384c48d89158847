//! Four kinds of logs of any length, within the mission time.

use peer::generate::Rng;
use peer::wire::{Frame, Log};
use std::fs::File;
use std::io::{self, Write};
use std::path::Path;

#[derive(Clone, Copy, Debug, PartialEq, Eq)]
pub enum Kind {
    /// Measurements that trip nothing.
    Quiet,
    /// A bench day: all calls, some trips, some refusals.
    Mixed,
    /// A trip every few frames.
    Trips,
    /// Measurements that charge near 10 °C, below what is permitted there.
    Charging,
}

pub const KINDS: [Kind; 4] = [Kind::Quiet, Kind::Mixed, Kind::Trips, Kind::Charging];

/// Milliseconds between frames: 10^7 of them stay below the mission time.
const STEP: u32 = 20;
const CHUNK: usize = 1 << 16;

struct Maker {
    log: Log,
    file: File,
    left: u64,
    time: u32,
    rng: Rng,
}

pub fn write(kind: Kind, events: u64, path: &Path) -> io::Result<()> {
    let mut maker = Maker {
        log: Log::new(1),
        file: File::create(path)?,
        left: events,
        time: 0,
        rng: Rng::new(events),
    };
    maker.add(|log, time| log.power_on(time))?;
    maker.add(|log, time| log.request(time, 2))?;
    let mut round = 0;
    while maker.left > 0 {
        match kind {
            Kind::Quiet => maker.frame(STEP, |frame| frame)?,
            Kind::Mixed => maker.bench_hour(round)?,
            Kind::Trips => maker.trip_round(round)?,
            Kind::Charging => maker.frame(STEP, charging)?,
        }
        round += 1;
    }
    maker.file.write_all(&maker.log.bytes)
}

/// The frame 12 °C colder, so from 10 °C on, where 15 A are permitted, and
/// charging with 9 A to 14 A.
fn charging(frame: Frame) -> Frame {
    Frame {
        current: 9_000 + frame.current.rem_euclid(5_000),
        temperatures: frame.temperatures.map(|tenths| tenths - 120),
        ..frame
    }
}

impl Maker {
    fn add(&mut self, event: impl FnOnce(&mut Log, u32) -> &mut Log) -> io::Result<()> {
        if self.left == 0 {
            return Ok(());
        }
        self.left -= 1;
        event(&mut self.log, self.time);
        if self.log.bytes.len() > CHUNK {
            self.file.write_all(&self.log.bytes)?;
            self.log.bytes.clear();
        }
        Ok(())
    }

    /// An ordinary frame, changed as asked, after a step of time.
    fn frame(&mut self, step: u32, change: impl Fn(Frame) -> Frame) -> io::Result<()> {
        let mut frame = Frame::NOMINAL;
        for cell in &mut frame.cells {
            *cell = 3_200 + self.rng.below(200) as u16;
        }
        frame.current = self.rng.between(-60_000, 40_000) as i32;
        for tenths in &mut frame.temperatures {
            *tenths = 220 + self.rng.below(60) as i16;
        }
        self.time += step;
        self.add(|log, time| log.measurement(time, &change(frame)))
    }

    fn row(&mut self, frames: u64, change: impl Fn(Frame) -> Frame) -> io::Result<()> {
        for _ in 0..frames {
            self.frame(STEP, &change)?;
        }
        Ok(())
    }

    fn bench_hour(&mut self, round: u64) -> io::Result<()> {
        self.row(60, |frame| frame)?;
        self.trouble()?;
        self.row(120, |frame| frame)?;
        self.frame(STEP, |frame| frame.with_temperature(2, 900))?;
        self.operate()?;
        if round % 8 == 7 {
            self.add(|log, time| log.power_loss(time))?;
            self.add(|log, time| log.power_on(time))?;
            self.add(|log, time| log.request(time, 2))?;
        }
        Ok(())
    }

    /// One of the faults, long enough to trip most of the time.
    fn trouble(&mut self) -> io::Result<()> {
        let length = self.rng.below(200);
        match self.rng.below(6) {
            0 => self.row(length, |frame| frame.with_cell(2, 3_700)),
            1 => self.row(length, |frame| frame.with_cells(1_600)),
            2 => self.row(length, |frame| frame.with_temperature(1, 720)),
            3 => self.row(length, |f| f.with_temperature(0, -20).with_current(700)),
            4 => self.row(length, |frame| frame.with_current(70_000)),
            _ => self.row(3, |frame| frame.with_current(-1_200_000)),
        }
    }

    /// Commands and requests, some of them refused.
    fn operate(&mut self) -> io::Result<()> {
        self.add(|log, time| log.command(time, 1))?;
        self.add(|log, time| log.command(time, 2))?;
        self.add(|log, time| log.request(time, 3))?;
        self.add(|log, time| log.command(time, 2))?;
        self.add(|log, time| log.battle_override(time, 1))?;
        self.row(20, |frame| frame)?;
        self.add(|log, time| log.clear(time))?;
        self.add(|log, time| log.request(time, 1))?;
        self.add(|log, time| log.battle_override(time, 0))?;
        self.add(|log, time| log.request(time.saturating_sub(1), 2))?;
        self.add(|log, time| log.request(time, 2))
    }

    /// Fifteen short sessions that trip, then one in which trips are released.
    fn trip_round(&mut self, round: u64) -> io::Result<()> {
        for _ in 0..15 {
            self.frame(STEP / 2, |frame| frame.with_current(-1_200_000))?;
            self.frame(1, |frame| frame)?;
            self.add(|log, time| log.power_loss(time))?;
            self.add(|log, time| log.power_on(time))?;
            self.add(|log, time| log.request(time, 2))?;
        }
        for _ in 0..2 {
            self.frame(1, |frame| frame.with_current(-1_200_000))?;
            self.frame(1, |frame| frame)?;
            self.frame(1_000, |frame| frame)?;
        }
        if round % 8 == 7 {
            self.add(|log, time| log.request(time, 3))?;
            self.add(|log, time| log.clear(time))?;
            self.add(|log, time| log.request(time, 2))?;
        }
        Ok(())
    }
}

#[cfg(test)]
mod tests {
    use super::*;

    /// The number of events, of refusals and of lines with more tripped than
    /// the line before.
    fn counts(kind: Kind, events: u64) -> (u64, u64, u64) {
        let name = format!("benchmark-test-{kind:?}-{}", std::process::id());
        let path = std::env::temp_dir().join(name);
        write(kind, events, &path).expect("a written log");
        let log = std::fs::read(&path).expect("the log");
        std::fs::remove_file(&path).expect("removing the log");
        let text = peer::fast::text(&log, 1 << 16);
        let (lines, last) = text.trim_end().rsplit_once('\n').expect("lines");
        assert!(last.starts_with("end "), "{last}");
        let mut before = 0;
        let mut found = (0, 0, 0);
        for line in lines.lines() {
            let fields: Vec<&str> = line.split(' ').collect();
            let tripped = u8::from_str_radix(fields[4], 16).expect("a mask");
            found.0 += 1;
            found.1 += u64::from(fields[1] != "0");
            found.2 += u64::from(tripped & !before != 0);
            before = tripped;
        }
        found
    }

    #[test]
    fn quiet_trips_nothing() {
        assert_eq!(counts(Kind::Quiet, 20_000), (20_000, 0, 0));
    }

    #[test]
    fn charging_trips_nothing() {
        assert_eq!(counts(Kind::Charging, 20_000), (20_000, 0, 0));
    }

    #[test]
    fn mixed_has_some_of_all() {
        let (events, refusals, trips) = counts(Kind::Mixed, 20_000);
        assert_eq!(events, 20_000);
        assert!(refusals > 100 && trips > 30, "{refusals} {trips}");
    }

    #[test]
    fn trips_every_few_frames() {
        let (events, refusals, trips) = counts(Kind::Trips, 20_000);
        assert_eq!((events, refusals), (20_000, 0));
        assert!(trips > 3_000, "{trips}");
    }
}
