//! Plausibility and the table of protections.

#[derive(Clone, Debug)]
pub struct Reading {
    pub cells: Vec<i64>,
    pub current: i64,
    pub temperatures: Vec<i64>,
}

impl Reading {
    fn highest(&self) -> i64 {
        *self.cells.iter().max().expect("eight cells")
    }

    fn lowest(&self) -> i64 {
        *self.cells.iter().min().expect("eight cells")
    }

    fn hottest(&self) -> i64 {
        *self.temperatures.iter().max().expect("four temperatures")
    }

    fn coldest(&self) -> i64 {
        *self.temperatures.iter().min().expect("four temperatures")
    }

    /// The sensors outside their range, bits 0 to 12.
    pub fn failed(&self) -> u16 {
        let cells = self.cells.iter().map(|v| !(500..=5_000).contains(v));
        let current = !(-2_000_000..=2_000_000).contains(&self.current);
        let temperatures = self.temperatures.iter().map(|v| !(-540..=880).contains(v));
        cells
            .chain([current])
            .chain(temperatures)
            .enumerate()
            .map(|(bit, outside)| u16::from(outside) << bit)
            .sum()
    }

    pub fn plausible(&self) -> bool {
        self.failed() == 0
    }
}

/// C of a battery type.
pub fn charge_rating(battery: u8) -> i64 {
    if battery == 3 {
        90_000
    } else {
        60_000
    }
}

/// D of a battery type.
pub fn discharge_rating(battery: u8) -> i64 {
    if battery == 3 {
        180_000
    } else {
        120_000
    }
}

/// L, the permitted charge current at the coldest temperature.
pub fn permitted(battery: u8, coldest: i64) -> i64 {
    let rating = charge_rating(battery);
    if coldest < 0 {
        0
    } else if coldest < 250 {
        rating * (coldest + 50) * (coldest + 50) / 90_000
    } else {
        rating
    }
}

pub fn value(protection: u8, r: &Reading) -> i64 {
    match protection {
        0 => r.highest(),
        1 => r.lowest(),
        2 => r.hottest(),
        3 => r.coldest(),
        4..=6 => r.current,
        _ => r.highest() - r.lowest(),
    }
}

pub fn beyond(battery: u8, protection: u8, r: &Reading) -> bool {
    let v = value(protection, r);
    match protection {
        0 => v > 3_650,
        1 => v < 1_700,
        2 => v > 710,
        3 => v < 0 && r.current > 500,
        4 => v > permitted(battery, r.coldest()) + 2_000,
        5 => v < -1_100_000,
        6 => v < -discharge_rating(battery),
        _ => v > 500,
    }
}

pub fn within(battery: u8, protection: u8, r: &Reading) -> bool {
    let v = value(protection, r);
    match protection {
        0 => v <= 3_500,
        1 => v >= 2_800,
        2 => v <= 600,
        3 => v >= 50,
        4 => v <= permitted(battery, r.coldest()),
        5 | 6 => v >= -discharge_rating(battery),
        _ => v <= 300,
    }
}

pub fn hold(protection: u8) -> u32 {
    [500, 2_000, 1_000, 1_000, 3_000, 0, 30_500, 10_000][usize::from(protection)]
}

pub fn release(protection: u8) -> u32 {
    [2_000, 2_000, 5_000, 5_000, 10_000, 1_000, 10_000, 10_000][usize::from(protection)]
}

/// Liftable: 1, 3, 6, 7.
pub fn liftable(protection: u8) -> bool {
    matches!(protection, 1 | 3 | 6 | 7)
}
