//! Ranges, ratings and trip limits.

use super::decode::Reading;

pub const MISSION_MS: u32 = 345_600_000;
pub const CURRENT_LIMIT: i32 = 2_000_000;
pub const SENSORS: u32 = 13;
pub const LIFTABLE: u8 = 0xCA;

/// Milliseconds beyond before protection i trips.
pub const HOLD: [u32; 8] = [500, 2_000, 1_000, 1_000, 3_000, 0, 30_500, 10_000];
/// Milliseconds within before it is released.
pub const RELEASE: [u32; 8] = [2_000, 2_000, 5_000, 5_000, 10_000, 1_000, 10_000, 10_000];

#[derive(Clone, Copy)]
pub struct Rating {
    pub charge: i32,
    pub discharge: i32,
}

#[inline]
pub fn rating(battery: u8) -> Rating {
    if battery == 3 {
        Rating {
            charge: 90_000,
            discharge: 180_000,
        }
    } else {
        Rating {
            charge: 60_000,
            discharge: 120_000,
        }
    }
}

/// Permitted charge current at the coldest temperature.
#[inline]
pub fn permitted(rating: Rating, coldest: i16) -> i32 {
    match coldest {
        ..=-1 => 0,
        0..=249 => {
            let raised = coldest as u64 + 50;
            (rating.charge as u64 * raised * raised / 90_000) as i32
        }
        _ => rating.charge,
    }
}

/// The mask of sensors outside their range.
#[cold]
pub fn failed_sensors(r: &Reading) -> u16 {
    let mut mask = 0;
    for (bit, cell) in r.cells.iter().enumerate() {
        mask |= u16::from(cell.wrapping_sub(500) > 4_500) << bit;
    }
    mask |= u16::from(r.current.unsigned_abs() > CURRENT_LIMIT as u32) << 8;
    for (bit, tenths) in r.temperatures.iter().enumerate() {
        mask |= u16::from(!(-540..=880).contains(tenths)) << (9 + bit);
    }
    mask
}

/// What the protections look at.
#[derive(Clone, Copy)]
pub struct Extremes {
    pub highest: i32,
    pub lowest: i32,
    pub hottest: i16,
    pub coldest: i16,
    pub current: i32,
}

impl Extremes {
    #[inline]
    pub fn of(r: &Reading) -> Extremes {
        let mut highest = r.cells[0];
        let mut lowest = r.cells[0];
        for &cell in &r.cells[1..] {
            highest = highest.max(cell);
            lowest = lowest.min(cell);
        }
        let mut hottest = r.temperatures[0];
        let mut coldest = r.temperatures[0];
        for &tenths in &r.temperatures[1..] {
            hottest = hottest.max(tenths);
            coldest = coldest.min(tenths);
        }
        Extremes {
            highest: highest.into(),
            lowest: lowest.into(),
            hottest,
            coldest,
            current: r.current,
        }
    }

    fn spread(&self) -> i32 {
        self.highest - self.lowest
    }

    /// No sensor is outside its range.
    #[inline]
    pub fn plausible(&self) -> bool {
        self.lowest >= 500
            && self.highest <= 5_000
            && self.current.unsigned_abs() <= CURRENT_LIMIT as u32
            && self.coldest >= -540
            && self.hottest <= 880
    }

    /// The masks of protections beyond and within.
    #[inline]
    pub fn zones(&self, rating: Rating) -> (u8, u8) {
        let permitted = permitted(rating, self.coldest);
        let floor = -rating.discharge;
        let bit = |number: u8, flag: bool| u8::from(flag) << number;
        let beyond = bit(0, self.highest > 3_650)
            | bit(1, self.lowest < 1_700)
            | bit(2, self.hottest > 710)
            | bit(3, (self.coldest < 0) & (self.current > 500))
            | bit(4, self.current > permitted + 2_000)
            | bit(5, self.current < -1_100_000)
            | bit(6, self.current < floor)
            | bit(7, self.spread() > 500);
        let within = bit(0, self.highest <= 3_500)
            | bit(1, self.lowest >= 2_800)
            | bit(2, self.hottest <= 600)
            | bit(3, self.coldest >= 50)
            | bit(4, self.current <= permitted)
            | bit(5, self.current >= floor)
            | bit(6, self.current >= floor)
            | bit(7, self.spread() <= 300);
        (beyond, within)
    }

    /// What a trip of the protection records.
    pub fn value(&self, protection: u8) -> i32 {
        match protection {
            0 => self.highest,
            1 => self.lowest,
            2 => self.hottest.into(),
            3 => self.coldest.into(),
            4..=6 => self.current,
            _ => self.spread(),
        }
    }
}
