//! Counts of what occurred in logs.

use super::history::{History, DORMANT, MAINTENANCE};
use super::reader::{Call, Event};
use super::stores::{Entry, Neighbours};
use super::Ending;

#[derive(Clone, Debug, Default)]
pub struct Tally {
    pub events: u64,
    /// By number; accepted calls under 0.
    pub refusals: [u64; 11],
    /// Requests for Dormant in Maintenance, by number likewise.
    pub parkings: [u64; 11],
    /// Logs by stop number; those that end under 0.
    pub stops: [u64; 5],
    pub trips: [u64; 8],
    pub releases: [u64; 8],
    pub closed: u64,
    pub closed_lifted: u64,
    pub failed_tests: u64,
    pub past_long: u64,
    pub past_short: u64,
    /// Neighbours whose product is odd: above zero, below it.
    pub odd: [u64; 2],
    /// Neighbours whose currents, not zero, cancel over some time.
    pub cancelled: u64,
}

impl Tally {
    pub(super) fn note(&mut self, refusal: u8, history: &History) {
        self.events += 1;
        self.refusals[usize::from(refusal)] += 1;
        let closed = history.contactor();
        self.closed += u64::from(closed);
        self.closed_lifted += u64::from(closed && history.tripped() != 0);
        self.failed_tests += u64::from(history.test() == 2);
        if refusal == 0 {
            self.note_entries(history);
        }
    }

    /// Counts a request for Dormant in Maintenance, given the state before it.
    pub(super) fn note_parking(&mut self, before: u8, event: &Event, refusal: u8) {
        if before == MAINTENANCE && matches!(event.call, Call::Request(DORMANT)) {
            self.parkings[usize::from(refusal)] += 1;
        }
    }

    fn note_entries(&mut self, history: &History) {
        let added = history.entries_of(history.calls.len() - 1);
        if added.is_empty() {
            return;
        }
        let mut trips = 0;
        for entry in &added {
            match *entry {
                Entry::Trip { protection, .. } => {
                    self.trips[usize::from(protection)] += 1;
                    trips += 1;
                }
                Entry::Release { protection, .. } => {
                    self.releases[usize::from(protection)] += 1;
                }
            }
        }
        let past = |all: usize, room: usize, new: usize| all.saturating_sub(room).min(new) as u64;
        let session = history.entries(history.session_start()).len();
        self.past_long += past(history.trips_since_clear().len(), 64, trips);
        self.past_short += past(session, 16, added.len());
    }

    pub(super) fn finish(&mut self, history: &History, ending: Ending) {
        let number = match ending {
            Ending::End => 0,
            Ending::Stop { number, .. } => number,
        };
        self.stops[usize::from(number)] += 1;
        history
            .neighbours()
            .iter()
            .for_each(|pair| self.note_pair(pair));
    }

    fn note_pair(&mut self, pair: &Neighbours) {
        let product = pair.product();
        if product % 2 != 0 {
            self.odd[usize::from(product < 0)] += 1;
        }
        let apart = pair.later.time > pair.earlier.time;
        let flowing = pair.later.reading.current != 0;
        self.cancelled += u64::from(apart && flowing && product == 0);
    }

    pub fn add(&mut self, other: &Tally) {
        let sum = |a: &mut [u64], b: &[u64]| a.iter_mut().zip(b).for_each(|(a, b)| *a += b);
        sum(&mut self.refusals, &other.refusals);
        sum(&mut self.parkings, &other.parkings);
        sum(&mut self.stops, &other.stops);
        sum(&mut self.trips, &other.trips);
        sum(&mut self.releases, &other.releases);
        sum(&mut self.odd, &other.odd);
        self.events += other.events;
        self.closed += other.closed;
        self.closed_lifted += other.closed_lifted;
        self.failed_tests += other.failed_tests;
        self.past_long += other.past_long;
        self.past_short += other.past_short;
        self.cancelled += other.cancelled;
    }
}
