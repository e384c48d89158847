//! Seeded random logs that come close to every limit.

mod damage;
mod frames;
mod plan;
mod rng;
mod scripts;

pub use rng::Rng;

/// The log of a seed, of at most this many events.
pub fn log(seed: u64, events: usize) -> Vec<u8> {
    let mut rng = Rng::new(seed);
    let battery = rng.pick(&[1, 2, 3]);
    let profile = rng.pick(&scripts::PROFILES);
    let mut plan = plan::Plan::new(rng.clone(), battery, events);
    scripts::begin(&mut plan);
    scripts::fill(&mut plan, &profile);
    let mut bytes = plan.log.bytes;
    damage::damage(&mut bytes, &mut plan.rng);
    bytes
}
