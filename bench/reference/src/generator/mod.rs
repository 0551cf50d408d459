//! Scripts made from a seed.

mod bad;
mod mixed;
mod random;
mod speed;

use random::Random;

type Maker = fn(Random, usize) -> String;

/// The kinds of script by name.
const KINDS: [(&str, Maker); 15] = [
    ("mixed", mixed::script),
    ("bad", bad::script),
    ("ticks", speed::ticks),
    ("ports", speed::ports),
    ("carries", speed::carries),
    ("journal", speed::journal),
    ("loads-small", speed::loads_small),
    ("loads-large", speed::loads_large),
    ("stores-small", speed::stores_small),
    ("stores-large", speed::stores_large),
    ("lines-short", speed::lines_short),
    ("lines-long", speed::lines_long),
    ("lines-late", speed::lines_late),
    ("queue-short", speed::queue_short),
    ("queue-long", speed::queue_long),
];

pub fn kinds() -> impl Iterator<Item = &'static str> {
    KINDS.iter().map(|(name, _)| *name)
}

/// A script of a kind, or nothing if there is no such kind.
pub fn generate(kind: &str, seed: u64, count: usize) -> Option<String> {
    let (_, make) = KINDS.iter().find(|(name, _)| *name == kind)?;
    Some(make(Random::new(seed), count))
}
