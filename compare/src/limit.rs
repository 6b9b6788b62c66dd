//! The level limit of a call (docs/FORMAT.md, 2.5 and 6).

use crate::{ours::Told, random::Random};
use std::fmt;

/// The highest limit, and the one of calls that name none.
pub const HIGHEST: u32 = 32;
pub const DEFAULT: u32 = 16;

/// Which form of a function is called.
#[derive(Clone, Copy, Debug, PartialEq, Eq)]
pub enum Limit {
    /// The one that names no limit.
    Plain,
    /// The one that names a limit: any word.
    Within(u64),
}

impl Limit {
    /// With the highest limit.
    pub const HIGHEST: Limit = Limit::Within(HIGHEST as u64);

    /// For a value of so many levels: it names no limit where none is needed.
    pub fn for_depth(levels: u32) -> Limit {
        match levels {
            0..=DEFAULT => Limit::Plain,
            _ => Limit::HIGHEST,
        }
    }

    /// The last level of one that is in force, half of the times of the highest.
    pub fn last_level(random: &mut Random) -> u32 {
        match random.once_in(2) {
            true => HIGHEST,
            false => random.within(1, HIGHEST as usize) as u32,
        }
    }

    /// One that is in force. About half are near a level.
    pub fn in_force(random: &mut Random, level: u32) -> Limit {
        match random.below(8) {
            0 => Limit::Plain,
            1..=3 => Limit::Within(random.within(1, HIGHEST as usize) as u64),
            _ => Limit::Within((level as usize + random.below(4)).saturating_sub(2).clamp(1, HIGHEST as usize) as u64),
        }
    }

    /// One that is refused: 0, or a word above the highest. The low bits of some would be in force.
    pub fn refused(random: &mut Random) -> Limit {
        Limit::Within(match random.below(5) {
            0 | 1 => 0,
            2 => HIGHEST as u64 + 1,
            3 => 1 << random.within(6, 63) | random.within(1, HIGHEST as usize) as u64,
            _ => (random.next() >> random.below(58)).max(HIGHEST as u64 + 1),
        })
    }

    /// The levels that values may have, or what is refused before all else.
    pub fn levels(self) -> Result<u32, Told> {
        match self {
            Limit::Plain => Ok(DEFAULT),
            Limit::Within(levels) if (1..=HIGHEST as u64).contains(&levels) => Ok(levels as u32),
            Limit::Within(_) => Err(Told::refusal(15, 0)),
        }
    }
}

impl fmt::Display for Limit {
    fn fmt(&self, f: &mut fmt::Formatter<'_>) -> fmt::Result {
        match self {
            Limit::Plain => write!(f, "without a limit"),
            Limit::Within(levels) => write!(f, "within {levels}"),
        }
    }
}
