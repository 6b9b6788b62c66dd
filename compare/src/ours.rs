//! The proved library as it is called from C, with everything that a call tells.

use crate::{limit::Limit, table::Table};
use afsungar::raw;
use std::fmt;

/// All that a call hands back. What a call does not tell stays 0.
#[derive(Clone, Copy, Debug, Default, PartialEq, Eq)]
pub struct Told {
    pub number: u64,
    pub place: u64,
    pub length: u64,
    pub rows: u64,
    pub text: u64,
}

impl Told {
    pub fn success(length: usize, rows: usize, text: usize) -> Self {
        Told { length: length as u64, rows: rows as u64, text: text as u64, ..Told::default() }
    }

    pub fn refusal(number: u64, place: u64) -> Self {
        Told { number, place, ..Told::default() }
    }

    pub fn is_success(&self) -> bool {
        self.number == 0
    }

    /// On success the place is 0; on a refusal, one of the fifteen, every length and count is.
    pub fn is_fair(&self) -> bool {
        match self.number {
            0 => self.place == 0,
            1..=15 => *self == Told::refusal(self.number, self.place),
            _ => false,
        }
    }
}

impl fmt::Display for Told {
    fn fmt(&self, f: &mut fmt::Formatter<'_>) -> fmt::Result {
        match self.number {
            0 => write!(f, "length {}", self.length)?,
            number => write!(f, "refused {number} at {}", self.place)?,
        }
        match self.is_fair() {
            true => Ok(()),
            false => write!(f, " (beside that {self:?})"),
        }
    }
}

/// Numbers that a call has to overwrite start as this.
const STALE: u64 = 0xdead_beef_dead_beef;
/// Lent memory that a call may not touch holds this.
pub const PATTERN: u8 = 0xa5;
pub const PATTERN_WORD: u64 = u64::from_ne_bytes([PATTERN; 8]);

/// Calls a function of the library in one of its two forms, which differ in the limit before all else that is lent.
macro_rules! call {
    ($limit:expr, $plain:ident, $within:ident, $($lent:expr),* $(,)?) => {
        // SAFETY: pointers and lengths are those of slices, and what is written to is lent to the call alone.
        unsafe {
            match $limit {
                Limit::Plain => raw::$plain($($lent),*),
                Limit::Within(levels) => raw::$within(levels, $($lent),*),
            }
        }
    };
}

pub fn size(limit: Limit, table: &Table) -> Told {
    let (mut place, mut length) = (STALE, STALE);
    let number = call!(
        limit,
        afsungar_size,
        afsungar_size_within,
        table.words.as_ptr(),
        table.words.len(),
        table.text.as_ptr(),
        table.text.len(),
        &mut place,
        &mut length,
    );
    Told { number, place, length, ..Told::default() }
}

pub fn write(limit: Limit, table: &Table, out: &mut [u8]) -> Told {
    let (mut place, mut length) = (STALE, STALE);
    let number = call!(
        limit,
        afsungar_write,
        afsungar_write_within,
        table.words.as_ptr(),
        table.words.len(),
        table.text.as_ptr(),
        table.text.len(),
        out.as_mut_ptr(),
        out.len(),
        &mut place,
        &mut length,
    );
    Told { number, place, length, ..Told::default() }
}

pub fn measure(limit: Limit, bytes: &[u8]) -> Told {
    let (mut place, mut length, mut rows, mut text) = (STALE, STALE, STALE, STALE);
    let number = call!(
        limit,
        afsungar_measure,
        afsungar_measure_within,
        bytes.as_ptr(),
        bytes.len(),
        &mut place,
        &mut length,
        &mut rows,
        &mut text,
    );
    Told { number, place, length, rows, text }
}

pub fn read(limit: Limit, bytes: &[u8], words: &mut [u64], text: &mut [u8]) -> Told {
    let (mut place, mut length, mut rows, mut used) = (STALE, STALE, STALE, STALE);
    let number = call!(
        limit,
        afsungar_read,
        afsungar_read_within,
        bytes.as_ptr(),
        bytes.len(),
        words.as_mut_ptr(),
        words.len(),
        text.as_mut_ptr(),
        text.len(),
        &mut place,
        &mut length,
        &mut rows,
        &mut used,
    );
    Told { number, place, length, rows, text: used }
}

/// A step of the walker from `at`, and where it then is.
pub fn step(limit: Limit, bytes: &[u8], from: u64) -> (Told, u64) {
    let (mut at, mut place, mut length) = (from, STALE, STALE);
    let number = call!(limit, afsungar_step, afsungar_step_within, bytes.as_ptr(), bytes.len(), &mut at, &mut place, &mut length);
    (Told { number, place, length, ..Told::default() }, at)
}

/// Reads into memory that is just large enough. A refusal gives no table.
pub fn read_whole(limit: Limit, bytes: &[u8]) -> (Told, Table) {
    let extent = measure(limit, bytes);
    let mut table = Table { words: vec![0; 2 * extent.rows as usize], text: vec![0; extent.text as usize] };
    let told = read(limit, bytes, &mut table.words, &mut table.text);
    (told, table)
}
