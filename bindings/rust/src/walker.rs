use core::error::Error;
use core::fmt;
use core::iter::FusedIterator;

use crate::call::{self, Limit};
use crate::Refusal;

/// Goes through values that stand end to end.
///
/// After a refusal it stays where it is, and a further step says the same; so it is no [`Iterator`]. [`values`] is one, and its
/// refusals say where in all of the bytes they are.
///
/// ```
/// use afsungar::{Reason, Walker};
///
/// let bytes = [0x40, 0x52, 0xff, 0x46]; // null, uint 255, and a code that there is not
/// let mut walker = Walker::new(&bytes);
/// assert_eq!(walker.step(), Some(Ok(&bytes[..1])));
/// assert_eq!(walker.step(), Some(Ok(&bytes[1..3])));
/// for _ in 0..2 {
///     let refusal = walker.step().unwrap().unwrap_err();
///     assert_eq!((refusal.reason(), refusal.offset()), (Reason::CodeUnknown, Some(0)));
/// }
/// assert_eq!((walker.offset(), walker.rest()), (3, &bytes[3..]));
/// ```
#[derive(Clone, Debug)]
pub struct Walker<'a> {
    limit: Limit,
    bytes: &'a [u8],
    at: u64,
}

impl<'a> Walker<'a> {
    /// A walker at the start of the bytes.
    #[must_use]
    pub const fn new(bytes: &'a [u8]) -> Self {
        Walker { limit: None, bytes, at: 0 }
    }

    /// A walker at the start of the bytes, each of whose steps names this level limit.
    ///
    /// One that may not be named is refused in every step, at the end too.
    ///
    /// ```
    /// use afsungar::{Reason, Walker};
    ///
    /// let bytes = [0x40, 0xc0, 0x02, 0x01, 0x40]; // null, and a list of one null
    /// let mut walker = Walker::within(1, &bytes);
    /// assert_eq!(walker.step(), Some(Ok(&bytes[..1])));
    /// assert_eq!(walker.step().unwrap().unwrap_err().reason(), Reason::TooDeep);
    ///
    /// let mut walker = Walker::within(0, &[]);
    /// assert_eq!(walker.step().unwrap().unwrap_err().reason(), Reason::LimitOutside);
    /// ```
    #[must_use]
    pub const fn within(limit: u64, bytes: &'a [u8]) -> Self {
        Walker { limit: Some(limit), bytes, at: 0 }
    }

    /// A walker that begins at an offset. One beyond the end is taken for the end.
    #[must_use]
    pub fn at(bytes: &'a [u8], at: usize) -> Self {
        Walker::new(bytes).moved(at)
    }

    /// A walker that begins at an offset, as [`at`](Walker::at), and names a level limit, as [`within`](Walker::within).
    #[must_use]
    pub fn at_within(limit: u64, bytes: &'a [u8], at: usize) -> Self {
        Walker::within(limit, bytes).moved(at)
    }

    fn moved(self, at: usize) -> Self {
        Walker { at: at.min(self.bytes.len()) as u64, ..self }
    }

    /// The bytes of the next value, or nothing at the end.
    ///
    /// # Errors
    ///
    /// As [`measure`](crate::measure). The place is counted from [`offset`](Walker::offset), where the walker stays.
    pub fn step(&mut self) -> Option<Result<&'a [u8], Refusal>> {
        let rest = self.rest();
        match call::step(self.limit, self.bytes, &mut self.at) {
            Ok(0) => None,
            // The value stands at the start of the rest; that is the promise of the step.
            Ok(length) => Some(Ok(&rest[..length])),
            Err(refusal) => Some(Err(refusal)),
        }
    }

    /// How many bytes it has passed.
    #[must_use]
    pub const fn offset(&self) -> usize {
        self.at as usize
    }

    /// The bytes that it has not passed.
    #[must_use]
    pub fn rest(&self) -> &'a [u8] {
        self.bytes.get(self.offset()..).unwrap_or_default()
    }
}

/// The values that stand end to end in `bytes`, each as its own bytes. After a refusal there are no more.
///
/// ```
/// # fn main() -> Result<(), afsungar::ValueRefusal> {
/// let bytes = [0x40, 0x52, 0xff, 0xa1, 0x02, 0x4d, 0x34]; // null, uint 255, string M4
/// let mut lengths = Vec::new();
/// for value in afsungar::values(&bytes) {
///     lengths.push(value?.len());
/// }
/// assert_eq!(lengths, [1, 2, 4]);
/// # Ok(())
/// # }
/// ```
///
/// A refusal says which value it is of, and its place is counted in all of the bytes:
///
/// ```
/// let bytes = [0x40, 0x52, 0xff, 0xc0, 0x02, 0x01, 0x46]; // null, uint 255, and a list with a code that there is not
/// let refused = afsungar::values(&bytes).find_map(Result::err).unwrap();
/// assert_eq!((refused.index(), refused.start(), refused.refusal().offset()), (2, 3, Some(6)));
/// assert_eq!(refused.to_string(), "value 2, from byte 3 on: the format code is not one of the 40 (10) at byte 6");
/// ```
pub const fn values(bytes: &[u8]) -> Values<'_> {
    Values { walker: Walker::new(bytes), passed: 0, over: false }
}

/// As [`values`], within a level limit. One that may not be named is refused in place of the first value, or of none.
pub const fn values_within(limit: u64, bytes: &[u8]) -> Values<'_> {
    Values { walker: Walker::within(limit, bytes), passed: 0, over: false }
}

/// An iterator over values that stand end to end; see [`values`] and [`values_within`].
#[derive(Clone, Debug)]
#[must_use]
pub struct Values<'a> {
    walker: Walker<'a>,
    /// How many values it has passed.
    passed: usize,
    over: bool,
}

impl<'a> Values<'a> {
    /// How many bytes it has passed.
    #[must_use]
    pub const fn offset(&self) -> usize {
        self.walker.offset()
    }

    /// The bytes that it has not passed: after a refusal those which are no value.
    #[must_use]
    pub fn rest(&self) -> &'a [u8] {
        self.walker.rest()
    }

    fn refused(&self, refusal: Refusal) -> ValueRefusal {
        let start = self.offset();
        ValueRefusal { refusal: refusal.behind(start), index: self.passed, start }
    }
}

impl<'a> Iterator for Values<'a> {
    type Item = Result<&'a [u8], ValueRefusal>;

    fn next(&mut self) -> Option<Self::Item> {
        if self.over {
            return None;
        }
        let found = self.walker.step().map(|value| value.map_err(|refusal| self.refused(refusal)));
        self.over = !matches!(found, Some(Ok(_)));
        self.passed += usize::from(!self.over);
        found
    }

    fn size_hint(&self) -> (usize, Option<usize>) {
        if self.over {
            return (0, Some(0));
        }
        // A value has at least one byte, and a refusal comes where one is left; but that of a level limit comes at the end too.
        (usize::from(!self.rest().is_empty()), Some(self.rest().len().max(1)))
    }
}

impl FusedIterator for Values<'_> {}

/// Why one of the values that stand end to end is none: what [`Values`] ends with.
///
/// `?` makes a [`Refusal`] of it where that is asked for, with the place in all of the bytes.
#[derive(Clone, Copy, Debug, PartialEq, Eq, Hash)]
pub struct ValueRefusal {
    refusal: Refusal,
    index: usize,
    start: usize,
}

impl ValueRefusal {
    /// Why, and where: the place is counted in all of the bytes, not from the start of the value.
    #[must_use]
    pub const fn refusal(&self) -> Refusal {
        self.refusal
    }

    /// Which value it is, from 0: as many whole ones stand before it.
    #[must_use]
    pub const fn index(&self) -> usize {
        self.index
    }

    /// The offset at which the value begins.
    #[must_use]
    pub const fn start(&self) -> usize {
        self.start
    }
}

impl fmt::Display for ValueRefusal {
    fn fmt(&self, f: &mut fmt::Formatter<'_>) -> fmt::Result {
        write!(f, "value {}, from byte {} on: {}", self.index, self.start, self.refusal)
    }
}

impl Error for ValueRefusal {}

impl From<ValueRefusal> for Refusal {
    fn from(refused: ValueRefusal) -> Refusal {
        refused.refusal
    }
}

/// As of its [`Refusal`].
#[cfg(feature = "std")]
impl From<ValueRefusal> for std::io::Error {
    fn from(refused: ValueRefusal) -> std::io::Error {
        std::io::Error::new(std::io::Error::from(refused.refusal).kind(), refused)
    }
}
