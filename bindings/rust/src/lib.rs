//! AMQP 1.0 values to bytes and back, by a library every function of which is proved to meet its promise.
//!
//! ```
//! # fn main() -> Result<(), afsungar::Refusal> {
//! use afsungar::{Table, Value};
//!
//! let order = Table::build(|t| {
//!     t.map(|t| {
//!         t.symbol("order").ulong(4711);
//!         t.symbol("placed").timestamp(1_763_164_800_000);
//!         t.symbol("sizes").array_of(["Ø1.2", "Ø1.3", "M4"])
//!     })
//! });
//! let bytes = order.to_bytes()?;
//!
//! let table = Table::from_bytes(&bytes)?;
//! assert_eq!(table, order);
//! let map = table.root().unwrap();
//! assert_eq!(map.get("order").unwrap().value()?, Value::Ulong(4711));
//! for size in map.get("sizes").unwrap().children() {
//!     println!("{:?}", size.value()?);
//! }
//! # Ok(())
//! # }
//! ```
//!
//! A value is a table: rows of two words each, a kind and a number, the parent first; and beside them the bytes of all
//! texts. [`Table`] owns one. [`Builder`] puts one together, and [`Row`] and [`Value`] look into it.
//!
//! An array holds values of one kind, lists, maps and arrays among them. It tells the kind also where it is empty: in
//! [`array_of`](Builder::array_of) by the type of the values, in [`array`](Builder::array) and
//! [`empty_array`](Builder::empty_array) by name. [`Value::Array`] gives it back.
//!
//! ```
//! # fn main() -> Result<(), afsungar::Refusal> {
//! use afsungar::{Kind, Table, Value};
//!
//! let lists = Table::build(|t| t.array_of_lists([[35, -12], [48, 7]]));
//! let table = Table::from_bytes(&lists.to_bytes()?)?;
//! for list in table.root().into_iter().flat_map(|array| array.children()) {
//!     println!("{:?}", list.child_values()?);
//! }
//!
//! let no_sizes = Table::build(|t| t.array_of::<&str>([])); // or t.empty_array(Kind::String)
//! let table = Table::from_bytes(&no_sizes.to_bytes()?)?;
//! assert_eq!(table.values()?, [Value::Array { count: 0, element: Some(Kind::String) }]);
//! # Ok(())
//! # }
//! ```
//!
//! What is refused in writing is told in the builder's own terms by [`Table::explain`]: `$.vents[2]: a string in an array of int`.
//!
//! Underneath are four functions that work on lent memory and allocate nothing: [`size`], [`write`](write()), [`measure`]
//! and [`read`]; and the [`Walker`], which goes through values that stand end to end. [`values`] is an iterator that does
//! the same. They take words as they are; [`Kind::array_number`] makes the number of an array's row, and [`rows`](rows()) looks
//! into a table in lent memory.
//!
//! ```
//! # fn main() -> Result<(), afsungar::Refusal> {
//! let words = [0xd0, 1, 0x40, 0]; // a list of one null
//! let mut out = [0; 16];
//! let length = afsungar::write(&words, &[], &mut out)?;
//! assert_eq!(out[..length], [0xc0, 0x02, 0x01, 0x40]);
//!
//! let (mut rows, mut text) = ([0; 8], [0; 8]);
//! let extent = afsungar::read(&out[..length], &mut rows, &mut text)?;
//! assert_eq!(rows[..2 * extent.rows], words);
//! # Ok(())
//! # }
//! ```
//!
//! Whatever is lent, each of them ends with success or with a [`Refusal`], one of fifteen reasons and a place; and after a
//! refusal all lent memory holds what it held. In writing the place is a row, in reading an offset. Where a text is bad, it
//! is the faulty byte: in writing a byte of the table's text, whose row is found by [`Table::row_of_text_byte`]; in reading
//! its offset. docs/FORMAT.md of the repository says what a table is, which bytes it has and what is refused.
//!
//! # The level limit
//!
//! The root of a value is at level 1, and each child is one level below its parent. A plain call takes up to 16 levels
//! ([`LEVELS_DEFAULT`]), and refuses deeper ones ([`TooDeep`](Reason::TooDeep)). Its twin, whose name ends in `within`, takes
//! the limit as its first argument: from 1 ([`LEVELS_LEAST`]) to 32 ([`LEVELS_MOST`]). Any other limit is refused
//! ([`LimitOutside`](Reason::LimitOutside)) before anything else is looked at.
//!
//! The limit belongs to the call. Nothing of it is in the bytes, and a higher one changes neither the bytes nor the table of
//! a value that a lower one takes. So whoever writes more than 16 levels has to know that all who read name as many:
//!
//! ```
//! # fn main() -> Result<(), afsungar::Refusal> {
//! use afsungar::{Reason, Table, Value, LEVELS_MOST};
//!
//! let deep: Table = [Value::List(1); 16].into_iter().chain([Value::List(0)]).collect(); // 17 lists, one in the other
//! assert_eq!(deep.to_bytes().unwrap_err().reason(), Reason::TooDeep);
//! let bytes = deep.to_bytes_within(LEVELS_MOST)?;
//!
//! let refusal = Table::from_bytes(&bytes).unwrap_err();
//! assert_eq!((refusal.number(), refusal.offset()), (3, Some(48))); // at the 17th list
//! assert_eq!(Table::from_bytes_within(17, &bytes)?, deep);
//!
//! let refusal = deep.to_bytes_within(33).unwrap_err();
//! assert_eq!(refusal.to_string(), "the level limit has to be from 1 to 32 (15)");
//! # Ok(())
//! # }
//! ```
//!
//! # Without the standard library
//!
//! The feature `std` is on by default; it adds [`SystemTime`](std::time::SystemTime) and [`io::Error`](std::io::Error). Without
//! it the crate is `no_std`. The feature `alloc`, which `std` brings along, has [`Table`] and [`Builder`]; without it there are
//! the functions on lent memory, the [`Walker`], [`values`](values()) and [`rows`](rows()).
//!
//! # What is proved
//!
//! The library's functions in C: for each input, exactly which answer they give and which bytes and words they leave. This
//! crate is ordinary Rust around them: it hands over slices, makes a [`Refusal`] of a number, and keeps tables in vectors.
#![cfg_attr(not(feature = "std"), no_std)]
// What is documented here links to what these features bring.
#![cfg_attr(not(feature = "std"), allow(rustdoc::broken_intra_doc_links))]
#![forbid(unsafe_op_in_unsafe_fn)]
#![deny(unsafe_code)]
#![warn(missing_docs, clippy::undocumented_unsafe_blocks, clippy::missing_errors_doc)]

#[cfg(feature = "alloc")]
extern crate alloc;

/// The examples of README.md.
#[cfg(doctest)]
#[doc = include_str!("../README.md")]
struct Readme;

#[cfg(not(target_pointer_width = "64"))]
compile_error!("the library is for 64-bit processors");

#[cfg(feature = "alloc")]
mod builder;
#[allow(unsafe_code)]
mod call;
#[cfg(feature = "alloc")]
mod explain;
mod kind;
pub mod raw;
mod refusal;
mod row;
#[cfg(feature = "alloc")]
mod table;
mod timestamp;
mod uuid;
mod value;
mod walker;

#[cfg(feature = "alloc")]
use alloc::{vec, vec::Vec};

#[cfg(feature = "alloc")]
pub use builder::Builder;
#[cfg(feature = "alloc")]
pub use explain::Explanation;
pub use kind::Kind;
pub use refusal::{Reason, Refusal, Task};
pub use row::{Below, Children, Entries, Row, Rows};
#[cfg(feature = "alloc")]
pub use table::Table;
pub use timestamp::{TimeOutside, Timestamp};
pub use uuid::{BadUuid, Uuid};
pub use value::{Element, Mismatch, ToValue, Value};
pub use walker::{values, values_within, ValueRefusal, Values, Walker};

/// The least level limit that a call may name: the root and nothing below it.
pub const LEVELS_LEAST: u64 = 1;

/// The most that a call may name. No value stands deeper.
pub const LEVELS_MOST: u64 = 32;

/// The limit of a call that names none.
pub const LEVELS_DEFAULT: u64 = 16;

/// The writer's limit for the bytes of a value, the bytes of a text and the number of children. Reading has no such limit.
pub const MAX_LENGTH: usize = 1_048_576;

/// What a value takes: its bytes, and the rows and bytes of text that reading it fills.
#[derive(Clone, Copy, Debug, PartialEq, Eq, Hash)]
pub struct Extent {
    /// Its length in bytes.
    pub length: usize,
    /// The rows of its table; a row is two words.
    pub rows: usize,
    /// The bytes of its table's text.
    pub text: usize,
}

/// The number of bytes that [`write`](write()) writes for a table.
///
/// # Errors
///
/// The reasons 1 to 7: the words and the text are no table, or it is too deep or too long.
pub fn size(words: &[u64], text: &[u8]) -> Result<usize, Refusal> {
    call::size(None, words, text)
}

/// As [`size`], within a level limit.
///
/// # Errors
///
/// As [`size`], and [`LimitOutside`](Reason::LimitOutside).
///
/// ```
/// use afsungar::{size_within, Reason, Refusal};
///
/// let words = [0xd0, 1, 0x40, 0]; // a list of one null: two levels
/// assert_eq!(size_within(2, &words, &[]), Ok(4));
/// assert_eq!(size_within(1, &words, &[]), Err(Refusal::writing(Reason::TooDeep, 1)));
/// assert_eq!(size_within(0, &words, &[]), Err(Refusal::writing(Reason::LimitOutside, 0)));
/// ```
pub fn size_within(limit: u64, words: &[u64], text: &[u8]) -> Result<usize, Refusal> {
    call::size(Some(limit), words, text)
}

/// Writes a table's bytes to the start of `out` and gives their number. What is behind them in `out` stays as it is.
///
/// # Errors
///
/// As [`size`], and [`OutputShort`](Reason::OutputShort). All of `out` is then as it was.
pub fn write(words: &[u64], text: &[u8], out: &mut [u8]) -> Result<usize, Refusal> {
    call::write(None, words, text, out)
}

/// As [`write`](write()), within a level limit.
///
/// # Errors
///
/// As [`write`](write()), and [`LimitOutside`](Reason::LimitOutside).
pub fn write_within(limit: u64, words: &[u64], text: &[u8], out: &mut [u8]) -> Result<usize, Refusal> {
    call::write(Some(limit), words, text, out)
}

/// The bytes of a table, in a vector that is as long as they are.
///
/// # Errors
///
/// As [`size`].
///
/// ```
/// # fn main() -> Result<(), afsungar::Refusal> {
/// assert_eq!(afsungar::write_to_vec(&[0x70, 256], &[])?, [0x70, 0x00, 0x00, 0x01, 0x00]); // uint 256
/// # Ok(())
/// # }
/// ```
#[cfg(feature = "alloc")]
pub fn write_to_vec(words: &[u64], text: &[u8]) -> Result<Vec<u8>, Refusal> {
    write_whole(None, words, text)
}

/// As [`write_to_vec`], within a level limit.
///
/// # Errors
///
/// As [`size_within`].
#[cfg(feature = "alloc")]
pub fn write_to_vec_within(limit: u64, words: &[u64], text: &[u8]) -> Result<Vec<u8>, Refusal> {
    write_whole(Some(limit), words, text)
}

#[cfg(feature = "alloc")]
fn write_whole(limit: call::Limit, words: &[u64], text: &[u8]) -> Result<Vec<u8>, Refusal> {
    let mut out = vec![0; call::size(limit, words, text)?];
    call::write(limit, words, text, &mut out)?;
    Ok(out)
}

/// The rows of a table in lent memory, as [`Table::rows`].
///
/// ```
/// use afsungar::{rows, Value};
///
/// let (words, text) = ([0xd1, 2, 0xb3, 1, 0x70, 2], b"v"); // map, symbol v to uint 2
/// let map = rows(&words, text).next().unwrap();
/// assert_eq!(map.get("v").unwrap().value(), Ok(Value::Uint(2)));
/// ```
pub const fn rows<'a>(words: &'a [u64], text: &'a [u8]) -> Rows<'a> {
    Rows::of(words, text)
}

/// The row of a table that a byte of its text belongs to, if one has it: as [`Table::row_of_text_byte`], of lent memory.
///
/// ```
/// let (words, text) = ([0xd0, 2, 0xb1, 2, 0xb1, 2], b"M4M\xc3"); // a list of two strings, the last cut off
/// let refusal = afsungar::size(&words, text).unwrap_err();
/// let row = refusal.text_byte().and_then(|byte| afsungar::row_of_text_byte(&words, text, byte));
/// assert_eq!(row.map(|row| (row.index, row.text)), Some((2, &b"M\xc3"[..])));
/// ```
#[must_use]
pub fn row_of_text_byte<'a>(words: &'a [u64], text: &'a [u8], byte: u64) -> Option<Row<'a>> {
    rows(words, text).with_text_byte(byte)
}

/// Measures the value at the start of `bytes`; what stands behind it is not looked at.
///
/// # Errors
///
/// The reasons 3, 4 and 9 to 12: no beginning of the bytes is a value within 16 levels.
///
/// ```
/// # fn main() -> Result<(), afsungar::Refusal> {
/// let extent = afsungar::measure(&[0xa1, 0x02, 0x4d, 0x34, 0x99, 0x99])?; // string M4, and two bytes more
/// assert_eq!((extent.length, extent.rows, extent.text), (4, 1, 2));
/// # Ok(())
/// # }
/// ```
pub fn measure(bytes: &[u8]) -> Result<Extent, Refusal> {
    call::measure(None, bytes)
}

/// As [`measure`], within a level limit.
///
/// # Errors
///
/// As [`measure`], and [`LimitOutside`](Reason::LimitOutside).
pub fn measure_within(limit: u64, bytes: &[u8]) -> Result<Extent, Refusal> {
    call::measure(Some(limit), bytes)
}

/// Reads the value at the start of `bytes` into `words`, two to a row, and `text`; what stands behind the value is not
/// looked at.
///
/// What is behind the table in `words` and `text` stays as it is. A lone last word of `words` is room for no row.
///
/// # Errors
///
/// As [`measure`]; and [`RowsShort`](Reason::RowsShort) or [`TextShort`](Reason::TextShort) where the table does not fit. All of
/// `words` and `text` is then as it was.
pub fn read(bytes: &[u8], words: &mut [u64], text: &mut [u8]) -> Result<Extent, Refusal> {
    call::read(None, bytes, words, text)
}

/// As [`read`], within a level limit.
///
/// # Errors
///
/// As [`read`], and [`LimitOutside`](Reason::LimitOutside).
pub fn read_within(limit: u64, bytes: &[u8], words: &mut [u64], text: &mut [u8]) -> Result<Extent, Refusal> {
    call::read(Some(limit), bytes, words, text)
}
