//! A table through the writer of the ported crate.
//!
//! The crate is handed the very rows that our writer is handed, one by one: lists, arrays and maps with `None` as their
//! length, since it reserves memory by the length that it is told. The kind that an array tells has no place there: the
//! crate goes by the elements.

use crate::table::{count_in, Kind, Row, Rows, Table};
use original::{names, ser::Serializer};
use serde::ser::{self, Serialize, SerializeMap, SerializeSeq, SerializeStruct};
use std::{cell::Cell, fmt, panic};

/// Why the crate wrote nothing whole.
#[derive(Clone, Debug, PartialEq, Eq)]
pub enum Trouble {
    Error(String),
    Panic(String),
}

impl fmt::Display for Trouble {
    fn fmt(&self, f: &mut fmt::Formatter<'_>) -> fmt::Result {
        match self {
            Trouble::Error(message) => write!(f, "error: {message}"),
            Trouble::Panic(message) => write!(f, "panics: {message}"),
        }
    }
}

/// Appends the crate's bytes. The table's strings and symbols have to be UTF-8.
pub fn write(table: &Table, out: &mut Vec<u8>) -> Result<(), original::Error> {
    Value(&Cell::new(Rows::of(table))).serialize(&mut Serializer::new(out))
}

/// As `write`, with a panic caught.
pub fn try_write(table: &Table, out: &mut Vec<u8>) -> Result<(), Trouble> {
    match panic::catch_unwind(panic::AssertUnwindSafe(|| write(table, out))) {
        Ok(Ok(())) => Ok(()),
        Ok(Err(error)) => Err(Trouble::Error(error.to_string())),
        Err(message) => Err(Trouble::Panic(match message.downcast_ref::<&str>() {
            Some(text) => text.to_string(),
            None => message.downcast_ref::<String>().cloned().unwrap_or_default(),
        })),
    }
}

/// Keeps panics inside the crate from printing: they are caught and counted.
pub fn silence() {
    let usual = panic::take_hook();
    panic::set_hook(Box::new(move |info| {
        if !info.location().is_some_and(|place| place.file().ends_with("ser.rs")) {
            usual(info);
        }
    }));
}

/// The value that begins at the next row. Serializing it takes its rows away, so that the children of a list of three are
/// three times "the next value".
#[derive(Clone, Copy)]
struct Value<'a>(&'a Cell<Rows<'a>>);

impl<'a> Value<'a> {
    #[inline]
    fn next_row(&self) -> Row<'a> {
        let mut rows = self.0.get();
        let row = rows.next().expect("the table holds a whole value");
        self.0.set(rows);
        row
    }
}

impl Serialize for Value<'_> {
    fn serialize<S: ser::Serializer>(&self, to: S) -> Result<S::Ok, S::Error> {
        let Row { kind, number, text } = self.next_row();
        match kind {
            Kind::Null => to.serialize_unit(),
            Kind::Boolean => to.serialize_bool(number != 0),
            Kind::Ubyte => to.serialize_u8(number as u8),
            Kind::Ushort => to.serialize_u16(number as u16),
            Kind::Uint => to.serialize_u32(number as u32),
            Kind::Ulong => to.serialize_u64(number),
            Kind::Byte => to.serialize_i8(number as i8),
            Kind::Short => to.serialize_i16(number as i16),
            Kind::Int => to.serialize_i32(number as i32),
            Kind::Long => to.serialize_i64(number as i64),
            Kind::Float => to.serialize_f32(f32::from_bits(number as u32)),
            Kind::Double => to.serialize_f64(f64::from_bits(number)),
            Kind::Char => to.serialize_char(char::from_u32(number as u32).expect("a char's number is in its range")),
            Kind::Timestamp => to.serialize_newtype_struct(names::TIMESTAMP, &(number as i64)),
            Kind::Decimal32 => to.serialize_newtype_struct(names::DECIMAL32, &Raw(&(number as u32).to_be_bytes())),
            Kind::Decimal64 => to.serialize_newtype_struct(names::DECIMAL64, &Raw(&number.to_be_bytes())),
            Kind::Decimal128 => to.serialize_newtype_struct(names::DECIMAL128, &Raw(text)),
            Kind::Uuid => to.serialize_newtype_struct(names::UUID, &Raw(text)),
            Kind::Binary => to.serialize_bytes(text),
            Kind::String => to.serialize_str(utf8(text)),
            Kind::Symbol => to.serialize_newtype_struct(names::SYMBOL, utf8(text)),
            Kind::List => Items { of: *self, count: number }.serialize(to),
            Kind::Array => to.serialize_newtype_struct(names::ARRAY, &Items { of: *self, count: count_in(number) }),
            Kind::Map => {
                let mut map = to.serialize_map(None)?;
                for _ in 0..number / 2 {
                    map.serialize_entry(self, self)?;
                }
                map.end()
            }
            Kind::Described => {
                let mut described = to.serialize_struct(names::DESCRIBED, 2)?;
                described.serialize_field(names::DESCRIPTOR, &Descriptor(*self))?;
                described.serialize_field("value", self)?;
                described.end()
            }
        }
    }
}

/// The next `count` values, one after another.
struct Items<'a> {
    of: Value<'a>,
    count: u64,
}

impl Serialize for Items<'_> {
    #[inline]
    fn serialize<S: ser::Serializer>(&self, to: S) -> Result<S::Ok, S::Error> {
        let mut items = to.serialize_seq(None)?;
        for _ in 0..self.count {
            items.serialize_element(&self.of)?;
        }
        items.end()
    }
}

struct Descriptor<'a>(Value<'a>);

impl Serialize for Descriptor<'_> {
    #[inline]
    fn serialize<S: ser::Serializer>(&self, to: S) -> Result<S::Ok, S::Error> {
        to.serialize_newtype_variant(names::DESCRIPTOR, 0, "descriptor", &self.0)
    }
}

struct Raw<'a>(&'a [u8]);

impl Serialize for Raw<'_> {
    #[inline]
    fn serialize<S: ser::Serializer>(&self, to: S) -> Result<S::Ok, S::Error> {
        to.serialize_bytes(self.0)
    }
}

/// The crate takes a `str`, which a Rust program has at hand: its times shall not hold a check.
#[inline]
fn utf8(text: &[u8]) -> &str {
    debug_assert!(std::str::from_utf8(text).is_ok());
    // SAFETY: callers hand over tables whose strings and symbols are UTF-8.
    unsafe { std::str::from_utf8_unchecked(text) }
}
