use alloc::string::String;
use alloc::vec;
use alloc::vec::Vec;
use core::fmt;

use crate::call::{self, Limit};
use crate::{Builder, Extent, Reason, Refusal, Row, Rows, ToValue, Value};

/// A value as rows and text.
///
/// A row is two words, its kind and its number. A parent's row stands first, then its children in order, each with all that
/// is below it. The text holds the bytes of all rows that have some, in the order of the rows.
///
/// A table that was read can always be looked into. One that was put together may hold anything; the writer checks it.
///
/// ```
/// # fn main() -> Result<(), afsungar::Refusal> {
/// use afsungar::{Table, Value};
///
/// let table = Table::build(|t| t.list(|t| t.uint(255).string("Ø1.2").array_of([1.5f32, -0.0])));
/// let bytes = table.to_bytes()?;
/// let again = Table::from_bytes(&bytes)?;
/// assert_eq!(again, table);
///
/// let [Value::List(3), Value::Uint(n), Value::String(s), Value::Array { count: 2, .. }, ..] = again.values()?[..] else {
///     panic!("not what was written");
/// };
/// assert_eq!((n, s), (255, "Ø1.2"));
/// # Ok(())
/// # }
/// ```
///
/// What was read is not always written again: the writer has limits that reading has not, and each array has to tell the
/// kind of its elements. Some senders leave that out where an array is empty. The kind can be put in:
///
/// ```
/// # fn main() -> Result<(), afsungar::Refusal> {
/// use afsungar::{Kind, Reason, Table, Value};
///
/// let table = Table::from_bytes(&[0xc0, 0x05, 0x02, 0x40, 0xe0, 0x01, 0x00])?; // a list: null, an empty array
/// assert_eq!(table.to_bytes().unwrap_err().reason(), Reason::NumberOutside);
///
/// let told = table.values()?.into_iter().map(|value| match value {
///     Value::Array { count, element: None } => Value::Array { count, element: Some(Kind::Symbol) },
///     other => other,
/// });
/// let told: Table = told.collect();
/// assert_eq!(told.to_bytes()?, [0xc0, 0x06, 0x02, 0x40, 0xe0, 0x02, 0x00, 0xb3]);
/// # Ok(())
/// # }
/// ```
///
/// `Display` prints what the repository's listing prints of a value: for each row a line with its index, its kind in hex and
/// its number. The listing adds a last line, `end` and the value's length in bytes.
#[derive(Clone, Default, PartialEq, Eq, Hash)]
pub struct Table {
    words: Vec<u64>,
    text: Vec<u8>,
}

impl Table {
    /// Puts a table together. What the closure returns is dropped.
    #[must_use]
    pub fn build<R>(value: impl FnOnce(&Builder) -> R) -> Self {
        let builder = Builder::new();
        value(&builder);
        builder.finish()
    }

    /// A table of these words and this text, whatever they hold.
    #[must_use]
    pub const fn from_parts(words: Vec<u64>, text: Vec<u8>) -> Self {
        Table { words, text }
    }

    /// Its words and its text.
    #[must_use]
    pub fn into_parts(self) -> (Vec<u64>, Vec<u8>) {
        (self.words, self.text)
    }

    /// Reads the value that the bytes are. The table has exactly the memory that it needs, at most one row and one byte of text
    /// for each byte of the value.
    ///
    /// ```
    /// use afsungar::{Reason, Refusal, Table};
    ///
    /// let table = Table::from_bytes(&[0xc1, 0x06, 0x02, 0xa3, 0x01, 0x76, 0x52, 0x02]).unwrap(); // map, symbol v to uint 2
    /// assert_eq!(table.words(), [0xd1, 2, 0xb3, 1, 0x70, 2]);
    /// assert_eq!(table.text(), b"v");
    ///
    /// let refusal = Table::from_bytes(&[0x52, 0xff, 0x40]).unwrap_err(); // uint 255, and a null behind it
    /// assert_eq!(refusal, Refusal::reading(Reason::BytesLeft, 2));
    /// assert_eq!(refusal.to_string(), "bytes are left behind the value at byte 2");
    /// ```
    ///
    /// # Errors
    ///
    /// As [`measure`](crate::measure); and [`BytesLeft`](Reason::BytesLeft) where bytes stand behind the value:
    /// [`from_prefix`](Table::from_prefix) takes these, and [`values`](crate::values()) takes values end to end apart.
    pub fn from_bytes(bytes: &[u8]) -> Result<Self, Refusal> {
        Table::read_all(None, bytes)
    }

    /// As [`from_bytes`](Table::from_bytes), within a level limit. A table of more than 16 levels is written again by
    /// [`to_bytes_within`](Table::to_bytes_within).
    ///
    /// # Errors
    ///
    /// As [`from_bytes`](Table::from_bytes), and [`LimitOutside`](Reason::LimitOutside).
    pub fn from_bytes_within(limit: u64, bytes: &[u8]) -> Result<Self, Refusal> {
        Table::read_all(Some(limit), bytes)
    }

    /// Reads the value at the start of the bytes, and gives its length too. What stands behind it is not looked at.
    ///
    /// ```
    /// # fn main() -> Result<(), afsungar::Refusal> {
    /// use afsungar::{Table, Value};
    ///
    /// let bytes = [0x52, 0xff, 0x40]; // uint 255, and a null behind it
    /// let (table, length) = Table::from_prefix(&bytes)?;
    /// assert_eq!((table, length), (Table::from(Value::Uint(255)), 2));
    /// # Ok(())
    /// # }
    /// ```
    ///
    /// # Errors
    ///
    /// As [`measure`](crate::measure).
    pub fn from_prefix(bytes: &[u8]) -> Result<(Self, usize), Refusal> {
        Table::read_front(None, bytes)
    }

    /// As [`from_prefix`](Table::from_prefix), within a level limit.
    ///
    /// # Errors
    ///
    /// As [`from_prefix`](Table::from_prefix), and [`LimitOutside`](Reason::LimitOutside).
    pub fn from_prefix_within(limit: u64, bytes: &[u8]) -> Result<(Self, usize), Refusal> {
        Table::read_front(Some(limit), bytes)
    }

    fn read_all(limit: Limit, bytes: &[u8]) -> Result<Self, Refusal> {
        let extent = call::measure(limit, bytes)?;
        if extent.length < bytes.len() {
            return Err(Refusal::reading(Reason::BytesLeft, extent.length as u64));
        }
        Table::read_measured(limit, bytes, extent)
    }

    fn read_front(limit: Limit, bytes: &[u8]) -> Result<(Self, usize), Refusal> {
        let extent = call::measure(limit, bytes)?;
        Table::read_measured(limit, bytes, extent).map(|table| (table, extent.length))
    }

    fn read_measured(limit: Limit, bytes: &[u8], extent: Extent) -> Result<Self, Refusal> {
        // A value has at least a byte for each row and for each byte of text, so this is no more than the bytes call for.
        let mut table = Table { words: vec![0; 2 * extent.rows], text: vec![0; extent.text] };
        call::read(limit, bytes, &mut table.words, &mut table.text)?;
        Ok(table)
    }

    /// Reads the value at the start of the bytes into this table, whose memory is used again. What stands behind the value is
    /// not looked at; the answer has its length.
    ///
    /// # Errors
    ///
    /// As [`measure`](crate::measure). The table is then as it was.
    pub fn read_from(&mut self, bytes: &[u8]) -> Result<Extent, Refusal> {
        self.read_over(None, bytes)
    }

    /// As [`read_from`](Table::read_from), within a level limit.
    ///
    /// # Errors
    ///
    /// As [`read_from`](Table::read_from), and [`LimitOutside`](Reason::LimitOutside).
    pub fn read_from_within(&mut self, limit: u64, bytes: &[u8]) -> Result<Extent, Refusal> {
        self.read_over(Some(limit), bytes)
    }

    fn read_over(&mut self, limit: Limit, bytes: &[u8]) -> Result<Extent, Refusal> {
        let extent = call::measure(limit, bytes)?;
        self.words.resize(2 * extent.rows, 0);
        self.text.resize(extent.text, 0);
        call::read(limit, bytes, &mut self.words, &mut self.text)
    }

    /// The number of bytes that it is written in.
    ///
    /// # Errors
    ///
    /// As [`size`](crate::size). [`explain`](Table::explain) says what is wrong where.
    pub fn size(&self) -> Result<usize, Refusal> {
        call::size(None, &self.words, &self.text)
    }

    /// As [`size`](Table::size), within a level limit.
    ///
    /// # Errors
    ///
    /// As [`size`](Table::size), and [`LimitOutside`](Reason::LimitOutside).
    pub fn size_within(&self, limit: u64) -> Result<usize, Refusal> {
        call::size(Some(limit), &self.words, &self.text)
    }

    /// The bytes that it is written in.
    ///
    /// # Errors
    ///
    /// As [`size`](Table::size).
    pub fn to_bytes(&self) -> Result<Vec<u8>, Refusal> {
        crate::write_to_vec(&self.words, &self.text)
    }

    /// As [`to_bytes`](Table::to_bytes), within a level limit.
    ///
    /// # Errors
    ///
    /// As [`size_within`](Table::size_within).
    pub fn to_bytes_within(&self, limit: u64) -> Result<Vec<u8>, Refusal> {
        crate::write_to_vec_within(limit, &self.words, &self.text)
    }

    /// Writes it to the start of `out` and gives the number of bytes written.
    ///
    /// # Errors
    ///
    /// As [`size`](Table::size), and [`OutputShort`](Reason::OutputShort). Then `out` is as it was.
    pub fn write_to(&self, out: &mut [u8]) -> Result<usize, Refusal> {
        call::write(None, &self.words, &self.text, out)
    }

    /// As [`write_to`](Table::write_to), within a level limit.
    ///
    /// # Errors
    ///
    /// As [`write_to`](Table::write_to), and [`LimitOutside`](Reason::LimitOutside).
    pub fn write_to_within(&self, limit: u64, out: &mut [u8]) -> Result<usize, Refusal> {
        call::write(Some(limit), &self.words, &self.text, out)
    }

    /// Writes it behind what `out` holds and gives the number of bytes written.
    ///
    /// ```
    /// # fn main() -> Result<(), afsungar::Refusal> {
    /// use afsungar::{Table, Value};
    ///
    /// let mut out = vec![0x40];
    /// assert_eq!(Table::from(Value::Uint(255)).append_to(&mut out)?, 2);
    /// assert_eq!(out, [0x40, 0x52, 0xff]);
    /// # Ok(())
    /// # }
    /// ```
    ///
    /// # Errors
    ///
    /// As [`size`](Table::size). Then `out` holds what it held.
    pub fn append_to(&self, out: &mut Vec<u8>) -> Result<usize, Refusal> {
        self.append(None, out)
    }

    /// As [`append_to`](Table::append_to), within a level limit.
    ///
    /// # Errors
    ///
    /// As [`size_within`](Table::size_within). Then `out` holds what it held.
    pub fn append_to_within(&self, limit: u64, out: &mut Vec<u8>) -> Result<usize, Refusal> {
        self.append(Some(limit), out)
    }

    fn append(&self, limit: Limit, out: &mut Vec<u8>) -> Result<usize, Refusal> {
        let (start, size) = (out.len(), call::size(limit, &self.words, &self.text)?);
        out.resize(start + size, 0);
        call::write(limit, &self.words, &self.text, &mut out[start..])
    }

    /// Its words, two to a row.
    #[must_use]
    pub fn words(&self) -> &[u64] {
        &self.words
    }

    /// Its text.
    #[must_use]
    pub fn text(&self) -> &[u8] {
        &self.text
    }

    /// The number of its rows.
    #[must_use]
    pub fn len(&self) -> usize {
        self.words.len() / 2
    }

    /// Whether it has no rows. (Then it holds no value, and the writer refuses it.)
    #[must_use]
    pub fn is_empty(&self) -> bool {
        self.len() == 0
    }

    /// Its rows in order.
    pub fn rows(&self) -> Rows<'_> {
        Rows::of(&self.words, &self.text)
    }

    /// The first row, from which all others are reached by [`Row::children`].
    #[must_use]
    pub fn root(&self) -> Option<Row<'_>> {
        self.rows().next()
    }

    /// The row that a byte of the text belongs to, if one has it: where the writer refuses bad text, it names the byte
    /// ([`Refusal::text_byte`]), and this is its row.
    ///
    /// ```
    /// use afsungar::Table;
    ///
    /// let order = Table::build(|t| t.map(|t| t.symbol("size").string("Ø1.2").symbol("für").string("left")));
    /// let refusal = order.to_bytes().unwrap_err();
    /// assert_eq!(refusal.to_string(), "a string is not UTF-8 or a symbol not ASCII (6) at byte 10 of the text");
    ///
    /// let byte = refusal.text_byte().unwrap();
    /// let row = order.row_of_text_byte(byte).unwrap();
    /// assert_eq!((row.index, row.text), (3, "für".as_bytes()));
    /// assert_eq!(byte as usize - row.text_start, 1); // the u with dots, which a symbol cannot have
    /// ```
    #[must_use]
    pub fn row_of_text_byte(&self, byte: u64) -> Option<Row<'_>> {
        self.rows().with_text_byte(byte)
    }

    /// What each row holds, in order.
    ///
    /// # Errors
    ///
    /// It is refused where a row is none of its kind, as [`Row::value`] is.
    pub fn values(&self) -> Result<Vec<Value<'_>>, Refusal> {
        self.rows().map(|row| row.value()).collect()
    }
}

impl fmt::Display for Table {
    fn fmt(&self, f: &mut fmt::Formatter<'_>) -> fmt::Result {
        self.rows().try_for_each(|row| writeln!(f, "{row}"))
    }
}

impl fmt::Debug for Table {
    fn fmt(&self, f: &mut fmt::Formatter<'_>) -> fmt::Result {
        let mut rows = self.rows();
        f.write_str("Table ")?;
        let mut list = f.debug_list();
        list.entries(&mut rows);
        // What is no row and no row's text.
        let (words, text) = rows.rest();
        if let [word] = words {
            list.entry(&format_args!("lone word {word}"));
        }
        if !text.is_empty() {
            list.entry(&format_args!("text left {text:?}"));
        }
        list.finish()
    }
}

/// A table of one row.
impl From<Value<'_>> for Table {
    fn from(value: Value<'_>) -> Self {
        Table::from_iter([value])
    }
}

/// A table of one string. The text is not copied.
impl From<String> for Table {
    fn from(text: String) -> Self {
        let value = Value::String(&text);
        Table { words: vec![value.kind().code(), value.number()], text: text.into_bytes() }
    }
}

/// A table of these rows.
impl<V: ToValue> FromIterator<V> for Table {
    fn from_iter<I: IntoIterator<Item = V>>(rows: I) -> Self {
        Table::build(|t| t.extend(rows))
    }
}

/// Reads the value that the bytes are, as [`Table::from_bytes`].
impl TryFrom<&[u8]> for Table {
    type Error = Refusal;

    fn try_from(bytes: &[u8]) -> Result<Self, Refusal> {
        Table::from_bytes(bytes)
    }
}

/// Writes the table.
impl TryFrom<&Table> for Vec<u8> {
    type Error = Refusal;

    fn try_from(table: &Table) -> Result<Self, Refusal> {
        table.to_bytes()
    }
}

impl<'a> IntoIterator for &'a Table {
    type Item = Row<'a>;
    type IntoIter = Rows<'a>;

    fn into_iter(self) -> Rows<'a> {
        self.rows()
    }
}
