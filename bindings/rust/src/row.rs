#[cfg(feature = "alloc")]
use alloc::vec::Vec;
use core::fmt;
use core::iter::FusedIterator;
use core::str;

use crate::kind::{children, element_code, text_length};
use crate::{Kind, Reason, Refusal, Timestamp, ToValue, Uuid, Value};

/// A row of a table.
///
/// Two rows are equal where they hold the same value, with all that is below it, wherever they stand.
///
/// `Display` prints the line that the listing has for it, without the newline.
#[derive(Clone, Copy)]
pub struct Row<'a> {
    /// Which row it is, from 0.
    pub index: usize,
    /// Its kind as a word; [`kind`](Row::kind) names it.
    pub code: u64,
    /// Its number: the value itself, a length or a count. An array's has two parts, [`count`](Row::count) and
    /// [`element_kind`](Row::element_kind).
    pub number: u64,
    /// Its part of the text; less of it where the table has too little.
    pub text: &'a [u8],
    /// Where that begins in the text of the table.
    pub text_start: usize,
    behind: Cursor<'a>,
}

impl<'a> Row<'a> {
    /// Its kind, if it is one of the 25. Of a table that was read each row has one.
    #[must_use]
    pub const fn kind(&self) -> Option<Kind> {
        Kind::from_code(self.code)
    }

    /// What it holds.
    ///
    /// # Errors
    ///
    /// It is refused as the writer would refuse the row: with [`KindUnknown`](Reason::KindUnknown),
    /// [`ElementUnfit`](Reason::ElementUnfit), where an array tells a kind that arrays cannot hold,
    /// [`NumberOutside`](Reason::NumberOutside) or [`TextAmiss`](Reason::TextAmiss). Not so where the table was read: the
    /// writer's limits of 1,048,576 are not looked at, and an empty array need not tell the kind of its elements.
    pub fn value(&self) -> Result<Value<'a>, Refusal> {
        self.typed().map_err(|reason| match self.faulty_byte() {
            Some(byte) if reason == Reason::TextAmiss => Refusal::bad_text((self.text_start + byte) as u64),
            _ => Refusal::writing(reason, self.index as u64),
        })
    }

    /// Where its text is bad, if all of it is there.
    fn faulty_byte(&self) -> Option<usize> {
        if self.text.len() as u64 != text_length(self.code, self.number) {
            return None;
        }
        match self.kind()? {
            Kind::String => str::from_utf8(self.text).err().map(|error| error.valid_up_to()),
            Kind::Symbol => self.text.iter().position(|byte| !byte.is_ascii()),
            _ => None,
        }
    }

    fn typed(&self) -> Result<Value<'a>, Reason> {
        let number = self.number;
        let kind = self.kind().ok_or(Reason::KindUnknown)?;
        let numbered = |good: bool| if good { Ok(()) } else { Err(Reason::NumberOutside) };
        let sixteen = || <[u8; 16]>::try_from(self.text).map_err(|_| Reason::TextAmiss);
        let binary = || Some(self.text).filter(|text| text.len() as u64 == number).ok_or(Reason::TextAmiss);
        let string = || str::from_utf8(binary()?).map_err(|_| Reason::TextAmiss);
        Ok(match kind {
            Kind::Described => numbered(number == 2).map(|()| Value::Described)?,
            Kind::Null => numbered(number == 0).map(|()| Value::Null)?,
            Kind::Boolean => numbered(number < 2).map(|()| Value::Boolean(number == 1))?,
            Kind::Ubyte => Value::Ubyte(fit(number)?),
            Kind::Byte => Value::Byte(fit::<u8>(number)? as i8),
            Kind::Ushort => Value::Ushort(fit(number)?),
            Kind::Short => Value::Short(fit::<u16>(number)? as i16),
            Kind::Uint => Value::Uint(fit(number)?),
            Kind::Int => Value::Int(fit::<u32>(number)? as i32),
            Kind::Float => Value::Float(f32::from_bits(fit(number)?)),
            Kind::Char => Value::Char(char::from_u32(fit(number)?).ok_or(Reason::NumberOutside)?),
            Kind::Decimal32 => Value::Decimal32(fit(number)?),
            Kind::Ulong => Value::Ulong(number),
            Kind::Long => Value::Long(number as i64),
            Kind::Double => Value::Double(f64::from_bits(number)),
            Kind::Timestamp => Value::Timestamp(Timestamp(number as i64)),
            Kind::Decimal64 => Value::Decimal64(number),
            Kind::Decimal128 => numbered(number == 0).and_then(|()| sixteen()).map(Value::Decimal128)?,
            Kind::Uuid => {
                numbered(number == 0).and_then(|()| sixteen()).map(|bytes| Value::Uuid(Uuid::from_bytes(bytes)))?
            }
            Kind::Binary => Value::Binary(binary()?),
            Kind::String => Value::String(string()?),
            Kind::Symbol => Value::Symbol(Some(string()?).filter(|text| text.is_ascii()).ok_or(Reason::TextAmiss)?),
            Kind::List => Value::List(self.count()),
            Kind::Map => numbered(number % 2 == 0).map(|()| Value::Map(self.count()))?,
            Kind::Array => Value::Array { count: self.count(), element: self.element()? },
        })
    }

    /// The kind that an array's row tells, if it is one that arrays can hold; none if an empty array tells none.
    fn element(&self) -> Result<Option<Kind>, Reason> {
        match (element_code(self.number), self.count()) {
            (0, 0) => Ok(None),
            (0, _) => Err(Reason::NumberOutside),
            (code, _) => match Kind::from_code(code) {
                Some(kind) if kind.is_element() => Ok(Some(kind)),
                Some(_) => Err(Reason::ElementUnfit),
                None => Err(Reason::NumberOutside),
            },
        }
    }

    /// How many children it says it has: its number if its kind has children, of an array's number the part that is the
    /// count; else 0.
    #[must_use]
    pub fn count(&self) -> usize {
        children(self.code, self.number) as usize
    }

    /// The kind of its elements: none if it is an array that does not tell it, or no array.
    ///
    /// It is none, too, where the row tells what arrays cannot hold or what is no kind; [`value`](Row::value) then says so.
    ///
    /// ```
    /// # fn main() -> Result<(), afsungar::Refusal> {
    /// use afsungar::{Kind, Table};
    ///
    /// let told = Table::from_bytes(&[0xe0, 0x02, 0x00, 0xa3])?; // an empty array, its element code that of short symbols
    /// assert_eq!(told.root().and_then(|array| array.element_kind()), Some(Kind::Symbol));
    /// let not_told = Table::from_bytes(&[0xe0, 0x01, 0x00])?;
    /// assert_eq!(not_told.root().and_then(|array| array.element_kind()), None);
    /// # Ok(())
    /// # }
    /// ```
    #[must_use]
    pub fn element_kind(&self) -> Option<Kind> {
        match self.typed() {
            Ok(Value::Array { element, .. }) => element,
            _ => None,
        }
    }

    /// Its children, without what is below them.
    ///
    /// ```
    /// use afsungar::Table;
    ///
    /// let table = Table::build(|t| t.list(|t| t.list_of([1u32, 2, 3]).list_of([4u32])));
    /// let counts = table.root().into_iter().flat_map(|list| list.children()).map(|child| child.count());
    /// assert_eq!(counts.collect::<Vec<_>>(), [3, 1]);
    /// ```
    pub fn children(&self) -> Children<'a> {
        Children { cursor: self.behind, below: 0, left: self.count() }
    }

    /// All rows below it: its children, each with those below it, in order.
    pub fn below(&self) -> Below<'a> {
        Below { cursor: self.behind, due: self.count() }
    }

    /// The keys and values of a map, in order; none if it is no map.
    ///
    /// ```
    /// use afsungar::{Table, Value};
    ///
    /// let ears = Table::build(|t| t.map_of([("left", 2u32), ("right", 1)]));
    /// for (ear, count) in ears.root().unwrap().entries() {
    ///     println!("{:?}: {:?}", ear.value(), count.value());
    /// }
    /// ```
    pub fn entries(&self) -> Entries<'a> {
        let left = if self.kind() == Some(Kind::Map) { self.count() } else { 0 };
        Entries { children: Children { left, ..self.children() } }
    }

    /// The value that a map has for this key: of the first entry, if there are more. None if it is no map, or has no such key.
    ///
    /// A string finds a symbol of the same letters too, since the keys of most maps are symbols; a [`Value::Symbol`] finds
    /// symbols alone. A key that has children is not found.
    ///
    /// ```
    /// use afsungar::{Table, Value};
    ///
    /// let order = Table::build(|t| t.map(|t| t.symbol("vent").uint(12).ulong(4711).string("shell")));
    /// let map = order.root().unwrap();
    /// assert_eq!(map.get("vent").unwrap().value(), Ok(Value::Uint(12)));
    /// assert_eq!(map.get(4711u64).unwrap().value(), Ok(Value::String("shell")));
    /// assert_eq!(map.get("size"), None);
    /// ```
    #[must_use]
    pub fn get(&self, key: impl ToValue) -> Option<Row<'a>> {
        let key = key.to_value();
        self.entries().find(|(found, _)| found.is_key(&key)).map(|(_, value)| value)
    }

    fn is_key(&self, key: &Value<'_>) -> bool {
        let alike = match key {
            Value::String(_) => matches!(self.kind(), Some(Kind::String | Kind::Symbol)),
            _ => self.code == key.kind().code(),
        };
        alike && self.number == key.number() && self.text == key.text() && self.count() == 0
    }

    /// The descriptor of a described value; none if it is no such value.
    ///
    /// ```
    /// use afsungar::{Table, Value};
    ///
    /// let empty = Table::build(|t| t.described(|t| t.ulong(36).list(|_| ())));
    /// let root = empty.root().unwrap();
    /// assert_eq!(root.descriptor().unwrap().value(), Ok(Value::Ulong(36)));
    /// assert_eq!(root.described().unwrap().value(), Ok(Value::List(0)));
    /// ```
    #[must_use]
    pub fn descriptor(&self) -> Option<Row<'a>> {
        self.part(0)
    }

    /// The value that stands behind the descriptor of a described value; none if it is no such value.
    #[must_use]
    pub fn described(&self) -> Option<Row<'a>> {
        self.part(1)
    }

    fn part(&self, which: usize) -> Option<Row<'a>> {
        (self.kind() == Some(Kind::Described)).then(|| self.children().nth(which)).flatten()
    }

    /// What each child holds, in order.
    ///
    /// # Errors
    ///
    /// It is refused where a child is none of its kind, as [`Row::value`] is.
    ///
    /// ```
    /// # fn main() -> Result<(), afsungar::Refusal> {
    /// use afsungar::{Kind, Table, Value};
    ///
    /// let vents = Table::build(|t| {
    ///     t.array(Kind::List, |t| {
    ///         t.list_of([Value::String("Ø1.2"), Value::Int(35)]);
    ///         t.list_of([Value::String("Ø1.3"), Value::Int(48)])
    ///     })
    /// });
    /// let mut found = Vec::new();
    /// for vent in vents.root().into_iter().flat_map(|array| array.children()) {
    ///     if let [Value::String(size), Value::Int(across)] = vent.child_values()?[..] {
    ///         found.push((size, across));
    ///     }
    /// }
    /// assert_eq!(found, [("Ø1.2", 35), ("Ø1.3", 48)]);
    /// # Ok(())
    /// # }
    /// ```
    #[cfg(feature = "alloc")]
    pub fn child_values(&self) -> Result<Vec<Value<'a>>, Refusal> {
        self.children().map(|child| child.value()).collect()
    }
}

/// A number at the width of its kind.
fn fit<T: TryFrom<u64>>(number: u64) -> Result<T, Reason> {
    T::try_from(number).map_err(|_| Reason::NumberOutside)
}

impl PartialEq for Row<'_> {
    fn eq(&self, other: &Self) -> bool {
        fn own<'a>(row: &Row<'a>) -> (u64, u64, &'a [u8]) {
            (row.code, row.number, row.text)
        }
        own(self) == own(other) && self.below().map(|row| own(&row)).eq(other.below().map(|row| own(&row)))
    }
}

impl Eq for Row<'_> {}

impl fmt::Display for Row<'_> {
    fn fmt(&self, f: &mut fmt::Formatter<'_>) -> fmt::Result {
        write!(f, "{} {:02x} {}", self.index, self.code, self.number)
    }
}

impl fmt::Debug for Row<'_> {
    fn fmt(&self, f: &mut fmt::Formatter<'_>) -> fmt::Result {
        match self.value() {
            Ok(value) => value.fmt(f),
            Err(_) => write!(f, "bad row {:02x}:{} {:?}", self.code, self.number, self.text),
        }
    }
}

/// The rows from one on, and their text.
#[derive(Clone, Copy, Debug)]
struct Cursor<'a> {
    index: usize,
    words: &'a [u64],
    text: &'a [u8],
    /// Where this text begins in that of the table.
    text_start: usize,
}

impl<'a> Cursor<'a> {
    fn step(&mut self) -> Option<Row<'a>> {
        let [code, number, words @ ..] = self.words else {
            return None;
        };
        let length = text_length(*code, *number) as usize;
        let (text, left) = self.text.split_at(length.min(self.text.len()));
        let Cursor { index, text_start, .. } = *self;
        *self = Cursor { index: index + 1, words, text: left, text_start: text_start + text.len() };
        Some(Row { index, code: *code, number: *number, text, text_start, behind: *self })
    }
}

/// An iterator over the rows of a table; see [`rows`](crate::rows()) and [`Table::rows`](crate::Table::rows).
#[derive(Clone, Debug)]
#[must_use]
pub struct Rows<'a> {
    cursor: Cursor<'a>,
}

impl<'a> Rows<'a> {
    pub(crate) const fn of(words: &'a [u64], text: &'a [u8]) -> Self {
        Rows { cursor: Cursor { index: 0, words, text, text_start: 0 } }
    }

    /// The words that are left, and the text.
    #[cfg(feature = "alloc")]
    pub(crate) const fn rest(&self) -> (&'a [u64], &'a [u8]) {
        (self.cursor.words, self.cursor.text)
    }

    /// The row whose text has this byte, counted in the text of the table.
    pub(crate) fn with_text_byte(mut self, byte: u64) -> Option<Row<'a>> {
        self.find(|row| byte < (row.text_start + row.text.len()) as u64)
    }
}

impl<'a> Iterator for Rows<'a> {
    type Item = Row<'a>;

    fn next(&mut self) -> Option<Row<'a>> {
        self.cursor.step()
    }

    fn size_hint(&self) -> (usize, Option<usize>) {
        let left = self.cursor.words.len() / 2;
        (left, Some(left))
    }
}

impl ExactSizeIterator for Rows<'_> {}
impl FusedIterator for Rows<'_> {}

/// An iterator over the children of a row; see [`Row::children`].
///
/// It ends early where the table has too few rows.
#[derive(Clone, Debug)]
#[must_use]
pub struct Children<'a> {
    cursor: Cursor<'a>,
    /// Children of the last child, to be passed over before the next.
    below: usize,
    left: usize,
}

impl<'a> Iterator for Children<'a> {
    type Item = Row<'a>;

    fn next(&mut self) -> Option<Row<'a>> {
        self.left = self.left.checked_sub(1)?;
        while self.below > 0 {
            let row = self.cursor.step()?;
            self.below = (self.below - 1).saturating_add(row.count());
        }
        let child = self.cursor.step()?;
        self.below = child.count();
        Some(child)
    }

    fn size_hint(&self) -> (usize, Option<usize>) {
        (0, Some(self.left.min(self.cursor.words.len() / 2)))
    }
}

impl FusedIterator for Children<'_> {}

/// An iterator over all rows below a row; see [`Row::below`].
///
/// It ends early where the table has too few rows.
#[derive(Clone, Debug)]
#[must_use]
pub struct Below<'a> {
    cursor: Cursor<'a>,
    /// Values to come, of all levels.
    due: usize,
}

impl<'a> Iterator for Below<'a> {
    type Item = Row<'a>;

    fn next(&mut self) -> Option<Row<'a>> {
        let due = self.due.checked_sub(1)?;
        let row = self.cursor.step()?;
        self.due = due.saturating_add(row.count());
        Some(row)
    }
}

impl FusedIterator for Below<'_> {}

/// An iterator over the keys and values of a map; see [`Row::entries`].
#[derive(Clone, Debug)]
#[must_use]
pub struct Entries<'a> {
    children: Children<'a>,
}

impl<'a> Iterator for Entries<'a> {
    type Item = (Row<'a>, Row<'a>);

    fn next(&mut self) -> Option<Self::Item> {
        Some((self.children.next()?, self.children.next()?))
    }

    fn size_hint(&self) -> (usize, Option<usize>) {
        (0, self.children.size_hint().1.map(|most| most / 2))
    }
}

impl FusedIterator for Entries<'_> {}
