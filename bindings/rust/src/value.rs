#[cfg(feature = "alloc")]
use alloc::{borrow::Cow, borrow::ToOwned, string::String, vec::Vec};
use core::error::Error;
use core::fmt;

use crate::{Kind, Timestamp, Uuid};

/// What a row holds, by its kind.
///
/// The four kinds that have children hold how many, and an array holds the kind of its elements too. The children are the
/// rows that follow, each with all that is below it.
///
/// Rust's own types are turned into values by [`From`], and back by [`TryFrom`]:
///
/// ```
/// use afsungar::Value;
///
/// assert_eq!(Value::from(255u32), Value::Uint(255));
/// assert_eq!(Value::from("Ø1.2"), Value::String("Ø1.2"));
/// assert_eq!(Value::from(None::<bool>), Value::Null);
///
/// assert_eq!(u32::try_from(Value::Uint(255)), Ok(255));
/// assert_eq!(u32::try_from(Value::Null).unwrap_err().to_string(), "a uint is wanted and a null found");
/// ```
#[derive(Clone, Copy, Debug, PartialEq)]
pub enum Value<'a> {
    /// A descriptor and a value follow.
    Described,
    /// Nothing.
    Null,
    /// 8 bits, unsigned.
    Ubyte(u8),
    /// 8 bits, signed.
    Byte(i8),
    /// True or false.
    Boolean(bool),
    /// 16 bits, unsigned.
    Ushort(u16),
    /// 16 bits, signed.
    Short(i16),
    /// 32 bits, unsigned.
    Uint(u32),
    /// 32 bits, signed.
    Int(i32),
    /// 32 bits, binary floating point. All its bits are kept.
    Float(f32),
    /// A Unicode scalar value.
    Char(char),
    /// The 32 bits of a decimal floating point number.
    Decimal32(u32),
    /// 64 bits, unsigned.
    Ulong(u64),
    /// 64 bits, signed.
    Long(i64),
    /// 64 bits, binary floating point. All its bits are kept.
    Double(f64),
    /// Milliseconds since 1970.
    Timestamp(Timestamp),
    /// The 64 bits of a decimal floating point number.
    Decimal64(u64),
    /// The 128 bits of a decimal floating point number, most significant byte first.
    Decimal128([u8; 16]),
    /// A UUID.
    Uuid(Uuid),
    /// Any bytes.
    Binary(&'a [u8]),
    /// UTF-8.
    String(&'a str),
    /// ASCII. A symbol with other characters can be put into a table, and is refused when it is written.
    Symbol(&'a str),
    /// So many children follow.
    List(usize),
    /// So many keys and values follow, both counted: a map of two entries is `Map(4)`.
    Map(usize),
    /// So many elements follow, all of one kind, which may be list, map or array.
    Array {
        /// How many.
        count: usize,
        /// Their kind; none where it is not told.
        ///
        /// Only an empty array that was read may leave it untold. The writer refuses that
        /// ([`NumberOutside`](crate::Reason::NumberOutside)); [`Table`](crate::Table) shows how to put the kind in.
        /// [`Kind::Described`] has the same number as none, and is refused alike; [`Kind::Null`] is refused with
        /// [`ElementUnfit`](crate::Reason::ElementUnfit).
        element: Option<Kind>,
    },
}

impl Value<'_> {
    /// Its kind.
    #[must_use]
    pub const fn kind(&self) -> Kind {
        match self {
            Value::Described => Kind::Described,
            Value::Null => Kind::Null,
            Value::Ubyte(_) => Kind::Ubyte,
            Value::Byte(_) => Kind::Byte,
            Value::Boolean(_) => Kind::Boolean,
            Value::Ushort(_) => Kind::Ushort,
            Value::Short(_) => Kind::Short,
            Value::Uint(_) => Kind::Uint,
            Value::Int(_) => Kind::Int,
            Value::Float(_) => Kind::Float,
            Value::Char(_) => Kind::Char,
            Value::Decimal32(_) => Kind::Decimal32,
            Value::Ulong(_) => Kind::Ulong,
            Value::Long(_) => Kind::Long,
            Value::Double(_) => Kind::Double,
            Value::Timestamp(_) => Kind::Timestamp,
            Value::Decimal64(_) => Kind::Decimal64,
            Value::Decimal128(_) => Kind::Decimal128,
            Value::Uuid(_) => Kind::Uuid,
            Value::Binary(_) => Kind::Binary,
            Value::String(_) => Kind::String,
            Value::Symbol(_) => Kind::Symbol,
            Value::List(_) => Kind::List,
            Value::Map(_) => Kind::Map,
            Value::Array { .. } => Kind::Array,
        }
    }

    /// The number of its row: the value itself, a length or a count; for an array the count and the kind of its elements
    /// ([`Kind::array_number`]).
    #[must_use]
    pub fn number(&self) -> u64 {
        match *self {
            Value::Described => 2,
            Value::Null | Value::Decimal128(_) | Value::Uuid(_) => 0,
            Value::Boolean(is) => u64::from(is),
            Value::Ubyte(n) => u64::from(n),
            Value::Ushort(n) => u64::from(n),
            Value::Uint(n) | Value::Decimal32(n) => u64::from(n),
            Value::Ulong(n) | Value::Decimal64(n) => n,
            // Two's complement at its own width; all bits above are zero.
            Value::Byte(n) => u64::from(n as u8),
            Value::Short(n) => u64::from(n as u16),
            Value::Int(n) => u64::from(n as u32),
            Value::Long(n) | Value::Timestamp(Timestamp(n)) => n as u64,
            Value::Float(x) => u64::from(x.to_bits()),
            Value::Double(x) => x.to_bits(),
            Value::Char(c) => u64::from(c),
            Value::Binary(_) | Value::String(_) | Value::Symbol(_) => self.text().len() as u64,
            Value::List(n) | Value::Map(n) => n as u64,
            Value::Array { count, element } => {
                // A count that is too large for the number stays one that the writer refuses, and leaves the kind as it is.
                let count = u32::try_from(count).unwrap_or(u32::MAX);
                element.map_or(u64::from(count), |kind| kind.array_number(count))
            }
        }
    }

    /// The text of its row, which is empty for most kinds.
    #[must_use]
    pub fn text(&self) -> &[u8] {
        match self {
            Value::Decimal128(bytes) => bytes,
            Value::Uuid(uuid) => uuid.as_bytes(),
            Value::Binary(bytes) => bytes,
            Value::String(text) | Value::Symbol(text) => text.as_bytes(),
            _ => &[],
        }
    }

    /// The number that it holds, if it is a whole number: of the kinds from ubyte to ulong and from byte to long.
    ///
    /// ```
    /// use afsungar::Value;
    ///
    /// assert_eq!(Value::Ubyte(7).whole(), Some(7));
    /// assert_eq!(Value::Long(-7).whole(), Some(-7));
    /// assert_eq!(Value::Double(7.0).whole(), None);
    /// ```
    #[must_use]
    pub const fn whole(&self) -> Option<i128> {
        Some(match *self {
            Value::Ubyte(n) => n as i128,
            Value::Ushort(n) => n as i128,
            Value::Uint(n) => n as i128,
            Value::Ulong(n) => n as i128,
            Value::Byte(n) => n as i128,
            Value::Short(n) => n as i128,
            Value::Int(n) => n as i128,
            Value::Long(n) => n as i128,
            _ => return None,
        })
    }

    /// How many children follow.
    #[must_use]
    pub fn count(&self) -> usize {
        match *self {
            Value::Described => 2,
            Value::List(count) | Value::Map(count) | Value::Array { count, .. } => count,
            _ => 0,
        }
    }
}

/// A type whose values are AMQP values: what a [`Builder`](crate::Builder) takes.
///
/// Rust's own numbers, `bool`, `char`, `str`, `String`, byte slices, `()` and [`Option`] are such types, [`Value`] itself is,
/// and references to all of them are. A type of one's own can be one: see [`Element`]. An array of bytes is none, because 16
/// of them may be meant as a binary, a [`Uuid`] or a decimal128; a slice of bytes is a binary.
///
/// ```
/// use afsungar::{Table, ToValue, Value};
///
/// struct Size {
///     name: String,
/// }
///
/// impl ToValue for Size {
///     fn to_value(&self) -> Value<'_> {
///         Value::Symbol(&self.name)
///     }
/// }
///
/// let sizes = [Size { name: "M4".to_owned() }];
/// let table = Table::build(|t| t.list_of(&sizes));
/// assert_eq!(table.root().and_then(|list| list.children().next()).unwrap().value(), Ok(Value::Symbol("M4")));
/// ```
pub trait ToValue {
    /// The value, with what it borrows.
    fn to_value(&self) -> Value<'_>;
}

/// A type whose values all have one kind, which arrays can hold: what [`Builder::array_of`](crate::Builder::array_of) takes.
///
/// The type tells the kind, so it is told also where there are no values. [`Value`] itself is no such type, nor is
/// [`Option`], whose none is null. Where no type tells the kind, [`Builder::array`](crate::Builder::array) takes it by name.
///
/// A type of one's own can be one. Nothing is checked here: the writer refuses a value that has another kind.
///
/// ```
/// # fn main() -> Result<(), afsungar::Refusal> {
/// use afsungar::{Element, Kind, Table, ToValue, Value};
///
/// struct Name(&'static str);
///
/// impl ToValue for Name {
///     fn to_value(&self) -> Value<'_> {
///         Value::Symbol(self.0)
///     }
/// }
///
/// impl Element for Name {
///     const KIND: Kind = Kind::Symbol;
/// }
///
/// let names = Table::build(|t| t.array_of([Name("left"), Name("right")]));
/// let none = Table::build(|t| t.array_of::<Name>([]));
/// assert_eq!(names.to_bytes()?.len(), 21);
/// assert_eq!(none.to_bytes()?, [0xe0, 0x02, 0x00, 0xb3]);
/// # Ok(())
/// # }
/// ```
pub trait Element: ToValue {
    /// The kind that its values have.
    const KIND: Kind;
}

impl<T: ToValue + ?Sized> ToValue for &T {
    fn to_value(&self) -> Value<'_> {
        (**self).to_value()
    }
}

impl<T: Element + ?Sized> Element for &T {
    const KIND: Kind = T::KIND;
}

impl ToValue for Value<'_> {
    fn to_value(&self) -> Value<'_> {
        *self
    }
}

/// Whatever a reference refers to: `&str`, `&String` and `&[u8]` among others.
impl<'a, T: ToValue + ?Sized> From<&'a T> for Value<'a> {
    fn from(value: &'a T) -> Self {
        value.to_value()
    }
}

/// Null.
impl ToValue for () {
    fn to_value(&self) -> Value<'_> {
        Value::Null
    }
}

/// Null.
impl From<()> for Value<'_> {
    fn from((): ()) -> Self {
        Value::Null
    }
}

/// Null for none.
impl<T: ToValue> ToValue for Option<T> {
    fn to_value(&self) -> Value<'_> {
        self.as_ref().map_or(Value::Null, T::to_value)
    }
}

/// Null for none.
impl<'a, V: Into<Value<'a>>> From<Option<V>> for Value<'a> {
    fn from(value: Option<V>) -> Self {
        value.map_or(Value::Null, Into::into)
    }
}

/// The value of a kind, or what was found in its place.
macro_rules! of_kind {
    ($value:expr, $kind:ident) => {
        match $value {
            Value::$kind(value) => Ok(value),
            other => Err(Mismatch { wanted: Kind::$kind, found: other.kind() }),
        }
    };
}

/// Types that are a value by themselves.
macro_rules! convert {
    ($($type:ty, $kind:ident;)*) => { $(
        impl ToValue for $type {
            fn to_value(&self) -> Value<'_> {
                Value::$kind(*self)
            }
        }

        impl Element for $type {
            const KIND: Kind = Kind::$kind;
        }

        impl From<$type> for Value<'_> {
            fn from(value: $type) -> Self {
                Value::$kind(value)
            }
        }

        impl TryFrom<Value<'_>> for $type {
            type Error = Mismatch;

            fn try_from(value: Value<'_>) -> Result<Self, Mismatch> {
                of_kind!(value, $kind)
            }
        }
    )* };
}

convert! {
    bool, Boolean;
    u8, Ubyte;
    u16, Ushort;
    u32, Uint;
    u64, Ulong;
    i8, Byte;
    i16, Short;
    i32, Int;
    i64, Long;
    f32, Float;
    f64, Double;
    char, Char;
    Timestamp, Timestamp;
    Uuid, Uuid;
}

/// Types that lend a text to the value.
macro_rules! lend {
    ($($(#[$attribute:meta])* $type:ty, $kind:ident;)*) => { $(
        $(#[$attribute])*
        impl ToValue for $type {
            fn to_value(&self) -> Value<'_> {
                Value::$kind(self)
            }
        }

        $(#[$attribute])*
        impl Element for $type {
            const KIND: Kind = Kind::$kind;
        }
    )* };
}

lend! {
    /// A string. A symbol is made by name, [`Value::Symbol`].
    str, String;
    /// A binary.
    [u8], Binary;
    /// A string.
    #[cfg(feature = "alloc")]
    String, String;
    /// A string.
    #[cfg(feature = "alloc")]
    Cow<'_, str>, String;
    /// A binary.
    #[cfg(feature = "alloc")]
    Vec<u8>, Binary;
}

/// The text of a string or of a symbol.
impl<'a> TryFrom<Value<'a>> for &'a str {
    type Error = Mismatch;

    fn try_from(value: Value<'a>) -> Result<Self, Mismatch> {
        match value {
            Value::Symbol(text) => Ok(text),
            other => of_kind!(other, String),
        }
    }
}

/// The text of a string or of a symbol.
#[cfg(feature = "alloc")]
impl TryFrom<Value<'_>> for String {
    type Error = Mismatch;

    fn try_from(value: Value<'_>) -> Result<Self, Mismatch> {
        <&str>::try_from(value).map(ToOwned::to_owned)
    }
}

/// The bytes of a binary.
impl<'a> TryFrom<Value<'a>> for &'a [u8] {
    type Error = Mismatch;

    fn try_from(value: Value<'a>) -> Result<Self, Mismatch> {
        of_kind!(value, Binary)
    }
}

/// The bytes of a binary.
#[cfg(feature = "alloc")]
impl TryFrom<Value<'_>> for Vec<u8> {
    type Error = Mismatch;

    fn try_from(value: Value<'_>) -> Result<Self, Mismatch> {
        <&[u8]>::try_from(value).map(ToOwned::to_owned)
    }
}

/// The bytes of a decimal128, most significant first. A UUID is turned into a [`Uuid`].
impl TryFrom<Value<'_>> for [u8; 16] {
    type Error = Mismatch;

    fn try_from(value: Value<'_>) -> Result<Self, Mismatch> {
        of_kind!(value, Decimal128)
    }
}

/// A value has another kind than the type that it was to be turned into.
#[derive(Clone, Copy, Debug, PartialEq, Eq, Hash)]
pub struct Mismatch {
    /// The kind that the type stands for.
    pub wanted: Kind,
    /// The kind of the value.
    pub found: Kind,
}

impl fmt::Display for Mismatch {
    fn fmt(&self, f: &mut fmt::Formatter<'_>) -> fmt::Result {
        write!(f, "{} is wanted and {} found", self.wanted.with_article(), self.found.with_article())
    }
}

impl Error for Mismatch {}
