use core::fmt;

macro_rules! kinds {
    ($($(#[$doc:meta])* $kind:ident = $code:literal, $name:literal;)*) => {
        /// The 25 kinds of a row. The number of each is the format code of the type's full-width form.
        ///
        /// ```
        /// use afsungar::Kind;
        ///
        /// assert_eq!(Kind::Symbol.code(), 0xb3);
        /// assert_eq!(Kind::from_code(0xb3), Some(Kind::Symbol));
        /// assert_eq!(Kind::Symbol.to_string(), "symbol");
        /// assert_eq!(Kind::ALL.len(), 25);
        /// assert_eq!(Kind::ALL.iter().filter(|kind| kind.is_element()).count(), 23);
        /// ```
        #[derive(Clone, Copy, Debug, PartialEq, Eq, PartialOrd, Ord, Hash)]
        #[repr(u8)]
        pub enum Kind { $($(#[$doc])* $kind = $code,)* }

        impl Kind {
            /// All 25, by code.
            pub const ALL: [Kind; 25] = [$(Kind::$kind),*];

            /// The kind of a code, if it is one of the 25.
            #[must_use]
            pub const fn from_code(code: u64) -> Option<Kind> {
                match code {
                    $($code => Some(Kind::$kind),)*
                    _ => None,
                }
            }

            /// Its name in AMQP 1.0.
            #[must_use]
            pub const fn name(self) -> &'static str {
                match self { $(Kind::$kind => $name,)* }
            }
        }
    };
}

kinds! {
    /// Two children: a descriptor, then a value.
    Described = 0x00, "described";
    /// Nothing.
    Null = 0x40, "null";
    /// 8 bits, unsigned.
    Ubyte = 0x50, "ubyte";
    /// 8 bits, signed.
    Byte = 0x51, "byte";
    /// True or false.
    Boolean = 0x56, "boolean";
    /// 16 bits, unsigned.
    Ushort = 0x60, "ushort";
    /// 16 bits, signed.
    Short = 0x61, "short";
    /// 32 bits, unsigned.
    Uint = 0x70, "uint";
    /// 32 bits, signed.
    Int = 0x71, "int";
    /// 32 bits, IEEE 754 binary.
    Float = 0x72, "float";
    /// A Unicode scalar value.
    Char = 0x73, "char";
    /// 32 bits, IEEE 754 decimal.
    Decimal32 = 0x74, "decimal32";
    /// 64 bits, unsigned.
    Ulong = 0x80, "ulong";
    /// 64 bits, signed.
    Long = 0x81, "long";
    /// 64 bits, IEEE 754 binary.
    Double = 0x82, "double";
    /// Milliseconds since 1970, signed.
    Timestamp = 0x83, "timestamp";
    /// 64 bits, IEEE 754 decimal.
    Decimal64 = 0x84, "decimal64";
    /// 128 bits, IEEE 754 decimal: 16 bytes of text.
    Decimal128 = 0x94, "decimal128";
    /// 16 bytes of text.
    Uuid = 0x98, "uuid";
    /// Any bytes.
    Binary = 0xb0, "binary";
    /// UTF-8.
    String = 0xb1, "string";
    /// ASCII.
    Symbol = 0xb3, "symbol";
    /// Any number of children.
    List = 0xd0, "list";
    /// An even number of children: key, value, key, value, and so on.
    Map = 0xd1, "map";
    /// Any number of children, all of one kind, which is neither null nor described.
    Array = 0xf0, "array";
}

impl Kind {
    /// Its code, which is the first word of a row.
    #[must_use]
    pub const fn code(self) -> u64 {
        self as u64
    }

    /// One value of it in words: an array, a uint, a described value.
    pub(crate) fn with_article(self) -> impl fmt::Display {
        struct WithArticle(Kind);
        impl fmt::Display for WithArticle {
            fn fmt(&self, f: &mut fmt::Formatter<'_>) -> fmt::Result {
                match self.0 {
                    Kind::Array | Kind::Int => write!(f, "an {}", self.0),
                    Kind::Described => write!(f, "a {} value", self.0),
                    kind => write!(f, "a {kind}"),
                }
            }
        }
        WithArticle(self)
    }

    /// Whether rows of this kind have children: described, list, map and array.
    #[must_use]
    pub const fn has_children(self) -> bool {
        matches!(self, Kind::Described | Kind::List | Kind::Map | Kind::Array)
    }

    /// Whether it may be an array's element: any kind but null and described.
    #[must_use]
    pub const fn is_element(self) -> bool {
        !matches!(self, Kind::Null | Kind::Described)
    }

    /// The number of the row of an array that has so many elements of this kind: the second word of that row.
    ///
    /// The kind stands above the count, in the upper 32 bits. Described has the code 0, which means there that no kind is
    /// told.
    ///
    /// ```
    /// # fn main() -> Result<(), afsungar::Refusal> {
    /// use afsungar::Kind;
    ///
    /// assert_eq!(Kind::Uint.array_number(0), 0x70_0000_0000);
    /// let words = [0xf0, Kind::Uint.array_number(2), 0x70, 0, 0x70, 1]; // an array of uint 0 and uint 1
    /// assert_eq!(afsungar::write_to_vec(&words, &[])?, [0xe0, 0x0a, 0x02, 0x70, 0, 0, 0, 0, 0, 0, 0, 1]);
    /// # Ok(())
    /// # }
    /// ```
    #[must_use]
    pub const fn array_number(self, count: u32) -> u64 {
        self.code() << COUNT_BITS | count as u64
    }
}

/// The width of the count in the number of an array's row. Above it is the kind of the elements, or 0 if it is not told.
const COUNT_BITS: u32 = u32::BITS;

/// The code in the number of an array's row: of the kind of its elements, or 0.
pub(crate) const fn element_code(number: u64) -> u64 {
    number >> COUNT_BITS
}

/// How many children a row says it has.
pub(crate) const fn children(kind: u64, number: u64) -> u64 {
    match Kind::from_code(kind) {
        Some(Kind::Array) => number & u32::MAX as u64,
        Some(kind) if kind.has_children() => number,
        _ => 0,
    }
}

/// How many bytes of text a row says it has.
pub(crate) const fn text_length(kind: u64, number: u64) -> u64 {
    match Kind::from_code(kind) {
        Some(Kind::Decimal128 | Kind::Uuid) => 16,
        Some(Kind::Binary | Kind::String | Kind::Symbol) => number,
        _ => 0,
    }
}

impl fmt::Display for Kind {
    fn fmt(&self, f: &mut fmt::Formatter<'_>) -> fmt::Result {
        f.pad(self.name())
    }
}

impl From<Kind> for u64 {
    fn from(kind: Kind) -> u64 {
        kind.code()
    }
}
