//! Value tables (docs/FORMAT.md, 2): rows of kind and number, and the text beside them.

use std::fmt;

/// The 25 kinds, each the format code of its full-width form.
#[derive(Clone, Copy, Debug, PartialEq, Eq)]
#[repr(u8)]
pub enum Kind {
    Described = 0x00,
    Null = 0x40,
    Ubyte = 0x50,
    Byte = 0x51,
    Boolean = 0x56,
    Ushort = 0x60,
    Short = 0x61,
    Uint = 0x70,
    Int = 0x71,
    Float = 0x72,
    Char = 0x73,
    Decimal32 = 0x74,
    Ulong = 0x80,
    Long = 0x81,
    Double = 0x82,
    Timestamp = 0x83,
    Decimal64 = 0x84,
    Decimal128 = 0x94,
    Uuid = 0x98,
    Binary = 0xb0,
    String = 0xb1,
    Symbol = 0xb3,
    List = 0xd0,
    Map = 0xd1,
    Array = 0xf0,
}

use Kind::*;

impl Kind {
    pub const ALL: [Kind; 25] = [
        Described, Null, Ubyte, Byte, Boolean, Ushort, Short, Uint, Int, Float, Char, Decimal32, Ulong, Long, Double, Timestamp,
        Decimal64, Decimal128, Uuid, Binary, String, Symbol, List, Map, Array,
    ];

    /// The 20 kinds of elements without children.
    pub const SCALARS: [Kind; 20] = [
        Ubyte, Byte, Boolean, Ushort, Short, Uint, Int, Float, Char, Decimal32, Ulong, Long, Double, Timestamp, Decimal64,
        Decimal128, Uuid, Binary, String, Symbol,
    ];

    pub fn of(word: u64) -> Option<Kind> {
        KINDS.get(word as usize).copied().flatten()
    }

    /// The three kinds of elements with children.
    pub const COMPOUNDS: [Kind; 3] = [List, Map, Array];

    /// All 23 kinds of elements.
    pub const ELEMENTS: [Kind; 23] = [
        Ubyte, Byte, Boolean, Ushort, Short, Uint, Int, Float, Char, Decimal32, Ulong, Long, Double, Timestamp, Decimal64,
        Decimal128, Uuid, Binary, String, Symbol, List, Map, Array,
    ];

    pub fn is_element(self) -> bool {
        !matches!(self, Described | Null)
    }

    /// The bits of the kind's number, where it is a number at all.
    pub fn bits(self) -> Option<u32> {
        match self {
            Boolean => Some(1),
            Ubyte | Byte => Some(8),
            Ushort | Short => Some(16),
            Uint | Int | Float | Char | Decimal32 => Some(32),
            Ulong | Long | Double | Timestamp | Decimal64 => Some(64),
            _ => None,
        }
    }

    pub fn has_children(self) -> bool {
        matches!(self, Described | List | Map | Array)
    }

    /// The children of a row.
    #[inline]
    pub fn children(self, number: u64) -> u64 {
        match self {
            Described | List | Map => number,
            Array => count_in(number),
            _ => 0,
        }
    }

    /// The bytes of text of a row.
    pub fn text(self, number: u64) -> usize {
        match self {
            Decimal128 | Uuid => 16,
            Binary | String | Symbol => number as usize,
            _ => 0,
        }
    }
}

/// The number of an array's row is its count, and the kind of its elements times this (2.6).
const KIND_UNIT: u64 = 1 << 32;

pub const fn array_number(kind: Kind, count: u64) -> u64 {
    count + KIND_UNIT * kind as u64
}

/// The row of an array of so many elements of a kind.
pub const fn array(kind: Kind, count: u64) -> (Kind, u64) {
    (Array, array_number(kind, count))
}

/// The count in the number of an array's row.
#[inline]
pub fn count_in(number: u64) -> u64 {
    number % KIND_UNIT
}

/// The kind that it tells: any word of 32 bits, and 0 where none is told.
pub fn kind_in(number: u64) -> u64 {
    number / KIND_UNIT
}

#[derive(Clone, Debug, Default, PartialEq, Eq)]
pub struct Table {
    pub words: Vec<u64>,
    pub text: Vec<u8>,
}

impl Table {
    pub fn clear(&mut self) {
        self.words.clear();
        self.text.clear();
    }

    pub fn row(&mut self, kind: Kind, number: u64) -> &mut Self {
        self.words.extend([kind as u64, number]);
        self
    }

    /// The row of an array of so many elements of a kind.
    pub fn array(&mut self, kind: Kind, count: u64) -> &mut Self {
        self.row(Array, array_number(kind, count))
    }

    /// The row of a list or map, or of an array of such elements.
    pub fn compound(&mut self, kind: Kind, count: u64, element: Kind) -> &mut Self {
        match kind {
            Array => self.array(element, count),
            _ => self.row(kind, count),
        }
    }

    /// A row of binary, string or symbol.
    pub fn worded(&mut self, kind: Kind, text: &[u8]) -> &mut Self {
        self.text.extend_from_slice(text);
        self.row(kind, text.len() as u64)
    }

    /// A row of decimal128 or uuid.
    pub fn sixteen(&mut self, kind: Kind, text: &[u8; 16]) -> &mut Self {
        self.text.extend_from_slice(text);
        self.row(kind, 0)
    }

    pub fn rows(&self) -> usize {
        self.words.len() / 2
    }

    /// What each array tells: the kind of its elements, and how many there are.
    pub fn arrays(&self) -> impl Iterator<Item = (u64, u64)> + '_ {
        let rows = self.words.chunks_exact(2).filter(|row| row[0] == Array as u64);
        rows.map(|row| (kind_in(row[1]), count_in(row[1])))
    }

    /// Whether an array holds lists, maps or arrays.
    pub fn is_nested(&self) -> bool {
        self.arrays().any(|(kind, count)| count > 0 && Kind::COMPOUNDS.iter().any(|&compound| compound as u64 == kind))
    }

    pub fn has_empty_array(&self) -> bool {
        self.arrays().any(|(_, count)| count == 0)
    }

    /// The first row that is an empty array and tells no kind.
    pub fn untold(&self) -> Option<usize> {
        self.words.chunks_exact(2).position(|row| *row == UNTOLD)
    }

    /// Has those of the empty arrays that are chosen tell no kind.
    pub fn untell(&mut self, mut is_chosen: impl FnMut() -> bool) {
        for row in self.words.chunks_exact_mut(2) {
            if row[0] == Array as u64 && count_in(row[1]) == 0 && is_chosen() {
                row.copy_from_slice(&UNTOLD);
            }
        }
    }
}

/// The row of an empty array that tells no kind: the reader gives it where there is no element code, and the writer refuses it.
const UNTOLD: [u64; 2] = [Array as u64, 0];

/// As in docs/FORMAT.md: `d1:2 b3:1 70:2, text 76`. A lone last word is shown as `+40`.
impl fmt::Display for Table {
    fn fmt(&self, f: &mut fmt::Formatter<'_>) -> fmt::Result {
        const MOST: usize = 24;
        let row = |row: &[u64]| match row {
            [kind, number] => shown(*kind, *number),
            lone => format!("+{:02x}", lone[0]),
        };
        let rows: Vec<_> = self.words.chunks(2).take(MOST).map(row).collect();
        write!(f, "{}", rows.join(" "))?;
        if self.rows() > MOST {
            write!(f, " .. ({} rows)", self.rows())?;
        }
        if !self.text.is_empty() {
            write!(f, ", text {}", hex(&self.text))?;
        }
        Ok(())
    }
}

/// A row as the documents show it: `kind:number`, and `[kind:count]` for an array that tells its elements' kind.
pub fn shown(kind: u64, number: u64) -> std::string::String {
    match kind_in(number) {
        told if kind == Array as u64 && told > 0 => format!("[{told:02x}:{}]", count_in(number)),
        _ => format!("{kind:02x}:{number}"),
    }
}

/// Bytes in hex, two digits a byte; long runs are cut.
pub fn hex(bytes: &[u8]) -> std::string::String {
    const MOST: usize = 32;
    let shown: Vec<_> = bytes.iter().take(MOST).map(|byte| format!("{byte:02x}")).collect();
    match bytes.len() {
        0 => "none".into(),
        length if length > MOST => format!("{} .. ({length} bytes)", shown.join(" ")),
        _ => shown.join(" "),
    }
}

#[derive(Clone, Copy, Debug)]
pub struct Row<'a> {
    pub kind: Kind,
    pub number: u64,
    pub text: &'a [u8],
}

impl Row<'_> {
    pub fn children(&self) -> u64 {
        self.kind.children(self.number)
    }

    /// The kind of an array's elements, where its number tells one that arrays can hold.
    pub fn element(&self) -> Option<Kind> {
        Kind::of(kind_in(self.number)).filter(|kind| kind.is_element())
    }
}

/// The rows of a table in order, each with its text. Only for tables whose kinds are known and whose text is long enough.
#[derive(Clone, Copy)]
pub struct Rows<'a> {
    words: &'a [u64],
    text: &'a [u8],
}

impl<'a> Rows<'a> {
    pub fn of(table: &'a Table) -> Self {
        Rows { words: &table.words, text: &table.text }
    }
}

impl<'a> Iterator for Rows<'a> {
    type Item = Row<'a>;

    #[inline]
    fn next(&mut self) -> Option<Row<'a>> {
        let [kind, number, words @ ..] = self.words else { return None };
        let kind = KINDS[*kind as usize & 0xff]?;
        let (own, text) = self.text.split_at(kind.text(*number));
        *self = Rows { words, text };
        Some(Row { kind, number: *number, text: own })
    }
}

/// The kind of each byte that is one.
static KINDS: [Option<Kind>; 256] = {
    let mut kinds = [None; 256];
    let mut i = 0;
    while i < Kind::ALL.len() {
        kinds[Kind::ALL[i] as usize] = Some(Kind::ALL[i]);
        i += 1;
    }
    kinds
};
