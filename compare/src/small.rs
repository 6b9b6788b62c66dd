//! All tables of a few rows over a small alphabet.

use crate::table::{array_number, count_in, Kind, Table};

/// Rows without children: kind, number, text.
type Leaf = (Kind, u64, &'static [u8]);

/// One of each layout and of each rule for numbers.
pub const ALPHABET: [Leaf; 14] = [
    (Kind::Null, 0, b""),
    (Kind::Boolean, 1, b""),
    (Kind::Ubyte, 7, b""),
    (Kind::Uint, 0, b""),
    (Kind::Uint, 255, b""),
    (Kind::Int, 0xffff_ff7f, b""),
    (Kind::Ulong, 36, b""),
    (Kind::Long, 0xffff_ffff_ffff_ff80, b""),
    (Kind::Timestamp, 0, b""),
    (Kind::Decimal32, 1, b""),
    (Kind::Uuid, 0, b"0123456789abcdef"),
    (Kind::Binary, 1, b"\xff"),
    (Kind::String, 2, "Ø".as_bytes()),
    (Kind::Symbol, 1, b"v"),
];

/// What empty arrays tell: a kind of each layout, null, which arrays cannot hold, and none.
pub const EMPTY: [Kind; 7] = [Kind::Uint, Kind::Uuid, Kind::String, Kind::List, Kind::Array, Kind::Null, Kind::Described];

/// Calls `visit` with every table of 1 to `most` rows whose leaves are of the alphabet and whose empty arrays tell one of the kinds `empty`. An array
/// with elements tells the first one's kind.
pub fn each(most: usize, alphabet: &[Leaf], empty: &[Kind], visit: &mut impl FnMut(&Table)) {
    extend(&mut Table::default(), 1, most, alphabet, empty, visit);
}

/// `due`: the values that still have to begin. `left`: the rows that may still come.
fn extend(table: &mut Table, due: usize, left: usize, alphabet: &[Leaf], empty: &[Kind], visit: &mut impl FnMut(&Table)) {
    if due == 0 {
        return visit(table);
    }
    let length = (table.words.len(), table.text.len());
    let mut with = |kind, number: u64, text: &[u8], children: usize| {
        tell(table, kind);
        table.row(kind, number).text.extend_from_slice(text);
        extend(table, due - 1 + children, left - 1, alphabet, empty, visit);
        table.words.truncate(length.0);
        table.text.truncate(length.1);
    };
    for &(kind, number, text) in alphabet {
        with(kind, number, text, 0);
    }
    for &kind in empty {
        with(Kind::Array, array_number(kind, 0), b"", 0);
    }
    for count in 0..=left - due {
        with(Kind::List, count as u64, b"", count);
        if count > 0 {
            with(Kind::Array, count as u64, b"", count);
        }
        if count % 2 == 0 {
            with(Kind::Map, count as u64, b"", count);
        }
        if count == 2 {
            with(Kind::Described, 2, b"", 2);
        }
    }
}

/// Where the last row is an array with elements, the next is the first of them.
fn tell(table: &mut Table, next: Kind) {
    if let [.., kind, number] = &mut table.words[..] {
        if *kind == Kind::Array as u64 && count_in(*number) > 0 {
            *number = array_number(next, count_in(*number));
        }
    }
}
