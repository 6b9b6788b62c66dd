//! The judge's own writer. It shares nothing with ours and gives a table's bytes in one of two ways: in the forms that docs/FORMAT.md, 3, has us write,
//! or in forms chosen at random of all that 4 has us read.

use crate::{
    random::Random,
    table::{Kind, Row, Rows, Table},
};

/// Which of the codes that fit is taken.
pub trait Choice {
    /// The longest text that may have a length of one byte.
    const SHORT_TEXT: u64;
    /// Of the codes of a value, which go from the shortest form to the widest.
    fn value(&mut self, codes: &[u8]) -> u8;
    /// Of the codes of an array's elements, in the same order.
    fn element(&mut self, codes: &[u8]) -> u8;
}

/// As we have to write: values as short as can be, elements as wide as can be.
pub struct AsWritten;

impl Choice for AsWritten {
    const SHORT_TEXT: u64 = 254;

    fn value(&mut self, codes: &[u8]) -> u8 {
        codes[0]
    }

    fn element(&mut self, codes: &[u8]) -> u8 {
        codes[codes.len() - 1]
    }
}

/// Any form that we have to read.
pub struct AnyForm(pub Random);

impl Choice for AnyForm {
    const SHORT_TEXT: u64 = 255;

    fn value(&mut self, codes: &[u8]) -> u8 {
        self.0.of(codes)
    }

    fn element(&mut self, codes: &[u8]) -> u8 {
        self.0.of(codes)
    }
}

impl AnyForm {
    /// Has some of a table's empty arrays tell no kind: we read such tables too.
    pub fn untell(&mut self, table: &mut Table) {
        table.untell(|| self.0.once_in(3));
    }
}

/// Appends the bytes of a table that we accept or read.
pub fn write(table: &Table, choice: &mut impl Choice, out: &mut Vec<u8>) {
    value(&mut Rows::of(table), choice, out);
}

fn value<C: Choice>(rows: &mut Rows, choice: &mut C, out: &mut Vec<u8>) {
    let row = rows.next().expect("the table holds a whole value");
    let body = body(&row, rows, choice);
    let code = choice.value(&codes::<C>(&row, body.len()));
    out.push(code);
    payload(code, &row, &body, out);
}

/// The bytes of a row's children, if it has any, and of an array its element code.
fn body(row: &Row, rows: &mut Rows, choice: &mut impl Choice) -> Vec<u8> {
    let mut body = Vec::new();
    match row.kind {
        Kind::Array => elements(row, rows, choice, &mut body),
        _ => (0..row.children()).for_each(|_| value(rows, choice, &mut body)),
    }
    body
}

/// One code, of the kind that the array tells, which fits all elements and has a payload; and then the payloads. Nothing where an empty array tells no kind.
fn elements<C: Choice>(array: &Row, rows: &mut Rows, choice: &mut C, out: &mut Vec<u8>) {
    let Some(kind) = array.element() else { return };
    let items: Vec<_> = (0..array.children())
        .map(|_| {
            let row = rows.next().expect("the array is whole");
            let body = body(&row, rows, choice);
            (row, body)
        })
        .collect();
    let mut fit = element_codes(kind);
    for (row, body) in &items {
        let own = codes::<C>(row, body.len());
        fit.retain(|code| own.contains(code));
    }
    let code = choice.element(&fit);
    out.push(code);
    items.iter().for_each(|(row, body)| payload(code, row, body, out));
}

/// The codes of a kind that have a payload, the short one first where there is one.
fn element_codes(kind: Kind) -> Vec<u8> {
    let short = match kind {
        Kind::Uint => Some(0x52),
        Kind::Ulong => Some(0x53),
        Kind::Int => Some(0x54),
        Kind::Long => Some(0x55),
        Kind::Binary => Some(0xa0),
        Kind::String => Some(0xa1),
        Kind::Symbol => Some(0xa3),
        Kind::List => Some(0xc0),
        Kind::Map => Some(0xc1),
        Kind::Array => Some(0xe0),
        _ => None,
    };
    short.into_iter().chain([kind as u8]).collect()
}

/// The codes that a row can be written with, from the shortest form to the widest.
fn codes<C: Choice>(row: &Row, body: usize) -> Vec<u8> {
    let (kind, number) = (row.kind as u8, row.number);
    let signed = |bits: u32| number < 128 || number >= (u64::MAX >> (64 - bits)) - 127;
    let short: &[(u8, bool)] = match row.kind {
        Kind::Boolean => &[(if number == 0 { 0x42 } else { 0x41 }, true)],
        Kind::Uint => &[(0x43, number == 0), (0x52, number < 256)],
        Kind::Ulong => &[(0x44, number == 0), (0x53, number < 256)],
        Kind::Int => &[(0x54, signed(32))],
        Kind::Long => &[(0x55, signed(64))],
        Kind::Binary => &[(0xa0, number <= C::SHORT_TEXT)],
        Kind::String => &[(0xa1, number <= C::SHORT_TEXT)],
        Kind::Symbol => &[(0xa3, number <= C::SHORT_TEXT)],
        Kind::List => &[(0x45, number == 0), (0xc0, body < 255)],
        Kind::Map => &[(0xc1, body < 255)],
        Kind::Array => &[(0xe0, body < 255)],
        _ => &[],
    };
    short.iter().filter(|(_, fits)| *fits).map(|(code, _)| *code).chain([kind]).collect()
}

/// What stands behind a code.
fn payload(code: u8, row: &Row, body: &[u8], out: &mut Vec<u8>) {
    let mut number = |width: usize, number: u64| out.extend_from_slice(&number.to_be_bytes()[8 - width..]);
    match code >> 4 {
        0x5 => number(1, row.number & 0xff),
        0x6 => number(2, row.number),
        0x7 => number(4, row.number),
        0x8 => number(8, row.number),
        0xa => number(1, row.number),
        0xb => number(4, row.number),
        0xc | 0xe => [body.len() as u64 + 1, row.children()].into_iter().for_each(|n| number(1, n)),
        0xd | 0xf => [body.len() as u64 + 4, row.children()].into_iter().for_each(|n| number(4, n)),
        _ => {}
    }
    out.extend_from_slice(row.text);
    out.extend_from_slice(body);
}
