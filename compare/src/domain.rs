//! What the writer has to refuse (docs/FORMAT.md, 5.2), and where our bytes and the ported crate's have to be equal (9). Both are judged from words
//! and text alone, without our writer: one that refused everything must not pass.

use crate::{
    limit::Limit,
    ours::Told,
    table::{count_in, kind_in, Kind, Row, Table},
    texts::{self, Bad},
};

pub const MOST: u64 = 1_048_576;

/// What the checks of a table come to.
pub struct Checked {
    /// What sizing has to refuse, but for 7, which goes by the bytes. Nothing where it has to accept.
    pub refusal: Option<Told>,
    /// The deepest level at which a row was looked for.
    pub deepest: u32,
    /// The text that is refused, where one is bad.
    pub bad: Option<Bad>,
}

pub fn check(limit: Limit, table: &Table) -> Checked {
    walk(limit, table, &mut |_, _| {})
}

/// Whether a table is one that the writer has to accept within the highest limit, but for the bytes that it takes in all.
pub fn is_table(table: &Table) -> bool {
    check(Limit::HIGHEST, table).refusal.is_none()
}

/// Whether a table is, beside that, one for which the crate's bytes have to be ours.
pub fn is_equal(table: &Table) -> bool {
    !table.has_empty_array() && is_equal_but_empty(table)
}

/// The same but for empty arrays, which the crate has no element code for.
pub fn is_equal_but_empty(table: &Table) -> bool {
    let mut equal = true;
    let checked = walk(Limit::HIGHEST, table, &mut |row, spot| {
        equal &= match spot {
            Spot::Element(_) => !Kind::COMPOUNDS.contains(&row.kind) && (row.kind != Kind::String || row.text.is_ascii()),
            Spot::Key => !matches!(row.kind, Kind::Timestamp | Kind::Array),
            Spot::Descriptor => matches!(row.kind, Kind::Symbol | Kind::Ulong),
            Spot::Any => true,
        }
    });
    checked.refusal.is_none() && equal
}

/// Where a value stands. A described value's own value stands where the described value does.
#[derive(Clone, Copy, PartialEq)]
enum Spot {
    Any,
    Key,
    Descriptor,
    /// With the kind that the array tells.
    Element(Kind),
}

/// Goes over a whole table, and shows each row that is good to `see`.
fn walk(limit: Limit, table: &Table, see: &mut impl FnMut(&Row, Spot)) -> Checked {
    let mut left = Left { table, row: 0, text: 0, deepest: 0, arrays: 0, bad: None };
    let refusal = left.whole(limit, see).err();
    Checked { refusal, deepest: left.deepest, bad: left.bad }
}

/// The rows and the text that are still to be taken.
struct Left<'a> {
    table: &'a Table,
    row: usize,
    text: usize,
    deepest: u32,
    /// The arrays around the next row.
    arrays: u32,
    bad: Option<Bad>,
}

impl<'a> Left<'a> {
    /// Takes everything away, if all is well with it.
    fn whole(&mut self, limit: Limit, see: &mut impl FnMut(&Row, Spot)) -> Result<(), Told> {
        let (table, levels) = (self.table, limit.levels()?);
        let need = |holds: bool, number: u64, place: usize| if holds { Ok(()) } else { Err(Told::refusal(number, place as u64)) };
        need(table.words.len() % 2 == 0, 1, 0)?;
        self.value(1, levels, Spot::Any, see)?;
        need(self.row == table.rows(), 1, self.row)?;
        need(self.text == table.text.len(), 6, table.rows())
    }

    /// Takes a value's rows away, if all is well with it.
    fn value(&mut self, level: u32, levels: u32, spot: Spot, see: &mut impl FnMut(&Row, Spot)) -> Result<(), Told> {
        self.deepest = self.deepest.max(level);
        let row = self.take(level <= levels, spot)?;
        see(&row, spot);
        let array = (row.kind == Kind::Array) as u32;
        self.arrays += array;
        for i in 0..row.children() {
            let below = match row.kind {
                Kind::Array => Spot::Element(row.element().expect("an array that was taken tells a kind")),
                Kind::Map if i % 2 == 0 => Spot::Key,
                Kind::Described if i == 0 => Spot::Descriptor,
                Kind::Described if spot == Spot::Key => Spot::Key,
                _ => Spot::Any,
            };
            self.value(level + 1, levels, below, see)?;
        }
        self.arrays -= array;
        Ok(())
    }

    /// The next row, with its text, if all is well with it and with its level.
    fn take(&mut self, level_fits: bool, spot: Spot) -> Result<Row<'a>, Told> {
        let table = self.table;
        let need = |holds: bool, number: u64| if holds { Ok(()) } else { Err(Told::refusal(number, self.row as u64)) };
        need(self.row < table.rows(), 1)?;
        let number = table.words[2 * self.row + 1];
        let kind = Kind::of(table.words[2 * self.row]).ok_or(Told::refusal(2, self.row as u64))?;
        need(level_fits, 3)?;
        let alike = match spot {
            Spot::Element(told) => kind == told,
            _ => true,
        };
        need(alike, 4)?;
        need(kind != Kind::Array || kind_in(number) != Kind::Null as u64, 4)?;
        need(number_fits(kind, number), 5)?;
        let length = kind.text(number);
        need(length <= table.text.len() - self.text, 6)?;
        let text = &table.text[self.text..self.text + length];
        if let Some(fault) = texts::fault(kind, text) {
            self.bad = Some(Bad::text(kind, text, fault, self.text, self.arrays));
            return Err(Told::refusal(6, (self.text + fault) as u64));
        }
        self.row += 1;
        self.text += length;
        Ok(Row { kind, number, text })
    }
}

fn number_fits(kind: Kind, number: u64) -> bool {
    match kind {
        Kind::Null | Kind::Decimal128 | Kind::Uuid => number == 0,
        Kind::Char => u32::try_from(number).is_ok_and(|n| char::from_u32(n).is_some()),
        Kind::Described => number == 2,
        Kind::Map => number <= MOST && number % 2 == 0,
        Kind::Array => count_in(number) <= MOST && Kind::of(kind_in(number)).is_some_and(Kind::is_element),
        Kind::Binary | Kind::String | Kind::Symbol | Kind::List => number <= MOST,
        kind => kind.bits().is_some_and(|bits| bits == 64 || number >> bits == 0),
    }
}
