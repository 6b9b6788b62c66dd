//! Goes through the parts of a value, and tells of each where it stands.

use std::io;

use afsungar::{Kind, Row, Table};

use crate::extents::{Part, Parts};

/// What a part is to its parent.
#[derive(Clone, Copy, Debug, PartialEq, Eq)]
pub enum Place {
    /// A value of the file.
    Top,
    /// In a list or an array.
    Child,
    Descriptor,
    Described,
    Key,
    /// The value of a key.
    Entry,
}

impl Place {
    /// That of the child of such a parent before which so many stand.
    pub fn below(kind: Kind, passed: usize) -> Place {
        match (kind, passed % 2) {
            (Kind::Described, 0) => Place::Descriptor,
            (Kind::Described, _) => Place::Described,
            (Kind::Map, 0) => Place::Key,
            (Kind::Map, _) => Place::Entry,
            _ => Place::Child,
        }
    }
}

/// Where a part stands.
#[derive(Clone, Copy, Debug)]
pub struct Spot {
    pub place: Place,
    /// Whether it is the first child.
    pub first: bool,
    /// How many values it stands in.
    pub depth: usize,
    /// How many bytes of the file stand before the value whose parts are gone through.
    pub base: usize,
}

impl Spot {
    /// That of a value of the file.
    pub fn top(base: usize) -> Spot {
        Spot { place: Place::Top, first: true, depth: 0, base }
    }
}

/// Prints values, part by part.
pub trait Print {
    /// A part begins.
    fn enter(&mut self, spot: Spot, row: &Row<'_>, part: &Part) -> io::Result<()>;
    /// It ends, with all that is below it.
    fn leave(&mut self, spot: Spot, kind: Kind) -> io::Result<()>;
}

struct Open {
    spot: Spot,
    kind: Kind,
    count: usize,
    passed: usize,
}

impl Open {
    fn next(&mut self) -> Spot {
        let place = Place::below(self.kind, self.passed);
        self.passed += 1;
        Spot { place, first: self.passed == 1, depth: self.spot.depth + 1, base: self.spot.base }
    }
}

/// Prints the value at the front of the bytes, which stands at `spot` and was read to this table.
pub fn walk(print: &mut impl Print, spot: Spot, table: &Table, bytes: &[u8]) -> io::Result<()> {
    let mut open: Vec<Open> = Vec::new();
    for (row, part) in table.rows().zip(Parts::of(bytes)) {
        let spot = open.last_mut().map_or(spot, Open::next);
        print.enter(spot, &row, &part)?;
        if row.count() > 0 {
            open.push(Open { spot, kind: part.kind, count: row.count(), passed: 0 });
            continue;
        }
        print.leave(spot, part.kind)?;
        while open.last().is_some_and(|last| last.passed == last.count) {
            if let Some(ended) = open.pop() {
                print.leave(ended.spot, ended.kind)?;
            }
        }
    }
    Ok(())
}
