//! The judge's own reader, after docs/FORMAT.md, 4 and 5.3. It shares nothing with ours.

use crate::{
    limit::Limit,
    ours::Told,
    table::{Kind, Table},
    texts::{self, Bad},
};

/// What stands behind a code; sizes, counts and numbers have so many bytes.
#[derive(Clone, Copy)]
enum Layout {
    Constant(u64),
    Whole(usize),
    Small,
    Raw,
    Sized(usize),
    Compound(usize),
    Array(usize),
    Described,
}

/// What bytes are read to.
pub struct Found {
    /// The value at their start and its length, or the refusal.
    pub value: Result<(Table, usize), Told>,
    /// The deepest level at which a value was looked for.
    pub deepest: u32,
    /// What is refused with 11.
    pub bad: Option<Bad>,
}

pub fn read(limit: Limit, bytes: &[u8]) -> Found {
    let mut reader = Reader { bytes, levels: 0, deepest: 0, arrays: 0, bad: None, table: Table::default() };
    let length = limit.levels().and_then(|levels| {
        reader.levels = levels;
        reader.value(0, bytes.len(), 1, None)
    });
    Found { value: length.map(|length| (reader.table, length)), deepest: reader.deepest, bad: reader.bad }
}

struct Reader<'a> {
    bytes: &'a [u8],
    /// The level limit.
    levels: u32,
    deepest: u32,
    /// The arrays around what is read.
    arrays: u32,
    bad: Option<Bad>,
    table: Table,
}

/// Each reads at a place of a room, which ends at `end`, and gives the place behind what it read. `outer` is the place of the outermost array around it.
impl<'a> Reader<'a> {
    fn value(&mut self, at: usize, end: usize, level: u32, outer: Option<usize>) -> Result<usize, Told> {
        let place = outer.unwrap_or(at);
        self.deepest = self.deepest.max(level);
        need(level <= self.levels, 3, place)?;
        need(at < end, 9, place)?;
        self.payload(self.bytes[at], place, at + 1, end, level, outer)
    }

    /// What stands behind a code.
    fn payload(
        &mut self,
        code: u8,
        place: usize,
        at: usize,
        end: usize,
        level: u32,
        outer: Option<usize>,
    ) -> Result<usize, Told> {
        let (kind, layout) = entry(code).ok_or(Told::refusal(10, place as u64))?;
        match layout {
            Layout::Described => {
                self.table.row(kind, 2);
                let value = self.value(at, end, level + 1, outer)?;
                self.value(value, end, level + 1, outer)
            }
            Layout::Compound(width) => {
                let (count, mut at, end) = self.fields(width, place, at, end)?;
                need(kind != Kind::Map || count % 2 == 0, 12, place)?;
                self.table.row(kind, count);
                for _ in 0..count {
                    at = self.value(at, end, level + 1, outer)?;
                }
                need(at == end, 12, place)?;
                Ok(end)
            }
            Layout::Array(width) => {
                let (count, at, end) = self.fields(width, place, at, end)?;
                self.elements(count, place, at, end, level)
            }
            _ => self.scalar(kind, layout, place, at, end),
        }
    }

    /// The row of an array, which tells the kind of the element code or, without one, none; and its body. All that it holds is refused at one place, but for bad text.
    fn elements(&mut self, count: u64, place: usize, at: usize, end: usize, level: u32) -> Result<usize, Told> {
        if count > 0 {
            self.deepest = self.deepest.max(level + 1);
            need(level < self.levels, 3, place)?;
        }
        if at == end {
            need(count == 0, 9, place)?;
            self.table.row(Kind::Array, 0);
            return Ok(end);
        }
        let code = self.bytes[at];
        let (kind, layout) = entry(code).ok_or(Told::refusal(10, place as u64))?;
        let payload = !matches!(layout, Layout::Constant(_) | Layout::Whole(0) | Layout::Described);
        need(payload, 4, place)?;
        self.table.array(kind, count);
        let mut at = at + 1;
        self.arrays += 1;
        for _ in 0..count {
            at = self.payload(code, place, at, end, level + 1, Some(place))?;
        }
        self.arrays -= 1;
        need(at == end, 12, place)?;
        Ok(end)
    }

    /// Count, and the body's two ends.
    fn fields(&self, width: usize, place: usize, at: usize, end: usize) -> Result<(u64, usize, usize), Told> {
        let size = self.number(width, place, at, end)? as usize;
        need(size >= width, 12, place)?;
        need(end - at - width >= size, 9, place)?;
        let count = self.number(width, place, at + width, end)?;
        Ok((count, at + 2 * width, at + width + size))
    }

    fn number(&self, width: usize, place: usize, at: usize, end: usize) -> Result<u64, Told> {
        need(end - at >= width, 9, place)?;
        Ok(self.bytes[at..at + width].iter().fold(0, |number, &byte| number << 8 | byte as u64))
    }

    fn scalar(&mut self, kind: Kind, layout: Layout, place: usize, at: usize, end: usize) -> Result<usize, Told> {
        let (number, text, length) = match layout {
            Layout::Constant(number) => (number, 0..0, 0),
            Layout::Small => {
                let byte = self.number(1, place, at, end)? as i8;
                let bits = kind.bits().expect("a number has bits");
                (byte as i64 as u64 & (u64::MAX >> (64 - bits)), 0..0, 1)
            }
            Layout::Raw => {
                need(end - at >= 16, 9, place)?;
                (0, at..at + 16, 16)
            }
            Layout::Sized(width) => {
                let number = self.number(width, place, at, end)?;
                let from = at + width;
                need((end - from) as u64 >= number, 9, place)?;
                (number, from..from + number as usize, width + number as usize)
            }
            Layout::Whole(width) => (self.number(width, place, at, end)?, 0..0, width),
            _ => unreachable!("no scalar"),
        };
        let good = match kind {
            Kind::Boolean => number <= 1,
            Kind::Char => char::from_u32(number as u32).is_some(),
            _ => true,
        };
        if !good {
            self.bad = Some(Bad::number(kind, self.arrays));
            return Err(Told::refusal(11, place as u64));
        }
        let (from, text) = (text.start, &self.bytes[text]);
        if let Some(fault) = texts::fault(kind, text) {
            self.bad = Some(Bad::text(kind, text, fault, self.table.text.len(), self.arrays));
            return Err(Told::refusal(11, (from + fault) as u64));
        }
        self.table.text.extend_from_slice(text);
        self.table.row(kind, number);
        Ok(at + length)
    }
}

fn need(holds: bool, number: u64, place: usize) -> Result<(), Told> {
    match holds {
        true => Ok(()),
        false => Err(Told::refusal(number, place as u64)),
    }
}

/// The kind of row that a code reads to, and what stands behind it.
fn entry(code: u8) -> Option<(Kind, Layout)> {
    use Layout::*;
    Some(match code {
        0x00 => (Kind::Described, Described),
        0x41 => (Kind::Boolean, Constant(1)),
        0x42 => (Kind::Boolean, Constant(0)),
        0x43 => (Kind::Uint, Constant(0)),
        0x44 => (Kind::Ulong, Constant(0)),
        0x45 => (Kind::List, Constant(0)),
        0x52 => (Kind::Uint, Whole(1)),
        0x53 => (Kind::Ulong, Whole(1)),
        0x54 => (Kind::Int, Small),
        0x55 => (Kind::Long, Small),
        0xa0 => (Kind::Binary, Sized(1)),
        0xa1 => (Kind::String, Sized(1)),
        0xa3 => (Kind::Symbol, Sized(1)),
        0xc0 => (Kind::List, Compound(1)),
        0xc1 => (Kind::Map, Compound(1)),
        0xe0 => (Kind::Array, Array(1)),
        // all others are kinds, in their full width
        _ => {
            let kind = Kind::of(code as u64)?;
            let layout = match kind {
                Kind::Null => Whole(0),
                Kind::Boolean => Whole(1),
                Kind::Decimal128 | Kind::Uuid => Raw,
                Kind::Binary | Kind::String | Kind::Symbol => Sized(4),
                Kind::List | Kind::Map => Compound(4),
                Kind::Array => Array(4),
                kind => Whole(kind.bits().expect("a number has bits") as usize / 8),
            };
            (kind, layout)
        }
    })
}
