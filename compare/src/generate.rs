//! Random tables, all of them such that our writer accepts them: all kinds, with a liking for edges.

use crate::{
    limit::HIGHEST,
    random::Random,
    table::{Kind, Table},
};

/// What may stand in a spot.
#[derive(Clone, Copy, PartialEq)]
enum Spot {
    Any,
    /// A map's key, or a described value in its place: in the domain of equality no timestamp and no array.
    Key,
}

pub struct Generator {
    random: Random,
    /// Whether tables stay in the domain of equality, where no array is empty or holds lists, maps or arrays.
    equal: bool,
    table: Table,
    /// Rows that lists and maps may still ask for.
    rows: usize,
}

impl Generator {
    /// Tables inside the domain of equality.
    pub fn equal(seed: u64) -> Self {
        Generator { random: Random::new(seed), equal: true, table: Table::default(), rows: 0 }
    }

    /// Tables of all that our writer accepts.
    pub fn all(seed: u64) -> Self {
        Generator { equal: false, ..Generator::equal(seed) }
    }

    /// The next table.
    pub fn table(&mut self) -> &Table {
        self.table.clear();
        match self.random.below(100) {
            0..=9 => self.leaf_row(Spot::Any),
            10..=79 => {
                self.rows = self.random.of(&[3, 6, 10, 20, 40]);
                self.value(1, Spot::Any);
            }
            80..=87 => {
                let deepest = if self.random.once_in(3) { HIGHEST } else { self.random.within(2, HIGHEST as usize) as u32 };
                self.chain(1, deepest, Spot::Any);
            }
            88..=93 => self.edge_compound(1, Spot::Any),
            94..=97 => {
                self.rows = 40;
                self.array(1);
            }
            98 if !self.equal && self.random.once_in(4) => self.many(),
            _ if self.random.once_in(20) => self.long_text(),
            _ => {
                self.rows = self.random.within(200, 600);
                self.value(1, Spot::Any);
            }
        }
        &self.table
    }

    fn value(&mut self, level: u32, spot: Spot) {
        let spot = if self.equal { spot } else { Spot::Any };
        let last = level == HIGHEST;
        match self.random.below(20) {
            0..=3 if !last => self.compound(Kind::List, level),
            4..=5 if !last => self.compound(Kind::Map, level),
            6..=7 if !last => {
                self.table.row(Kind::Described, 2);
                self.descriptor(level + 1);
                self.value(level + 1, spot);
            }
            8 if !last && spot == Spot::Any => self.array(level),
            9 if !last && self.random.once_in(12) => self.edge_compound(level, spot),
            10 => {
                let kind = self.random.of(if self.equal { &[Kind::List, Kind::Map] } else { &Kind::COMPOUNDS[..] });
                self.empty(kind);
            }
            _ => self.leaf_row(spot),
        }
    }

    fn compound(&mut self, kind: Kind, level: u32) {
        let wish = if level == 1 { self.rows } else { self.random.below(6) };
        let count = wish.min(self.rows) & if kind == Kind::Map { !1 } else { !0 };
        self.rows -= count;
        self.table.row(kind, count as u64);
        for i in 0..count {
            self.value(level + 1, if kind == Kind::Map && i % 2 == 0 { Spot::Key } else { Spot::Any });
        }
    }

    /// A value that goes down to `deepest`, with a few leaves on its way.
    fn chain(&mut self, level: u32, deepest: u32, spot: Spot) {
        if level == deepest {
            return self.leaf_row(spot);
        }
        match self.random.below(if self.equal { 4 } else { 6 }) {
            0 => {
                self.table.row(Kind::Described, 2);
                self.descriptor(level + 1);
                self.chain(level + 1, deepest, spot);
            }
            1 => self.link(Kind::Map, level, deepest),
            2 | 3 => self.link(Kind::List, level, deepest),
            _ => self.link(Kind::Array, level, deepest),
        }
    }

    /// A compound in which the chain goes on.
    fn link(&mut self, kind: Kind, level: u32, deepest: u32) {
        if kind == Kind::Map {
            self.table.row(Kind::Map, 2);
            if self.random.once_in(2) {
                self.chain(level + 1, deepest, Spot::Key);
                self.leaf_row(Spot::Any);
            } else {
                self.leaf_row(Spot::Key);
                self.chain(level + 1, deepest, Spot::Any);
            }
            return;
        }
        let count = self.random.of(&[1, 1, 1, 2, 3]);
        let turn = self.random.below(count);
        // an array's elements are of one kind; at the end of the chain they have no children
        let inner = self.inner(kind, level + 1, deepest);
        match inner {
            Some(inner) => self.table.array(inner, count as u64),
            None => self.table.row(kind, count as u64),
        };
        for i in 0..count {
            match inner {
                Some(inner) if level + 1 == deepest => self.leaf(inner, true),
                Some(inner) if i == turn => self.link(inner, level + 1, deepest),
                Some(inner) => self.empty(inner),
                None if i == turn => self.chain(level + 1, deepest, Spot::Any),
                None => self.leaf_row(Spot::Any),
            }
        }
    }

    /// The kind of the elements, at that level, where the compound that holds them is an array.
    fn inner(&mut self, kind: Kind, level: u32, deepest: u32) -> Option<Kind> {
        match kind {
            Kind::Array if level == deepest => Some(self.random.of(&Kind::SCALARS)),
            Kind::Array => Some(self.random.of(&Kind::COMPOUNDS)),
            _ => None,
        }
    }

    fn descriptor(&mut self, level: u32) {
        if !self.equal && self.random.once_in(4) {
            return self.value(level, Spot::Any);
        }
        let kind = self.random.of(&[Kind::Symbol, Kind::Ulong]);
        self.leaf(kind, false);
    }

    fn leaf_row(&mut self, spot: Spot) {
        let kind = match self.random.below(21) {
            20 => Kind::Null,
            i => Kind::SCALARS[i],
        };
        let kind = if spot == Spot::Key && kind == Kind::Timestamp { Kind::Symbol } else { kind };
        self.leaf(kind, false);
    }

    /// A row without children. In the domain of equality strings in arrays are ASCII.
    fn leaf(&mut self, kind: Kind, in_array: bool) {
        match kind {
            Kind::Binary | Kind::String | Kind::Symbol => {
                let length = self.text_length();
                self.text(kind, length, in_array && self.equal);
            }
            Kind::Decimal128 | Kind::Uuid => {
                let sixteen = std::array::from_fn(|_| self.random.byte());
                self.table.sixteen(kind, &sixteen);
            }
            _ => {
                let number = self.number(kind);
                self.table.row(kind, number);
            }
        }
    }

    fn number(&mut self, kind: Kind) -> u64 {
        let Some(bits) = kind.bits() else { return 0 };
        if kind == Kind::Char {
            return self.char() as u64;
        }
        let mask = u64::MAX >> (64 - bits);
        let edge = self.random.of(&[0, 1, 127, 128, 129, 254, 255, 256, 257, 1 << 15, 1 << 31, 1 << 63]);
        let number = match self.random.below(4) {
            0 => edge,
            1 => (edge as i64).wrapping_neg() as u64,
            2 => !edge,
            _ => self.random.next() >> self.random.below(64),
        };
        number & mask
    }

    fn char(&mut self) -> char {
        let edges = ['\0', '\x7f', '\u{80}', '\u{7ff}', '\u{800}', '\u{d7ff}', '\u{e000}', '\u{ffff}', '\u{10000}', '\u{10ffff}'];
        match self.random.below(3) {
            0 => self.random.of(&edges),
            1 => self.random.within(0x20, 0x7e) as u8 as char,
            _ => char::from_u32(self.random.below(0x11_0000) as u32).unwrap_or('Ø'),
        }
    }

    fn text_length(&mut self) -> usize {
        match self.random.below(60) {
            0 => self.random.within(252, 258),
            1 => self.random.within(100, 400),
            _ => self.random.below(12),
        }
    }

    /// A text row of so many bytes.
    fn text(&mut self, kind: Kind, length: usize, ascii: bool) {
        let from = self.table.text.len();
        self.table.row(kind, length as u64);
        while self.table.text.len() - from < length {
            let room = length - (self.table.text.len() - from);
            match kind {
                Kind::Binary => self.table.text.push(self.random.byte()),
                Kind::String if !ascii => {
                    let char = self.char();
                    let char = if char.len_utf8() <= room { char } else { 'x' };
                    self.table.text.extend_from_slice(char.encode_utf8(&mut [0; 4]).as_bytes());
                }
                _ => self.table.text.push(self.random.byte() & 0x7f),
            }
        }
    }

    /// An array at a level that is not the last.
    fn array(&mut self, level: u32) {
        if !self.equal && self.random.once_in(2) {
            return self.compound_array(level);
        }
        let kind = self.random.of(&Kind::SCALARS);
        let least = self.equal as usize;
        let count = match self.random.below(12) {
            0 => least,
            1 => 1,
            2 => self.random.within(252, 257),
            3 => self.edge_count(kind),
            _ => self.random.within(least, 7),
        };
        self.scalars(kind, count);
    }

    fn scalars(&mut self, kind: Kind, count: usize) {
        self.table.array(kind, count as u64);
        for _ in 0..count {
            self.leaf(kind, true);
        }
    }

    /// An array of lists, maps or arrays, which hold values of all kinds.
    fn compound_array(&mut self, level: u32) {
        let kind = self.random.of(&Kind::COMPOUNDS);
        let count = match self.random.below(12) {
            0 => 1,
            1 => self.random.within(28, 34),
            _ => self.random.within(1, 5),
        };
        self.table.array(kind, count as u64);
        for _ in 0..count {
            self.compound_element(kind, level + 1);
        }
    }

    fn compound_element(&mut self, kind: Kind, level: u32) {
        match (self.random.below(12), kind) {
            _ if level == HIGHEST => self.empty(kind),
            (0, _) | (1..=2, Kind::List | Kind::Map) => self.empty(kind),
            (3, _) if self.random.once_in(8) => self.edge_of(kind, level),
            (4..=7, Kind::Array) => self.compound_array(level),
            (_, Kind::Array) => {
                let (kind, count) = (self.random.of(&Kind::SCALARS), self.random.within(1, 5));
                self.scalars(kind, count);
            }
            _ => self.compound(kind, level),
        }
    }

    /// An empty list or map, or an empty array of any kind of elements.
    fn empty(&mut self, kind: Kind) {
        match kind {
            Kind::Array => {
                let kind = self.random.of(&Kind::ELEMENTS);
                self.table.array(kind, 0)
            }
            _ => self.table.row(kind, 0),
        };
    }

    /// More small compounds than the writer keeps the sizes of beside the output, most of them elements.
    fn many(&mut self) {
        let kind = self.random.of(&Kind::COMPOUNDS);
        let count = self.random.within(200, 400);
        self.table.array(kind, count as u64);
        for _ in 0..count {
            self.rows = 4;
            self.compound_element(kind, 2);
        }
    }

    /// So many elements that the array's body is about 254 bytes, where the wide form begins.
    fn edge_count(&mut self, kind: Kind) -> usize {
        let width = match kind.bits() {
            Some(bits) => bits.div_ceil(8) as usize,
            None => 16,
        };
        254 / width + self.random.below(2)
    }

    /// A list, map or array with a body of 252 to 258 bytes.
    fn edge_compound(&mut self, level: u32, spot: Spot) {
        let body = self.random.within(252, 258);
        if level == HIGHEST {
            return self.leaf_row(spot);
        }
        let forms = match spot {
            Spot::Key if self.equal => 3,
            _ if self.equal => 5,
            _ if level + 1 == HIGHEST => 6,
            _ => 7,
        };
        let form = self.random.below(forms);
        self.edge_form(form, body);
    }

    /// The same, of a kind.
    fn edge_of(&mut self, kind: Kind, level: u32) {
        let body = self.random.within(252, 258);
        let form = match kind {
            Kind::List => self.random.of(&[0, 1, 5]),
            Kind::Map => 2,
            _ if level + 1 == HIGHEST => self.random.of(&[3, 4]),
            _ => self.random.of(&[3, 4, 6]),
        };
        self.edge_form(form, body);
    }

    /// The last form, which takes three levels, and the one before it have empty arrays in them.
    fn edge_form(&mut self, form: usize, body: usize) {
        match form {
            0 => {
                self.table.row(Kind::List, body as u64);
                for _ in 0..body {
                    self.table.row(Kind::Null, 0);
                }
            }
            1 => {
                // nulls, then a text with a head of two bytes
                let nulls = self.random.within(8, 100);
                self.table.row(Kind::List, nulls as u64 + 1);
                for _ in 0..nulls {
                    self.table.row(Kind::Null, 0);
                }
                self.text(Kind::Binary, body - nulls - 2, false);
            }
            2 => {
                let key = self.random.within(10, 100);
                self.table.row(Kind::Map, 2);
                self.text(Kind::Symbol, key, false);
                self.text(Kind::String, body - key - 4, false);
            }
            3 => {
                self.table.array(Kind::Ubyte, body as u64 - 1);
                for _ in 1..body {
                    self.leaf(Kind::Ubyte, true);
                }
            }
            4 => {
                self.table.array(Kind::Symbol, 1);
                self.text(Kind::Symbol, body - 5, true);
            }
            5 => {
                // empty arrays of four bytes, then a text with a head of two bytes
                let arrays = self.random.within(1, 60);
                self.table.row(Kind::List, arrays as u64 + 1);
                for _ in 0..arrays {
                    self.empty(Kind::Array);
                }
                self.text(Kind::Binary, body - 4 * arrays - 2, false);
            }
            _ => {
                // behind the element code, empty arrays of nine bytes and one with that many and its elements
                let arrays = self.random.within(1, 26);
                self.table.array(Kind::Array, arrays as u64 + 1);
                for _ in 0..arrays {
                    self.empty(Kind::Array);
                }
                self.scalars(Kind::Ubyte, body - 9 * arrays - 10);
            }
        }
    }

    /// A text of up to a million bytes, bare, in a list or in an array.
    fn long_text(&mut self) {
        let most = self.random.of(&[2_000, 70_000, 70_000, 1_000_000]);
        let length = self.random.within(1_000, most);
        let kind = self.random.of(&[Kind::Binary, Kind::String, Kind::Symbol]);
        match self.random.below(3) {
            0 => self.text(kind, length, false),
            1 => {
                self.table.row(Kind::List, 2);
                self.leaf_row(Spot::Any);
                self.text(kind, length, false);
            }
            _ => {
                self.table.array(kind, 1);
                self.text(kind, length, true);
            }
        }
    }
}
