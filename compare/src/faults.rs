//! Tables with faults, and what we say of them beside what docs/FORMAT.md, 5.2, has us say.

use crate::{
    domain::{self, Checked, MOST},
    findings::Findings,
    forms::{self, AsWritten},
    generate::Generator,
    levels,
    limit::{Limit, HIGHEST},
    ours::{self, Told, PATTERN},
    random::Random,
    report,
    table::{array, count_in, kind_in, Kind, Table},
    texts::{self, Tally},
};

/// The last refusal of sizing.
const LAST: usize = 7;

/// Once in so many times a table has about as many bytes as a value may have.
const LONGEST: usize = 10_000;

/// What is refused: the number, and what of it is counted.
const PARTS: [(usize, &str); 10] = [
    (1, "an odd number of words"),
    (4, "an element unlike what its array tells"),
    (4, "an array that tells null"),
    (5, "an array of more than 1,048,576 elements"),
    (5, "an array with elements that tells no kind"),
    (5, "an empty array that tells no kind"),
    (5, "an array that tells what is none of the 25 kinds, below 256"),
    (5, "an array that tells what is none of the 25 kinds, from 256 on"),
    (6, "too little text for a row"),
    (6, "text left at the end"),
];

pub struct Judge {
    random: Random,
    tables: Generator,
    all: u64,
    numbers: [u64; 16],
    parts: [u64; PARTS.len()],
    bad: Tally,
    nested: u64,
    empty: u64,
    pub levels: levels::Judge,
    table: Table,
    due: Vec<u8>,
    out: Vec<u8>,
    pub findings: Findings,
}

impl Judge {
    pub fn new(seed: u64) -> Self {
        Judge {
            random: Random::new(seed ^ 0x5a),
            tables: Generator::all(!seed),
            all: 0,
            numbers: [0; 16],
            parts: [0; PARTS.len()],
            bad: Tally::default(),
            nested: 0,
            empty: 0,
            levels: levels::Judge::new(seed, levels::FAULTS),
            table: Table::default(),
            due: Vec::new(),
            out: Vec::new(),
            findings: Findings::default(),
        }
    }

    /// The next random table.
    pub fn next(&mut self) {
        self.make();
        self.hold();
    }

    /// Arrays whose numbers tell all sorts of counts and kinds: bare, in a list, and in an array that tells arrays or lists. Behind each there is nothing, or
    /// as many elements as it has, of the kind that it tells or ubytes.
    pub fn each_array(&mut self) {
        let counts = [0, 1, 2, MOST, MOST + 1, u32::MAX as u64];
        let kinds = (0..0x200).chain((9..32).map(|bit| 1 << bit | Kind::Uint as u64)).chain([u32::MAX as u64]);
        for (kind, count) in kinds.flat_map(|kind| counts.map(|count| (kind, count))) {
            for around in [None, Some((Kind::List, 1)), Some(array(Kind::Array, 1)), Some(array(Kind::List, 1))] {
                for element in [None, Kind::of(kind), Some(Kind::Ubyte)] {
                    self.table.clear();
                    if let Some((outer, number)) = around {
                        self.table.row(outer, number);
                    }
                    self.table.words.extend([Kind::Array as u64, kind << 32 | count]);
                    for _ in 0..if count <= 2 { count } else { 0 } {
                        element.into_iter().for_each(|kind| self.plain(kind));
                    }
                    self.hold();
                }
            }
        }
    }

    /// A value of a kind, as plain as can be.
    fn plain(&mut self, kind: Kind) {
        match kind {
            Kind::Decimal128 | Kind::Uuid => self.table.sixteen(kind, &[0; 16]),
            Kind::Described => self.table.row(kind, 2).row(Kind::Ulong, 0).row(Kind::Null, 0),
            _ => self.table.compound(kind, 0, Kind::Ubyte),
        };
    }

    /// Sizing and writing answer what is due, and a refusal touches nothing.
    fn hold(&mut self) {
        self.all += 1;
        let Checked { refusal, deepest, bad } = domain::check(Limit::HIGHEST, &self.table);
        self.due.clear();
        let due = match refusal {
            Some(refusal) => refusal,
            None => {
                forms::write(&self.table, &mut AsWritten, &mut self.due);
                match self.due.len() {
                    length if length as u64 > MOST => Told::refusal(7, 0),
                    length => Told::success(length, 0, 0),
                }
            }
        };
        self.numbers[due.number as usize] += 1;
        match bad {
            Some(bad) => self.bad.count(&bad),
            None => self.count_part(&due),
        }
        self.nested += self.table.is_nested() as u64;
        self.empty += self.table.has_empty_array() as u64;
        self.out.clear();
        self.out.resize(due.length as usize + 8, PATTERN);
        let sized = ours::size(Limit::HIGHEST, &self.table);
        let written = ours::write(Limit::HIGHEST, &self.table, &mut self.out);
        let (front, behind) = self.out.split_at(due.length as usize);
        let left = behind.iter().all(|&byte| byte == PATTERN);
        let right = sized == due && written == due && left && (due.number != 0 || front == &self.due[..]);
        if !right {
            let table = &self.table;
            self.findings.note("a table with faults", table.words.len(), || format!("`{table}`: {sized}, due is {due}"));
        }
        self.levels.table(&self.table, &self.due, deepest);
    }

    /// Counts parts of what is refused, but for bad texts: there the place is no row.
    fn count_part(&mut self, due: &Told) {
        if due.number == 1 && self.table.words.len() % 2 == 1 {
            self.parts[0] += 1;
        }
        if due.number == 6 {
            let is_left = due.place == self.table.rows() as u64;
            self.parts[if is_left { 9 } else { 8 }] += 1;
        }
        let row = 2 * due.place as usize;
        let Some(&[kind, number]) = self.table.words.get(row..row + 2) else { return };
        let array = kind == Kind::Array as u64;
        let which = match (due.number, kind_in(number), count_in(number)) {
            (4, told, _) if array && told == Kind::Null as u64 => 2,
            (4, ..) => 1,
            (5, _, count) if array && count > MOST => 3,
            (5, 0, 1..) if array => 4,
            (5, 0, _) if array => 5,
            (5, ..=0xff, _) if array => 6,
            (5, ..) if array => 7,
            _ => return,
        };
        self.parts[which] += 1;
    }

    /// A random table, mostly with a fault or two.
    fn make(&mut self) {
        const LONG: usize = 2_000;
        if self.random.once_in(LONGEST) {
            return self.longest();
        }
        if self.random.once_in(12) {
            return self.deep();
        }
        loop {
            let table = self.tables.table();
            if table.words.len() <= LONG && table.text.len() <= LONG {
                break self.table.clone_from(table);
            }
        }
        if self.random.once_in(4) {
            for _ in 0..self.random.within(1, 2) {
                texts::spoil(&mut self.table, &mut self.random);
            }
        }
        for _ in 0..self.random.below(3) {
            self.hurt();
        }
    }

    /// A text in up to 33 lists, all of them as many bytes as a value may have, or one more.
    fn longest(&mut self) {
        self.table.clear();
        let lists = self.random.below(HIGHEST as usize + 2);
        for _ in 0..lists {
            self.table.row(Kind::List, 1);
        }
        // each list has nine bytes before its one value, the text has five
        let text = MOST as usize + self.random.below(2) - 9 * lists - 5;
        self.table.worded(Kind::Binary, &vec![PATTERN; text]);
    }

    /// Compounds, one in the other, to about the last level of a limit or beyond it.
    fn deep(&mut self) {
        self.table.clear();
        let kinds = self.random.of(&[&[Kind::List][..], &[Kind::Array], &[Kind::List, Kind::Array], &[Kind::Array, Kind::Map]]);
        let last = Limit::last_level(&mut self.random) as usize;
        let levels = self.random.within(last.saturating_sub(3), last + 2);
        let last = self.random.of(&[Kind::Null, Kind::Ubyte, Kind::String, Kind::List, Kind::Array, Kind::Map, Kind::Described]);
        for level in 0..levels {
            let kind = kinds[level % kinds.len()];
            let next = if level + 1 < levels { kinds[(level + 1) % kinds.len()] } else { last };
            // arrays cannot hold nulls and described values: before such a one the array mostly tells another kind
            let told = if next.is_element() || self.random.once_in(3) { next } else { Kind::Ubyte };
            self.table.compound(kind, if kind == Kind::Map { 2 } else { 1 }, told);
            if kind == Kind::Map {
                self.table.row(Kind::Null, 0);
            }
        }
        let (number, told) = (self.random.below(3) as u64, self.random.of(&Kind::ALL));
        match last {
            Kind::String => self.table.worded(last, &[b'x', self.random.byte()]),
            _ => self.table.compound(last, number, told),
        };
        if self.random.once_in(3) {
            self.hurt();
        }
    }

    /// One change of what an array's number tells; false where there is no array.
    fn hurt_array(&mut self) -> bool {
        let words = &mut self.table.words;
        let arrays: Vec<_> = (0..words.len() / 2).filter(|row| words[2 * row] == Kind::Array as u64).collect();
        if arrays.is_empty() {
            return false;
        }
        let row = 2 * self.random.of(&arrays);
        let (kind, count) = (kind_in(words[row + 1]), count_in(words[row + 1]));
        let counts = [0, 1, 2, 255, 256, MOST, MOST + 1, 1 << 31, u32::MAX as u64];
        let (kind, count) = match self.random.below(10) {
            0 => (kind, count + 1),
            1 => (kind, count.saturating_sub(1)),
            2 => (kind, self.random.of(&counts)),
            3 | 4 => (self.random.of(&Kind::ALL) as u64, count),
            5 => (0, count),
            6 => (Kind::Null as u64, count),
            7 => (self.random.of(&[0x01, 0x41, 0x45, 0x52, 0x54, 0xa1, 0xc0, 0xe0, 0xff]), count),
            8 => (kind | 0x100 << self.random.below(24), count),
            _ => (self.random.of(&[0, Kind::Null as u64, Kind::Array as u64, 0x52, 0x170]), self.random.of(&counts)),
        };
        words[row + 1] = kind << 32 | count;
        true
    }

    /// One change at one place.
    fn hurt(&mut self) {
        if self.random.once_in(3) && self.hurt_array() {
            return;
        }
        let Table { words, text } = &mut self.table;
        if words.len() < 2 {
            return;
        }
        let row = 2 * self.random.below(words.len() / 2);
        match self.random.below(10) {
            0 | 1 => words[row] = self.random.of(&Kind::ALL) as u64,
            2 => words[row] = self.random.of(&[0x45, 0x52, 0xc0, 0xe0, 0xff, 0x1d0, 1 << 40]),
            3 => words[row + 1] = words[row + 1].wrapping_add(1),
            4 => words[row + 1] = words[row + 1].wrapping_sub(1),
            5 => words[row + 1] = self.random.of(&[0, 1, 2, 255, 256, 0xd800, 0x11_0000, MOST, MOST + 1, 1 << 32, u64::MAX]),
            6 => drop(words.drain(row..row + 2)),
            7 => {
                let other = 2 * self.random.below(words.len() / 2);
                let again = [words[other], words[other + 1]];
                words.splice(row..row, again);
            }
            8 if !text.is_empty() => {
                let at = self.random.below(text.len());
                match self.random.below(3) {
                    0 => text[at] = self.random.byte(),
                    1 => drop(text.remove(at)),
                    _ => text.insert(at, self.random.byte()),
                }
            }
            8 => text.push(b'x'),
            _ if self.random.once_in(4) => words.truncate(words.len() - 1),
            _ => words.truncate(row + 2),
        }
    }

    /// Prints what came, and notes what never came.
    pub fn conclude(&mut self) {
        for number in 0..=LAST {
            self.findings.need(&format!("of tables with faults the answer {number}"), self.numbers[number]);
        }
        PARTS.iter().zip(self.parts).for_each(|((_, what), count)| self.findings.need(what, count));
        self.bad.texts().for_each(|(what, count)| self.findings.need(&format!("of tables with bad text {what}"), count));
        let of = |what: &str, count| vec![what.to_string(), report::number(count)];
        let mut rows = vec![
            of("tables", self.all),
            of("with arrays of lists, maps or arrays", self.nested),
            of("with empty arrays", self.empty),
            of("accepted", self.numbers[0]),
        ];
        for number in 1..=LAST {
            rows.push(of(&format!("refused with {number}"), self.numbers[number]));
            let parts = PARTS.iter().zip(self.parts).filter(|((refusal, _), _)| *refusal == number);
            rows.extend(parts.map(|((_, what), count)| of(&format!("of these {what}"), count)));
            if number == 6 {
                rows.extend(self.bad.texts().map(|(what, count)| of(&format!("of these {what}"), count)));
            }
        }
        report::table(1, &["tables with faults", "number"], &rows);
        println!("For each, with the limit 32: sizing and writing answer what the judge's own checks answer, number and place, and a refusal leaves the output as it was.\n");
    }
}
