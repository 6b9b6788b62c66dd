//! Tables and bytes by chance, always the same ones. They have up to 32 levels, and most calls name that limit.
mod forms;

use std::collections::{BTreeMap, BTreeSet};

use afsungar::{Builder, Kind, Reason, Refusal, Row, Table, Value};
use forms::{within_each, Form, BYTE};

/// The most levels that a call may name.
const LEVELS: usize = afsungar::LEVELS_MOST as usize;
const MOST: Form = Form::Within(afsungar::LEVELS_MOST);

/// xorshift64*, from a fixed seed.
struct Chance(u64);

impl Chance {
    fn word(&mut self) -> u64 {
        self.0 ^= self.0 >> 12;
        self.0 ^= self.0 << 25;
        self.0 ^= self.0 >> 27;
        self.0.wrapping_mul(0x2545_f491_4f6c_dd1d)
    }

    fn below(&mut self, end: usize) -> usize {
        ((u128::from(self.word()) * end as u128) >> 64) as usize
    }

    /// Any width, so that small numbers and numbers near a limit come often.
    fn number(&mut self) -> u64 {
        let shift = self.below(64);
        let number = self.word() >> shift;
        if self.below(4) == 0 {
            number.wrapping_neg()
        } else {
            number
        }
    }

    fn char(&mut self) -> char {
        loop {
            if let Some(c) = char::from_u32(self.number() as u32 & 0x1f_ffff) {
                return c;
            }
        }
    }

    /// Mostly short, now and then about 255 bytes long.
    fn length(&mut self) -> usize {
        match self.below(12) {
            0 => 240 + self.below(30),
            1 => self.below(600),
            _ => self.below(12),
        }
    }

    fn bytes(&mut self) -> Vec<u8> {
        (0..self.length()).map(|_| self.word() as u8).collect()
    }

    fn string(&mut self) -> String {
        let length = self.length();
        let mut text = String::new();
        while text.len() < length {
            text.push(self.char());
        }
        text
    }

    fn symbol(&mut self) -> String {
        (0..self.length()).map(|_| char::from(self.word() as u8 & 0x7f)).collect()
    }

    fn sixteen(&mut self) -> [u8; 16] {
        (u128::from(self.word()) << 64 | u128::from(self.word())).to_be_bytes()
    }

    /// Puts in a value of this kind at this level.
    fn put(&mut self, t: &Builder, kind: Kind, level: usize) {
        let n = self.number();
        match kind {
            Kind::Null => t.null(),
            Kind::Boolean => t.boolean(n % 2 == 1),
            Kind::Ubyte => t.ubyte(n as u8),
            Kind::Ushort => t.ushort(n as u16),
            Kind::Uint => t.uint(n as u32),
            Kind::Ulong => t.ulong(n),
            Kind::Byte => t.byte(n as i8),
            Kind::Short => t.short(n as i16),
            Kind::Int => t.int(n as i32),
            Kind::Long => t.long(n as i64),
            Kind::Float => t.float(f32::from_bits(n as u32)),
            Kind::Double => t.double(f64::from_bits(n)),
            Kind::Decimal32 => t.decimal32(n as u32),
            Kind::Decimal64 => t.decimal64(n),
            Kind::Decimal128 => t.decimal128(self.sixteen()),
            Kind::Char => t.char(self.char()),
            Kind::Timestamp => t.timestamp(n as i64),
            Kind::Uuid => t.uuid(self.sixteen()),
            Kind::Binary => t.binary(self.bytes()),
            Kind::String => t.string(self.string()),
            Kind::Symbol => t.symbol(self.symbol()),
            Kind::List => t.list(|t| (0..self.children(level)).for_each(|_| self.any(t, level + 1))),
            Kind::Map => t.map(|t| (0..2 * self.children(level)).for_each(|_| self.any(t, level + 1))),
            Kind::Array => {
                let element = self.kind(level + 1, false, true);
                t.array(element, |t| (0..self.children(level)).for_each(|_| self.put(t, element, level + 1)))
            }
            Kind::Described => t.described(|t| (0..2).for_each(|_| self.any(t, level + 1))),
        };
    }

    /// Fewer the deeper it is, so that tables end.
    fn children(&mut self, level: usize) -> usize {
        match level {
            LEVELS => 0,
            1..=3 => self.below(6),
            _ => self.below(3),
        }
    }

    /// A kind for a value at this level: one that has children, if it has to be, and one that arrays hold, if it is in one.
    fn kind(&mut self, level: usize, parent: bool, element: bool) -> Kind {
        let parents = [Kind::List, Kind::Map, Kind::Array, Kind::Described];
        loop {
            let kind = if parent || self.below(4) == 0 { parents[self.below(4)] } else { Kind::ALL[self.below(25)] };
            if (kind.is_element() || !element) && (kind != Kind::Described || level < LEVELS) {
                return kind;
            }
        }
    }

    fn any(&mut self, t: &Builder, level: usize) {
        let kind = self.kind(level, false, false);
        self.put(t, kind, level);
    }

    /// Now and then deep down.
    fn table(&mut self) -> Table {
        let depth = if self.below(8) == 0 { self.below(LEVELS) } else { 0 };
        let kind = self.kind(1, depth > 0, false);
        Table::build(|t| self.down(t, kind, depth, 1))
    }

    /// A value of this kind, with parents one in the other below it, so many levels down.
    fn down(&mut self, t: &Builder, kind: Kind, depth: usize, level: usize) {
        if depth == 0 {
            return self.put(t, kind, level);
        }
        let below = self.kind(level + 1, depth > 1, kind == Kind::Array);
        match kind {
            Kind::List => t.list(|t| self.down(t, below, depth - 1, level + 1)),
            Kind::Map => t.map(|t| self.down(&t.null(), below, depth - 1, level + 1)),
            Kind::Described => t.described(|t| self.down(&t.ulong(36), below, depth - 1, level + 1)),
            _ => t.array(below, |t| {
                // Beside it are elements that have no children, before and behind it.
                (0..self.below(2)).for_each(|_| self.put(t, below, LEVELS));
                self.down(t, below, depth - 1, level + 1);
                (0..self.below(2)).for_each(|_| self.put(t, below, LEVELS));
            }),
        };
    }

    /// Up to three bytes become others.
    fn damage(&mut self, bytes: &mut [u8]) {
        for _ in 0..self.below(4) {
            if !bytes.is_empty() {
                let at = self.below(bytes.len());
                bytes[at] = self.number() as u8;
            }
        }
    }

    /// Up to two changes of words or text.
    fn damaged(&mut self, table: Table) -> Table {
        let (mut words, mut text) = table.into_parts();
        for _ in 0..self.below(3) {
            match self.below(6) {
                0 => drop(words.pop()),
                1 => drop(text.pop()),
                2 => text.push(self.word() as u8),
                3 => self.damage(&mut text),
                _ if !words.is_empty() => {
                    let at = self.below(words.len());
                    words[at] = self.number();
                }
                _ => {}
            }
        }
        Table::from_parts(words, text)
    }

    /// Up to eight rows, each good by itself or nearly so.
    fn rows(&mut self) -> Table {
        let words = (0..self.below(9)).flat_map(|_| {
            let (kind, number) = (Kind::ALL[self.below(25)], self.below(4));
            let element = Kind::ALL[self.below(25)];
            [kind.code(), if kind == Kind::Array { element.array_number(number as u32) } else { number as u64 }]
        });
        Table::from_parts(words.collect(), vec![])
    }
}

/// The kinds that the arrays in a value tell, each with how many arrays have elements and how many have none, and the deepest
/// level in an array.
#[derive(Default)]
struct Arrays {
    of: BTreeMap<Kind, [usize; 2]>,
    deepest: usize,
}

impl Arrays {
    fn see(&mut self, row: Row<'_>, level: usize, inside: bool) {
        let element = row.element_kind();
        assert_eq!(element.is_some(), row.kind() == Some(Kind::Array));
        if inside {
            self.deepest = self.deepest.max(level);
        }
        if let Some(kind) = element {
            self.of.entry(kind).or_default()[usize::from(row.count() == 0)] += 1;
        }
        for child in row.children() {
            assert!(element.map_or(true, |kind| Some(kind) == child.kind()));
            self.see(child, level + 1, inside || element.is_some());
        }
    }
}

#[test]
fn tables_there_and_back() {
    let mut chance = Chance(0x00af_5a17_9a6e_d001);
    let (mut rows, mut longest, mut kinds, mut arrays) = (0, 0, [0u32; 256], Arrays::default());
    for _ in 0..30_000 {
        let table = chance.table();
        let bytes = MOST.bytes_of(&table).unwrap();
        let (again, length) = MOST.table_of(&bytes).unwrap();
        assert_eq!((&again, length), (&table, bytes.len()));
        let values = again.values().unwrap();
        values.iter().for_each(|value| kinds[value.kind() as usize] += 1);
        assert_eq!(values.into_iter().collect::<Table>(), table);
        again.root().into_iter().for_each(|root| arrays.see(root, 1, false));

        // One byte less of output, of rows and of text; and a front part of the bytes.
        let mut out = vec![BYTE; bytes.len() - 1];
        let short = MOST.write(table.words(), table.text(), &mut out);
        assert_eq!(short.map_err(|refusal| refusal.reason()), Err(Reason::OutputShort));
        assert!(out.iter().all(|&byte| byte == BYTE));
        let (mut words, mut text) = (table.words().to_vec(), table.text().to_vec());
        words.pop();
        assert_eq!(MOST.read(&bytes, &mut words, &mut text).map_err(|refusal| refusal.number()), Err(13));
        words.push(0);
        if text.pop().is_some() {
            assert_eq!(MOST.read(&bytes, &mut words, &mut text).map_err(|refusal| refusal.number()), Err(14));
        }
        let front = chance.below(bytes.len());
        assert_eq!(MOST.measure(&bytes[..front]).map_err(|refusal| refusal.reason()), Err(Reason::InputShort));
        rows += table.len();
        longest = longest.max(bytes.len());
    }
    assert!(Kind::ALL.iter().all(|&kind| kinds[kind as usize] > 1000), "{kinds:?}");
    assert!(rows > 100_000 && longest > 2_000, "{rows} rows, the longest value has {longest} bytes");
    let elements = Kind::ALL.into_iter().filter(|kind| kind.is_element());
    assert!(arrays.of.keys().copied().eq(elements), "{:?}", arrays.of);
    assert!(arrays.of.values().flatten().all(|&seen| seen > 100), "{:?}", arrays.of);
    let compounds = [Kind::List, Kind::Map, Kind::Array];
    assert!(compounds.iter().all(|kind| arrays.of[kind][0] > 1000), "{:?}", arrays.of);
    assert_eq!(arrays.deepest, LEVELS);
}

#[test]
fn tables_and_bytes_within_each_limit() {
    let mut chance = Chance(0x00af_5a17_9a6e_d008);
    let (mut seen, mut refused) = (BTreeSet::new(), BTreeSet::new());
    for _ in 0..2_000 {
        fn levels(row: Row<'_>) -> u64 {
            1 + row.children().map(levels).max().unwrap_or(0)
        }
        let table = chance.table();
        let due = table.root().map(levels);
        let (bytes, enough) = within_each(|form| form.bytes_of(&table));
        assert_eq!(enough, due);
        let mut bytes = bytes.unwrap();
        let (again, enough) = within_each(|form| form.table_of(&bytes));
        assert_eq!((again.unwrap().0, enough), (table.clone(), due));
        seen.extend(due);

        chance.damage(&mut bytes);
        refused.extend(within_each(|form| form.table_of(&bytes)).0.err().map(|refusal| refusal.number()));
        let table = chance.damaged(table);
        refused.extend(within_each(|form| form.bytes_of(&table)).0.err().map(|refusal| refusal.number()));
    }
    assert!(seen.into_iter().eq(1..=32), "a table of each number of levels");
    assert!([1, 2, 4, 5, 6, 9, 10, 11, 12].iter().all(|number| refused.contains(number)), "{refused:?}");
}

/// Arrays of many lists, maps or arrays: the writer keeps the sizes of 256 compounds, and goes over larger tables once more.
#[test]
fn long_arrays() {
    let mut chance = Chance(0x00af_5a17_9a6e_d006);
    for round in 0..100 {
        let count = if round < 50 { 250 + chance.below(12) } else { chance.below(3_000) };
        let kind = chance.kind(2, true, true);
        let table = Table::build(|t| {
            t.array(kind, |t| (0..count).for_each(|_| chance.put(t, kind, 4)));
        });
        assert_eq!(table.root().map(|root| root.count()), Some(count));
        let bytes = MOST.bytes_of(&table).unwrap();
        assert_eq!(MOST.table_of(&bytes), Ok((table, bytes.len())));
    }
}

#[test]
fn values_end_to_end() {
    let mut chance = Chance(0x00af_5a17_9a6e_d002);
    for _ in 0..500 {
        let tables: Vec<Table> = (0..chance.below(8)).map(|_| chance.table()).collect();
        let bytes: Vec<u8> = tables.iter().flat_map(|table| MOST.bytes_of(table).unwrap()).collect();
        let found = MOST.values(&bytes).map(|value| MOST.table_of(value.unwrap()).unwrap().0);
        assert!(found.eq(tables));
    }
}

/// Empty arrays that do not tell their kind, beside values by chance: the first of them is refused in writing, and all is written
/// once each has a kind.
#[test]
fn arrays_that_are_told_later() {
    let mut chance = Chance(0x00af_5a17_9a6e_d007);
    for _ in 0..2_000 {
        let count = 1 + chance.below(8);
        let body: Vec<u8> = (0..count)
            .flat_map(|_| match chance.below(3) {
                0 => vec![0xe0, 0x01, 0x00],
                1 => vec![0xf0, 0, 0, 0, 4, 0, 0, 0, 0],
                _ => MOST.bytes_of(&Table::build(|t| chance.any(t, 3))).unwrap(),
            })
            .collect();
        let fields = [body.len() as u32 + 4, count as u32].map(u32::to_be_bytes);
        let bytes = [&[0xd0], &fields.concat()[..], &body[..]].concat();
        let (table, _) = MOST.table_of(&bytes).unwrap();
        let not_told = Value::Array { count: 0, element: None };
        let mut values = table.values().unwrap();
        if let Some(row) = values.iter().position(|&value| value == not_told) {
            assert_eq!(MOST.bytes_of(&table), Err(Refusal::writing(Reason::NumberOutside, row as u64)));
        }
        for value in values.iter_mut().filter(|value| **value == not_told) {
            *value = Value::Array { count: 0, element: Some(chance.kind(3, false, true)) };
        }
        let told: Table = values.into_iter().collect();
        let bytes = MOST.bytes_of(&told).unwrap();
        assert_eq!(MOST.table_of(&bytes), Ok((told, bytes.len())));
    }
}

/// Bytes that were damaged, or never were a value: whatever is read can be looked at. Written, it is read to the same; it is not
/// written where an empty array does not tell its kind.
#[test]
fn bytes_by_chance() {
    let mut chance = Chance(0x00af_5a17_9a6e_d003);
    let (mut accepted, mut refused) = (0, [0u32; 16]);
    for round in 0..60_000 {
        let mut bytes = if round % 3 == 0 { chance.bytes() } else { MOST.bytes_of(&chance.table()).unwrap() };
        chance.damage(&mut bytes);
        match MOST.table_of(&bytes) {
            Ok((table, _)) => {
                accepted += 1;
                assert_eq!(table.values().unwrap().into_iter().collect::<Table>(), table);
                let not_told = table.rows().find(|row| (row.kind(), row.number) == (Some(Kind::Array), 0));
                match (MOST.bytes_of(&table), not_told) {
                    (Ok(bytes), None) => assert_eq!(MOST.table_of(&bytes), Ok((table, bytes.len()))),
                    (Err(refusal), Some(row)) => {
                        assert_eq!(refusal, Refusal::writing(Reason::NumberOutside, row.index as u64));
                    }
                    other => panic!("{other:?} of {bytes:x?}"),
                }
            }
            Err(refusal) => {
                refused[usize::from(refusal.number())] += 1;
                assert!(refusal.offset().is_some_and(|offset| offset <= bytes.len() as u64));
            }
        }
    }
    assert!(accepted > 1000, "{accepted}");
    assert!([4, 9, 10, 11, 12].iter().all(|&number| refused[number] > 10), "{refused:?}");
}

/// What is wrong within an array, at any depth, is refused at the place of the outermost one; but a bad text at its own byte.
#[test]
fn damaged_arrays() {
    let mut chance = Chance(0x00af_5a17_9a6e_d005);
    let (mut accepted, mut refused, mut texts) = (0, [0u32; 16], 0);
    for _ in 0..30_000 {
        let depth = chance.below(3).min(1) * chance.below(LEVELS - 2);
        let kind = chance.kind(3, depth > 0, true);
        let array = Table::build(|t| {
            t.array(kind, |t| (0..=chance.below(3)).for_each(|_| chance.down(t, kind, depth, 3)));
        });
        let list = Table::build(|t| {
            t.list(|t| {
                t.null().table(&array);
            });
        });
        let mut bytes = MOST.bytes_of(&list).unwrap();
        let start = bytes.len() - MOST.size(array.words(), array.text()).unwrap();
        // Behind its code, its size and its count.
        let body = start + if bytes[start] == 0xe0 { 3 } else { 9 };
        for _ in 0..=chance.below(3) {
            let at = body + chance.below(bytes.len() - body);
            bytes[at] = chance.word() as u8;
        }
        match MOST.measure(&bytes) {
            Ok(extent) => {
                accepted += 1;
                assert_eq!(extent.length, bytes.len());
            }
            Err(refusal) => {
                refused[usize::from(refusal.number())] += 1;
                let offset = refusal.offset().unwrap() as usize;
                if refusal.reason() == Reason::PayloadBad && offset != start {
                    assert!(offset > body && bytes[offset] >= 0x80, "{refusal} of {bytes:x?}");
                    texts += 1;
                } else {
                    assert_eq!(offset, start, "{refusal} of {bytes:x?}");
                }
            }
        }
    }
    assert!(accepted > 1000, "{accepted}");
    assert!([3, 4, 9, 10, 11, 12].iter().all(|&number| refused[number] > 0), "{refused:?}");
    assert!(texts > 10 && texts + 10 < refused[11], "{texts} of {refused:?}");
}

/// Words and text by chance: no panic, writing as sizing says, and looking into the table is always possible.
#[test]
fn tables_by_chance() {
    let mut chance = Chance(0x00af_5a17_9a6e_d004);
    let (mut accepted, mut refused, mut texts) = (0, [0u32; 16], 0);
    for round in 0..60_000 {
        let table = if round % 3 == 0 { chance.rows() } else { chance.table() };
        let table = chance.damaged(table);
        let shown = format!("{table} {table:?}");
        assert!(!shown.is_empty());
        match MOST.bytes_of(&table) {
            Ok(bytes) => {
                accepted += 1;
                assert!(table.values().is_ok());
                assert_eq!(MOST.table_of(&bytes), Ok((table, bytes.len())));
            }
            Err(refusal) => {
                refused[usize::from(refusal.number())] += 1;
                if let Some(byte) = refusal.text_byte() {
                    let row = table.row_of_text_byte(byte).unwrap();
                    assert_eq!(row.value().err(), Some(refusal), "{table:?}");
                    texts += 1;
                } else {
                    assert!(refusal.row().is_some_and(|row| row <= table.len() as u64));
                }
            }
        }
    }
    assert!(accepted > 1000, "{accepted}");
    assert!([1, 2, 4, 5, 6].iter().all(|&number| refused[number] > 10), "{refused:?}");
    assert!(texts > 10 && texts + 10 < refused[6], "{texts} of {refused:?}");
}
