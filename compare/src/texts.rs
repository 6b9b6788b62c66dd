//! Bad texts: where the first fault of a text is (docs/FORMAT.md, 4.6), what sort it is of, and tables that are spoiled by one.

use crate::{
    random::Random,
    table::{Kind, Rows, Table},
};

/// The first fault of a text of a kind, if it has one: there its longest good front ends.
pub fn fault(kind: Kind, text: &[u8]) -> Option<usize> {
    match kind {
        Kind::String => std::str::from_utf8(text).err().map(|error| error.valid_up_to()),
        Kind::Symbol => text.iter().position(|byte| !byte.is_ascii()),
        _ => None,
    }
}

/// A bad value: a text, or a boolean or char that is read.
#[derive(Clone, Copy)]
pub struct Bad {
    pub kind: Kind,
    /// How many arrays it stands in.
    pub arrays: u32,
    sort: usize,
    /// Bytes of its own text, and of the rows before it, that stand before the fault.
    good: usize,
    before: usize,
}

impl Bad {
    /// A text with its fault at that place.
    pub fn text(kind: Kind, text: &[u8], fault: usize, before: usize, arrays: u32) -> Self {
        Bad { kind, arrays, sort: sort(kind, &text[fault..]), good: fault, before }
    }

    /// A boolean or char.
    pub fn number(kind: Kind, arrays: u32) -> Self {
        Bad { kind, arrays, sort: if arrays == 0 { 0 } else { 1 }, good: 0, before: 0 }
    }
}

/// The sorts that are no strings, and those of strings that no sequence's length is part of.
const SORTS: [&str; 5] = [
    "a boolean or char in no array",
    "a boolean or char in an array",
    "a symbol with a byte above 7f",
    "a byte that begins no sequence",
    "a sequence that is overlong, a surrogate or above 10ffff",
];
/// The first of them that is a text.
const SYMBOL: usize = 2;
/// Of a sequence of 2, 3 and 4 bytes the first sort: cut off behind each byte but the last, then wrong in each but the first.
const OF_LENGTH: [usize; 5] = [0, 0, SORTS.len(), SORTS.len() + 2, SORTS.len() + 6];
const ALL_SORTS: usize = SORTS.len() + 12;

/// The sort of a fault, at which the rest of the text begins.
fn sort(kind: Kind, rest: &[u8]) -> usize {
    let length = match rest[0] {
        _ if kind == Kind::Symbol => return SYMBOL,
        0xc2..=0xdf => 2,
        0xe0..=0xef => 3,
        0xf0..=0xf4 => 4,
        _ => return SYMBOL + 1,
    };
    let right = 1 + rest[1..].iter().take(length - 1).take_while(|byte| (0x80..=0xbf).contains(*byte)).count();
    match right {
        _ if right == length => SYMBOL + 2,
        _ if right == rest.len() => OF_LENGTH[length] + right - 1,
        _ => OF_LENGTH[length] + length - 2 + right,
    }
}

fn sort_name(sort: usize) -> String {
    let Some(length) = (2..=4).rev().find(|&length| OF_LENGTH[length] <= sort) else { return SORTS[sort].into() };
    match sort - OF_LENGTH[length] {
        which if which < length - 1 => format!("a sequence of {length}, cut off behind {}", which + 1),
        which => format!("a sequence of {length}, wrong in byte {}", which - length + 3),
    }
}

/// Words for a spot, and whether a bad text stands there.
type Spot = (&'static str, fn(&Bad) -> bool);

/// Where a bad text stands.
const SPOTS: [Spot; 6] = [
    ("a text in no array", |bad| bad.arrays == 0),
    ("a text in one array", |bad| bad.arrays == 1),
    ("a text in arrays in one another, with lists or maps between them or not", |bad| bad.arrays > 1),
    ("a text that begins well", |bad| bad.good > 0),
    ("a text with 32 good bytes or more", |bad| bad.good >= 32),
    ("a text behind other text", |bad| bad.before > 0),
];

/// How often each sort came, and each place where a text may stand.
#[derive(Default)]
pub struct Tally {
    sorts: [u64; ALL_SORTS],
    spots: [u64; SPOTS.len()],
}

impl Tally {
    pub fn count(&mut self, bad: &Bad) {
        self.sorts[bad.sort] += 1;
        if bad.sort >= SYMBOL {
            self.spots.iter_mut().zip(SPOTS).for_each(|(count, (_, is_there))| *count += is_there(bad) as u64);
        }
    }

    /// Of texts alone.
    pub fn texts(&self) -> impl Iterator<Item = (String, u64)> + '_ {
        let sorts = self.sorts.iter().enumerate().skip(SYMBOL).map(|(sort, &count)| (sort_name(sort), count));
        sorts.chain(SPOTS.iter().zip(self.spots).map(|((what, _), count)| (what.to_string(), count)))
    }

    /// Of all that is bad.
    pub fn all(&self) -> impl Iterator<Item = (String, u64)> + '_ {
        self.sorts[..SYMBOL].iter().enumerate().map(|(sort, &count)| (sort_name(sort), count)).chain(self.texts())
    }
}

/// The rows of RFC 3629's table that have a second byte: the first byte's range, the second's, and the length.
const SEQUENCES: [(u8, u8, u8, u8, usize); 8] = [
    (0xc2, 0xdf, 0x80, 0xbf, 2),
    (0xe0, 0xe0, 0xa0, 0xbf, 3),
    (0xe1, 0xec, 0x80, 0xbf, 3),
    (0xed, 0xed, 0x80, 0x9f, 3),
    (0xee, 0xef, 0x80, 0xbf, 3),
    (0xf0, 0xf0, 0x90, 0xbf, 4),
    (0xf1, 0xf3, 0x80, 0xbf, 4),
    (0xf4, 0xf4, 0x80, 0x8f, 4),
];

/// A sequence that is cut off or has a wrong byte, or a byte that begins none.
fn spoiled(random: &mut Random) -> Vec<u8> {
    let (first, last, low, high, length) = random.of(&SEQUENCES);
    let mut bytes = vec![random.within(first as usize, last as usize) as u8, random.within(low as usize, high as usize) as u8];
    bytes.extend((2..length).map(|_| 0x80 | random.byte() & 0x3f));
    let at = random.within(1, length - 1);
    let (low, high) = if at == 1 { (low, high) } else { (0x80, 0xbf) };
    match random.below(6) {
        0 => return vec![random.of(&[0x80, 0xbf, 0xc0, 0xc1, 0xf5, 0xff]) | random.below(2) as u8],
        1 | 2 => bytes.truncate(at),
        3 => bytes[at] = random.byte() & 0x7f,
        _ => bytes[at] = random.of(&[low - 1, high + 1]),
    }
    bytes
}

/// Puts a fault into one of a good table's strings and symbols, or into one that has a fault already. False where there are none.
pub fn spoil(table: &mut Table, random: &mut Random) -> bool {
    let mut to = 0;
    let texts = Rows::of(table).enumerate().filter_map(|(row, each)| {
        let from = to;
        to += each.text.len();
        matches!(each.kind, Kind::String | Kind::Symbol).then_some((row, each.kind, from, to))
    });
    // mostly strings: of symbols there are more, since they are descriptors
    let (strings, symbols): (Vec<_>, Vec<_>) = texts.partition(|(_, kind, ..)| *kind == Kind::String);
    let chosen = if symbols.is_empty() || !strings.is_empty() && !random.once_in(4) { strings } else { symbols };
    if chosen.is_empty() {
        return false;
    }
    let (row, kind, from, to) = random.of(&chosen);
    // at the start, at the end, or somewhere between, where no sequence is torn apart
    let between = random.within(from, to);
    let mut at = random.of(&[from, to, to, between]);
    while at < to && (0x80..=0xbf).contains(&table.text[at]) {
        at += 1;
    }
    let letters = if random.once_in(3) { random.of(&[1, 8, 15, 16, 17, 31, 32, 33, 100]) } else { 0 };
    let bad = if kind == Kind::Symbol { vec![0x80 | random.byte()] } else { spoiled(random) };
    table.words[2 * row + 1] += (letters + bad.len()) as u64;
    table.text.splice(at..at, std::iter::repeat(b'x').take(letters).chain(bad));
    true
}
