//! Tables to take the time of.

use crate::{
    random::Random,
    table::{Kind, Table},
};

pub const ROWS: usize = 60_000;

pub struct Shape {
    pub name: String,
    pub table: Table,
}

impl Shape {
    fn new(name: impl Into<String>, table: Table) -> Self {
        Shape { name: name.into(), table }
    }
}

/// The shapes of the table of times.
pub fn all() -> Vec<Shape> {
    vec![
        Shape::new("flat, small values of mixed kinds in turn", flat(|i| i)),
        Shape::new("flat, small values of mixed kinds at random", {
            let mut random = Random::new(7);
            flat(move |_| random.below(1 << 20))
        }),
        Shape::new("balanced tree of lists", balanced(14)),
        Shape::new("chains of 13 lists around a leaf", chains(13)),
        Shape::new("balanced tree of lists", balanced(28)),
        Shape::new("chains of 27 lists around a leaf", chains(27)),
        Shape::new(format!("a message of {} rows", message().rows()), message()),
        Shape::new("small arrays of ubytes, uints and symbols in turn", small_arrays()),
        Shape::new("20,000 pairs as a list of lists", pairs(Kind::List)),
        Shape::new("20,000 pairs as an array of lists", pairs(Kind::Array)),
        Shape::new("an array of chains of 13 arrays", array_chains(13, &[Kind::Array])),
        Shape::new("an array of chains of 27 arrays", array_chains(27, &[Kind::Array])),
        Shape::new("an array of chains of 13 lists and arrays in turn", array_chains(13, &[Kind::List, Kind::Array])),
        Shape::new("an array of chains of 27 lists and arrays in turn", array_chains(27, &[Kind::List, Kind::Array])),
    ]
}

/// The balanced trees and the chains of lists, by their places among all.
pub const TREES: [usize; 4] = [2, 3, 4, 5];

/// Pairs of shapes whose times are held to each other: what it says, the first's place among all, the second's.
pub const RATIOS: [(&str, usize, usize); 5] = [
    ("20,000 pairs: array of lists / list of lists", 9, 8),
    ("depth doubled: balanced tree of lists", 4, 2),
    ("depth doubled: chains of lists", 5, 3),
    ("depth doubled: chains of arrays in an array", 11, 10),
    ("depth doubled: chains of lists and arrays in an array", 13, 12),
];

/// A list of small values; `pick` says which comes at a place.
fn flat(mut pick: impl FnMut(usize) -> usize) -> Table {
    let mut table = Table::default();
    table.row(Kind::List, ROWS as u64 - 1);
    for i in 1..ROWS {
        leaf(&mut table, pick(i));
    }
    table
}

fn leaf(table: &mut Table, which: usize) {
    let small = (which / 10 % 100) as u64;
    match which % 10 {
        0 => table.row(Kind::Null, 0),
        1 => table.row(Kind::Boolean, small % 2),
        2 => table.row(Kind::Ubyte, small),
        3 => table.row(Kind::Uint, small),
        4 => table.row(Kind::Int, small),
        5 => table.row(Kind::Ulong, small),
        6 => table.row(Kind::Long, 1_000 * small),
        7 => table.row(Kind::Double, (small as f64).to_bits()),
        8 => table.worded(Kind::String, b"M4x12"),
        _ => table.worded(Kind::Symbol, b"left"),
    };
}

/// A list of chains, each so many lists, one in the other, around a leaf.
pub fn chains(lists: usize) -> Table {
    let mut table = Table::default();
    let count = (ROWS - 1) / (lists + 1);
    table.row(Kind::List, count as u64);
    for i in 0..count {
        for _ in 0..lists {
            table.row(Kind::List, 1);
        }
        table.row(Kind::Uint, i as u64 % 200);
    }
    table
}

/// A list of arrays of three, whose elements have no children.
fn small_arrays() -> Table {
    let mut table = Table::default();
    let count = (ROWS - 1) / 4;
    table.row(Kind::List, count as u64);
    for i in 0..count {
        table.array([Kind::Ubyte, Kind::Uint, Kind::Symbol][i % 3], 3);
        for j in 0..3 {
            match i % 3 {
                0 => table.row(Kind::Ubyte, j),
                1 => table.row(Kind::Uint, 100 * j),
                _ => table.worded(Kind::Symbol, b"left"),
            };
        }
    }
    table
}

/// A list or an array of 20,000 lists of two small numbers.
fn pairs(kind: Kind) -> Table {
    const PAIRS: u64 = 20_000;
    let mut table = Table::default();
    table.compound(kind, PAIRS, Kind::List);
    for i in 0..PAIRS {
        table.row(Kind::List, 2).row(Kind::Uint, i % 200).row(Kind::Uint, i % 1_000);
    }
    table
}

/// An array of chains, each so many compounds of those kinds in turn, one in the other, around a leaf.
fn array_chains(length: usize, kinds: &[Kind]) -> Table {
    let mut table = Table::default();
    let count = (ROWS - 1) / (length + 1);
    let kind = |level: usize| if level < length { kinds[level % kinds.len()] } else { Kind::Uint };
    table.array(kind(0), count as u64);
    for i in 0..count {
        for level in 0..length {
            table.compound(kind(level), 1, kind(level + 1));
        }
        table.row(Kind::Uint, i as u64 % 200);
    }
    table
}

/// A tree of lists in which every leaf stands at about the same depth and no list has many more children than another.
fn balanced(depth: u32) -> Table {
    let mut table = Table::default();
    grow(&mut table, ROWS, depth);
    table
}

/// A value of so many rows and levels.
fn grow(table: &mut Table, rows: usize, levels: u32) {
    if rows == 1 || levels == 1 {
        table.row(Kind::Uint, rows as u64 % 200);
        return;
    }
    let below = rows - 1;
    let count = (below as f64).powf(1.0 / (levels as f64 - 1.0)).round().max(1.0) as usize;
    let count = if levels == 2 { below } else { count.min(below) };
    table.row(Kind::List, count as u64);
    for i in 0..count {
        grow(table, below / count + (i < below % count) as usize, levels - 1);
    }
}

/// An order as it is passed between machines: a described list with texts, numbers and a map.
fn message() -> Table {
    let mut table = Table::default();
    table.row(Kind::Described, 2).worded(Kind::Symbol, b"afsungar:order:list");
    table.row(Kind::List, 8);
    table.row(Kind::Ulong, 4_711).row(Kind::Timestamp, 1_763_164_800_000);
    table.worded(Kind::String, "Ø1.2".as_bytes()).row(Kind::Boolean, 1);
    table.sixteen(Kind::Uuid, b"0123456789abcdef").row(Kind::Double, 1.25f64.to_bits());
    table.row(Kind::Map, 4);
    table.worded(Kind::Symbol, b"left").row(Kind::Uint, 2).worded(Kind::Symbol, b"right").row(Kind::Uint, 1);
    table.row(Kind::List, 2);
    table.row(Kind::List, 3).worded(Kind::String, b"ear-shell").row(Kind::Int, 12).row(Kind::Null, 0);
    table.row(Kind::List, 2).worded(Kind::Binary, b"\x01\x02\x03\x04").row(Kind::Ushort, 1_000);
    table
}
