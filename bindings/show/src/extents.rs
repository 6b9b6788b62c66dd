//! Where each part of a value stands in its bytes. A table has the parts in the same order, without their places.

use afsungar::Kind;

use self::Layout::{Array, Compound, Described, Plain, Sized};

/// A value or a part of one.
#[derive(Clone, Copy, Debug, PartialEq, Eq)]
pub struct Part {
    /// Where it begins: at its format code, or, as an array's element, at its payload.
    pub offset: usize,
    pub length: usize,
    pub kind: Kind,
}

/// What stands behind a format code (docs/FORMAT.md, 4.1). Widths are in bytes.
#[derive(Clone, Copy)]
pub enum Layout {
    /// So many bytes.
    Plain(usize),
    /// A length of this width, and so many bytes.
    Sized(usize),
    /// A size and a count of this width each, and so many values.
    Compound(usize),
    /// A size and a count of this width each, an element code and so many payloads.
    Array(usize),
    /// Two values.
    Described,
}

/// The 40 format codes.
const CODES: [(u8, Kind, Layout); 40] = [
    (0x00, Kind::Described, Described),
    (0x40, Kind::Null, Plain(0)),
    (0x41, Kind::Boolean, Plain(0)),
    (0x42, Kind::Boolean, Plain(0)),
    (0x43, Kind::Uint, Plain(0)),
    (0x44, Kind::Ulong, Plain(0)),
    (0x45, Kind::List, Plain(0)),
    (0x50, Kind::Ubyte, Plain(1)),
    (0x51, Kind::Byte, Plain(1)),
    (0x52, Kind::Uint, Plain(1)),
    (0x53, Kind::Ulong, Plain(1)),
    (0x54, Kind::Int, Plain(1)),
    (0x55, Kind::Long, Plain(1)),
    (0x56, Kind::Boolean, Plain(1)),
    (0x60, Kind::Ushort, Plain(2)),
    (0x61, Kind::Short, Plain(2)),
    (0x70, Kind::Uint, Plain(4)),
    (0x71, Kind::Int, Plain(4)),
    (0x72, Kind::Float, Plain(4)),
    (0x73, Kind::Char, Plain(4)),
    (0x74, Kind::Decimal32, Plain(4)),
    (0x80, Kind::Ulong, Plain(8)),
    (0x81, Kind::Long, Plain(8)),
    (0x82, Kind::Double, Plain(8)),
    (0x83, Kind::Timestamp, Plain(8)),
    (0x84, Kind::Decimal64, Plain(8)),
    (0x94, Kind::Decimal128, Plain(16)),
    (0x98, Kind::Uuid, Plain(16)),
    (0xa0, Kind::Binary, Sized(1)),
    (0xa1, Kind::String, Sized(1)),
    (0xa3, Kind::Symbol, Sized(1)),
    (0xb0, Kind::Binary, Sized(4)),
    (0xb1, Kind::String, Sized(4)),
    (0xb3, Kind::Symbol, Sized(4)),
    (0xc0, Kind::List, Compound(1)),
    (0xc1, Kind::Map, Compound(1)),
    (0xd0, Kind::List, Compound(4)),
    (0xd1, Kind::Map, Compound(4)),
    (0xe0, Kind::Array, Array(1)),
    (0xf0, Kind::Array, Array(4)),
];

/// The same by code.
const FORMS: [Option<(Kind, Layout)>; 256] = {
    let mut forms = [None; 256];
    let mut at = 0;
    while at < CODES.len() {
        let (code, kind, layout) = CODES[at];
        forms[code as usize] = Some((kind, layout));
        at += 1;
    }
    forms
};

/// The kind and the layout of a format code, if it is one of the 40.
pub fn form(code: u8) -> Option<(Kind, Layout)> {
    FORMS[usize::from(code)]
}

/// The big-endian number of this width at the front of the bytes.
pub fn number(bytes: &[u8], width: usize) -> usize {
    bytes[..width].iter().fold(0, |number, byte| number << 8 | usize::from(*byte))
}

/// What a value says behind its format code, which stands before `at`.
struct Head {
    /// Where its children begin, if it has any.
    body: usize,
    children: usize,
    /// The code of an array's elements.
    element: Option<u8>,
    end: usize,
}

fn head(bytes: &[u8], at: usize, layout: Layout) -> Head {
    let end = end_behind(bytes, at, layout);
    let parent = |body, children, element| Head { body, children, element, end };
    match layout {
        Plain(_) | Sized(_) => parent(end, 0, None),
        Compound(width) => parent(at + 2 * width, number(&bytes[at + width..], width), None),
        Array(width) => {
            let (code, count) = (at + 2 * width, number(&bytes[at + width..], width));
            // An empty array may have no element code.
            let element = (code < end).then(|| bytes[code]);
            parent(code + usize::from(element.is_some()), count, element)
        }
        Described => parent(at, 2, None),
    }
}

/// Where a value ends whose format code stands before `at`.
fn end_behind(bytes: &[u8], at: usize, layout: Layout) -> usize {
    match layout {
        Plain(width) => at + width,
        Sized(width) | Compound(width) | Array(width) => at + width + number(&bytes[at..], width),
        Described => end_of(bytes, at, 2),
    }
}

/// Where so many values end that stand end to end. What they are made of is passed over, but for described values.
fn end_of(bytes: &[u8], mut at: usize, mut left: usize) -> usize {
    while left > 0 {
        left -= 1;
        let (_, layout) = taken(bytes[at]);
        at += 1;
        match layout {
            Described => left += 2,
            _ => at = end_behind(bytes, at, layout),
        }
    }
    at
}

fn taken(code: u8) -> (Kind, Layout) {
    form(code).expect("the library takes no other code")
}

/// A value whose children are still to come.
struct Open {
    left: usize,
    /// The code of an array's elements.
    element: Option<u8>,
}

/// The parts of the value at the front of the bytes, itself first, each before what is below it.
///
/// The library has to have taken the value: nothing is checked here.
pub struct Parts<'a> {
    bytes: &'a [u8],
    at: usize,
    open: Vec<Open>,
}

impl<'a> Parts<'a> {
    pub fn of(bytes: &'a [u8]) -> Self {
        Parts { bytes, at: 0, open: vec![Open { left: 1, element: None }] }
    }
}

impl Iterator for Parts<'_> {
    type Item = Part;

    fn next(&mut self) -> Option<Part> {
        while self.open.last()?.left == 0 {
            self.open.pop();
        }
        let parent = self.open.last_mut()?;
        parent.left -= 1;
        let offset = self.at;
        // An element has its array's code, any other value its own.
        let (code, behind) = match parent.element {
            Some(code) => (code, offset),
            None => (self.bytes[offset], offset + 1),
        };
        let (kind, layout) = taken(code);
        let head = head(self.bytes, behind, layout);
        self.at = head.body;
        if head.children > 0 {
            self.open.push(Open { left: head.children, element: head.element });
        }
        Some(Part { offset, length: head.end - offset, kind })
    }
}

#[cfg(test)]
mod tests {
    use std::fs;

    use afsungar::{measure_within, Table, LEVELS_MOST};

    use super::*;

    /// The bytes of a field of the stored cases: hex digits, `,` between runs, and `*N` behind a last byte that stands N times.
    fn bytes_of(field: &str) -> Vec<u8> {
        let mut bytes = Vec::new();
        for run in field.split(',').filter(|run| *run != "-") {
            let (digits, times) = run.split_once('*').unwrap_or((run, "1"));
            bytes.extend((0..digits.len()).step_by(2).map(|at| u8::from_str_radix(&digits[at..at + 2], 16).unwrap()));
            let last = *bytes.last().unwrap();
            bytes.resize(bytes.len() + times.parse::<usize>().unwrap() - 1, last);
        }
        bytes
    }

    #[test]
    fn parts_agree_with_the_library() {
        let mut good = 0;
        for name in ["read.txt", "own_read.txt"] {
            let path = format!("{}/../../crates/vectors/data/{name}", env!("CARGO_MANIFEST_DIR"));
            for line in fs::read_to_string(&path).unwrap().lines().filter(|line| !line.starts_with('#')) {
                let Some(field) = line.split(' ').nth(1) else { continue };
                let bytes = bytes_of(field);
                let Ok(extent) = measure_within(LEVELS_MOST, &bytes) else { continue };
                let (table, length) = Table::from_prefix_within(LEVELS_MOST, &bytes).unwrap();
                let parts: Vec<Part> = Parts::of(&bytes).collect();
                assert_eq!((parts.len(), parts[0].length), (extent.rows, length), "{line}");
                assert!(table.rows().map(|row| row.kind()).eq(parts.iter().map(|part| Some(part.kind))), "{line}");
                good += 1;
            }
        }
        assert!(good > 500, "{good} good cases");
    }

    #[test]
    fn a_code_has_the_kind_that_the_library_reads() {
        for code in 0..=255u8 {
            // Enough for the head of every form; 1s would be sizes that are not borne out.
            let mut bytes = [0; 40];
            bytes[0] = code;
            match code {
                0x00 => bytes[1..3].fill(0x40),
                0xc0 | 0xc1 | 0xe0 => bytes[1] = 1,
                0xd0 | 0xd1 | 0xf0 => bytes[4] = 4,
                _ => {}
            }
            let read = Table::from_prefix(&bytes).ok();
            let kind = read.as_ref().and_then(|(table, _)| table.root()?.kind());
            assert_eq!(form(code).map(|(kind, _)| kind), kind, "{code:02x}");
            if let Some((_, length)) = read {
                assert_eq!(Parts::of(&bytes).next().map(|part| part.length), Some(length), "{code:02x}");
            }
        }
    }
}
