//! What is wrong with a value that is refused, and what of it is good.

use std::fmt::{self, Write as _};
use std::io::{self, Write};

use afsungar::{Kind, Refusal, Table, LEVELS_MOST};

use crate::extents::{form, number, Layout};
use crate::tree::Tree;
use crate::walk::{walk, Place, Spot};

/// The bytes on a line of the dump.
const ACROSS: usize = 16;

/// The refusal of a value of the file.
pub struct Refused {
    pub number: u8,
    pub words: &'static str,
    /// The byte of the file that the library names.
    pub offset: usize,
    /// Where the value begins.
    pub start: usize,
    /// How many good values stand before it.
    pub index: usize,
}

impl Refused {
    /// The refusal of the value that begins at `start`, from where on the library has counted.
    pub fn new(refusal: &Refusal, start: usize, index: usize) -> Self {
        let offset = start + refusal.place() as usize;
        Refused { number: refusal.number(), words: refusal.words(), offset, start, index }
    }

    /// What is wrong, where, and the bytes around it. `inner` is where the innermost value begins that is refused.
    pub fn explain(&self, bytes: &[u8], inner: usize) -> Result<String, fmt::Error> {
        let mut out = String::new();
        writeln!(out, "show: refused at byte {}: {} ({})", self.offset, self.words, self.number)?;
        let before = match self.index {
            0 => "which is the first".to_string(),
            1 => "behind 1 good value".to_string(),
            many => format!("behind {many} good values"),
        };
        writeln!(out, "      in the value that begins at byte {}, {before}", self.start)?;
        if self.offset == inner && matches!(bytes.get(inner), Some(0xe0 | 0xf0)) {
            writeln!(out, "      it is the array there that is refused, or something in it")?;
        }
        if let Some(end) = stated_end(bytes, self.offset).filter(|end| self.number == 9 && *end > bytes.len()) {
            writeln!(out, "      it would end at byte {end}, and the input ends at byte {}", bytes.len())?;
        }
        self.dump(&mut out, bytes)?;
        Ok(out)
    }

    /// The line of bytes that has the faulty one, marked, with the lines before and behind it.
    fn dump(&self, out: &mut String, bytes: &[u8]) -> fmt::Result {
        let width = bytes.len().to_string().len().max(6);
        let marked = self.offset / ACROSS;
        for line in marked.saturating_sub(1)..=marked + 1 {
            let start = line * ACROSS;
            let shown = bytes.get(start..bytes.len().min(start + ACROSS)).unwrap_or_default();
            if shown.is_empty() && line != marked {
                continue;
            }
            write!(out, "{start:>width$} ")?;
            shown.iter().try_for_each(|byte| write!(out, " {byte:02x}"))?;
            out.push('\n');
            if line == marked {
                writeln!(out, "{:column$}^^", "", column = width + 2 + 3 * (self.offset - start))?;
            }
        }
        Ok(())
    }
}

/// Where the value at `at` would end, by the length or size that it has behind its code.
fn stated_end(bytes: &[u8], at: usize) -> Option<usize> {
    let width = match form(*bytes.get(at)?)?.1 {
        Layout::Sized(width) | Layout::Compound(width) | Layout::Array(width) => width,
        _ => return None,
    };
    let field = bytes.get(at + 1..at + 1 + width)?;
    Some(at + 1 + width + number(field, width))
}

/// The head of a list, map or described value.
pub struct Head {
    pub kind: Kind,
    pub count: usize,
    /// How long the value is, if its head says so and the bytes are there.
    pub length: Option<usize>,
    /// Where the children begin.
    body: usize,
    /// Where their room ends.
    end: usize,
}

/// The head of what begins at `at`, in a room that ends at `end`; none if it has no children with codes of their own, or if
/// the head itself is wrong. Of a value that is cut off the children that are there can be shown.
fn head(bytes: &[u8], at: usize, end: usize) -> Option<Head> {
    let behind = bytes.get(at + 1..end)?;
    let (kind, layout) = form(bytes[at])?;
    let width = match layout {
        Layout::Described => return Some(Head { kind, count: 2, length: None, body: at + 1, end }),
        Layout::Compound(width) if behind.len() >= 2 * width => width,
        _ => return None,
    };
    let (size, count) = (number(behind, width), number(&behind[width..], width));
    if size < width || kind == Kind::Map && count % 2 == 1 {
        return None;
    }
    let length = Some(1 + width + size).filter(|length| *length <= end - at);
    Some(Head { kind, count, length, body: at + 1 + 2 * width, end: length.map_or(end, |length| at + length) })
}

/// Prints the good parts of the value that begins at `start` and is refused, and gives where the innermost one begins that is
/// refused.
///
/// Each list, map and described value on the way to the fault is opened, and the library asked for its children in turn.
pub fn good_parts<W: Write>(tree: &mut Tree<W>, table: &mut Table, bytes: &[u8], start: usize) -> io::Result<usize> {
    let (mut spot, mut end) = (Spot::top(start), bytes.len());
    loop {
        let head = match head(bytes, spot.base, end) {
            Some(head) if (spot.depth as u64) < LEVELS_MOST => head,
            _ => return tree.refused(spot).map(|()| spot.base),
        };
        tree.opened(spot, &head)?;
        match good_children(tree, table, &bytes[..head.end], spot.depth, &head)? {
            Some(child) => (spot, end) = (child, head.end),
            None => return Ok(spot.base),
        }
    }
}

/// Prints the children up to the first that is refused, and gives its place; none if all are good.
fn good_children<W: Write>(
    tree: &mut Tree<W>,
    table: &mut Table,
    room: &[u8],
    depth: usize,
    head: &Head,
) -> io::Result<Option<Spot>> {
    let limit = LEVELS_MOST - (depth as u64 + 1);
    let mut base = head.body;
    for passed in 0..head.count {
        let spot = Spot { place: Place::below(head.kind, passed), first: passed == 0, depth: depth + 1, base };
        let Ok(extent) = table.read_from_within(limit, &room[base..]) else {
            return Ok(Some(spot));
        };
        walk(tree, spot, table, &room[base..])?;
        base += extent.length;
    }
    Ok(None)
}
