//! Values as a tree, a line for each part.

use std::fmt::{self, Write as _};
use std::io::{self, Write};
use std::iter::repeat;
use std::ops::Range;

use afsungar::{Kind, Row, Value};

use crate::extents::Part;
use crate::refused::Head;
use crate::text;
use crate::walk::{Place, Print, Spot};

const PLAIN: &str = "\x1b[0m";
const DIM: &str = "\x1b[2m";
const RED: &str = "\x1b[31m";
const GREEN: &str = "\x1b[32m";
const CYAN: &str = "\x1b[36m";

pub struct Tree<W> {
    out: W,
    colour: bool,
    full: bool,
    /// How wide the columns of offsets and lengths are.
    width: usize,
    begun: bool,
    line: String,
    /// A key that is to stand on one line with its value, and which bytes it has.
    key: String,
    key_bytes: Option<Range<usize>>,
}

impl<W: Write> Tree<W> {
    pub fn new(out: W, colour: bool, full: bool, file_length: usize) -> Self {
        let width = file_length.to_string().len().max("offset".len());
        Tree { out, colour, full, width, begun: false, line: String::new(), key: String::new(), key_bytes: None }
    }

    /// A list, map or described value that is opened because something in it is refused.
    pub fn opened(&mut self, spot: Spot, head: &Head) -> io::Result<()> {
        let value = match head.kind {
            Kind::Map => Value::Map(head.count),
            Kind::List => Value::List(head.count),
            _ => Value::Described,
        };
        let mut line = self.begin(spot, spot.base, head.length)?;
        self.value(&mut line, &value)
            .and_then(|()| line.write_str(", "))
            .and_then(|()| self.painted(&mut line, RED, |line| line.write_str("refused")))
            .map_err(io::Error::other)?;
        self.end(line)
    }

    /// A value that is refused and cannot be opened.
    pub fn refused(&mut self, spot: Spot) -> io::Result<()> {
        let mut line = self.begin(spot, spot.base, None)?;
        self.painted(&mut line, RED, |line| line.write_str("refused")).map_err(io::Error::other)?;
        self.end(line)
    }

    pub fn finish(mut self) -> io::Result<()> {
        self.out.flush()
    }

    /// A line up to its value: offset and length, and what the part is to its parent.
    fn begin(&mut self, spot: Spot, offset: usize, length: Option<usize>) -> io::Result<String> {
        if !self.begun {
            self.begun = true;
            let (width, dim, plain) = (self.width, self.ink(DIM), self.ink(PLAIN));
            writeln!(self.out, "{dim}{:>width$} {:>width$}{plain}", "offset", "length")?;
        }
        // An entry begins where its key does.
        let key = if spot.place == Place::Entry { self.key_bytes.take() } else { None };
        let (offset, before) = key.as_ref().map_or((offset, 0), |key| (key.start, key.len()));
        let mut line = std::mem::take(&mut self.line);
        line.clear();
        line.push_str(self.ink(DIM));
        text::number(&mut line, offset, self.width);
        line.push(' ');
        match length {
            Some(length) => text::number(&mut line, length + before, self.width),
            None => line.extend(repeat(' ').take(self.width)),
        }
        line.push_str(self.ink(PLAIN));
        (0..=spot.depth).for_each(|_| line.push_str("  "));
        match spot.place {
            Place::Descriptor => line.push_str("descriptor: "),
            Place::Key => line.push_str("key: "),
            Place::Entry if key.is_some() => line.extend([&self.key, ": "]),
            Place::Entry => line.push_str("value: "),
            _ => {}
        }
        Ok(line)
    }

    fn end(&mut self, mut line: String) -> io::Result<()> {
        line.push('\n');
        self.out.write_all(line.as_bytes())?;
        self.line = line;
        Ok(())
    }

    /// What turns a terminal to this colour, if there is to be any.
    fn ink(&self, colour: &'static str) -> &'static str {
        if self.colour {
            colour
        } else {
            ""
        }
    }

    fn painted(
        &self,
        line: &mut String,
        colour: &'static str,
        put: impl FnOnce(&mut String) -> fmt::Result,
    ) -> fmt::Result {
        line.push_str(self.ink(colour));
        put(line)?;
        line.push_str(self.ink(PLAIN));
        Ok(())
    }

    /// The name of the kind, and what the value holds.
    fn value(&self, line: &mut String, value: &Value<'_>) -> fmt::Result {
        self.painted(line, CYAN, |line| line.write_str(value.kind().name()))?;
        match *value {
            Value::Described | Value::Null => Ok(()),
            Value::List(count) => write!(line, " of {count}"),
            Value::Map(2) => line.write_str(" of 1 entry"),
            Value::Map(count) => write!(line, " of {} entries", count / 2),
            Value::Array { count, element } => elements(line, count, element),
            _ => {
                line.push(' ');
                self.painted(line, GREEN, |line| scalar(line, value, self.full))
            }
        }
    }
}

fn elements(line: &mut String, count: usize, element: Option<Kind>) -> fmt::Result {
    match (element, count) {
        (None, _) => write!(line, " of {count}, of no told kind"),
        (Some(kind), 1) => write!(line, " of 1 {kind}"),
        (Some(Kind::Binary), _) => write!(line, " of {count} binaries"),
        (Some(kind), _) => write!(line, " of {count} {kind}s"),
    }
}

fn scalar(line: &mut String, value: &Value<'_>, full: bool) -> fmt::Result {
    match *value {
        Value::Boolean(value) => write!(line, "{value}"),
        Value::Ubyte(value) => write!(line, "{value}"),
        Value::Byte(value) => write!(line, "{value}"),
        Value::Ushort(value) => write!(line, "{value}"),
        Value::Short(value) => write!(line, "{value}"),
        Value::Uint(value) => write!(line, "{value}"),
        Value::Int(value) => write!(line, "{value}"),
        Value::Ulong(value) => write!(line, "{value}"),
        Value::Long(value) => write!(line, "{value}"),
        Value::Float(value) if value.is_nan() => write!(line, "NaN (0x{:08x})", value.to_bits()),
        Value::Float(value) => write!(line, "{value:?}"),
        Value::Double(value) if value.is_nan() => write!(line, "NaN (0x{:016x})", value.to_bits()),
        Value::Double(value) => write!(line, "{value:?}"),
        Value::Decimal32(bits) => write!(line, "0x{bits:08x}"),
        Value::Decimal64(bits) => write!(line, "0x{bits:016x}"),
        Value::Decimal128(bytes) => line.write_str("0x").and_then(|()| text::hex(line, &bytes)),
        Value::Char(value) => text::character(line, value),
        Value::Timestamp(time) => write!(line, "{} ({time})", time.0),
        Value::Uuid(uuid) => write!(line, "{uuid}"),
        Value::Binary(bytes) => text::binary(line, bytes, full),
        Value::String(value) | Value::Symbol(value) => text::text(line, value, full),
        _ => Ok(()),
    }
}

impl<W: Write> Print for Tree<W> {
    fn enter(&mut self, spot: Spot, row: &Row<'_>, part: &Part) -> io::Result<()> {
        let value = row.value()?;
        let offset = spot.base + part.offset;
        if spot.place == Place::Key && row.count() == 0 {
            let mut key = std::mem::take(&mut self.key);
            key.clear();
            self.value(&mut key, &value).map_err(io::Error::other)?;
            self.key = key;
            self.key_bytes = Some(offset..offset + part.length);
            return Ok(());
        }
        let mut line = self.begin(spot, offset, Some(part.length))?;
        self.value(&mut line, &value).map_err(io::Error::other)?;
        self.end(line)
    }

    fn leave(&mut self, _: Spot, _: Kind) -> io::Result<()> {
        Ok(())
    }
}
