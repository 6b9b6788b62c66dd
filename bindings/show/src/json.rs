//! Values as JSON, an object on a line for each.

use std::fmt::{self, Write as _};
use std::io::{self, Write};

use afsungar::{Kind, Row, Value};

use crate::extents::Part;
use crate::refused::Refused;
use crate::text::{hex, is_invisible, number};
use crate::walk::{Place, Print, Spot};

pub struct Json<W> {
    out: W,
    object: String,
}

impl<W: Write> Json<W> {
    pub fn new(out: W) -> Self {
        Json { out, object: String::new() }
    }

    /// The last line, where a value is refused.
    pub fn refused(&mut self, refused: &Refused) -> io::Result<()> {
        self.object.clear();
        string(&mut self.object, refused.words).map_err(io::Error::other)?;
        let Refused { number, offset, index, .. } = refused;
        let words = &self.object;
        writeln!(
            self.out,
            "{{\"refused\":{{\"number\":{number},\"words\":{words},\"offset\":{offset},\"value\":{index}}}}}"
        )
    }

    pub fn finish(mut self) -> io::Result<()> {
        self.out.flush()
    }
}

/// A string of JSON. What cannot be seen is escaped as well as what has to be.
fn string(out: &mut String, text: &str) -> fmt::Result {
    out.push('"');
    for c in text.chars() {
        match c {
            '"' | '\\' => out.extend(['\\', c]),
            '\n' => out.push_str("\\n"),
            '\r' => out.push_str("\\r"),
            '\t' => out.push_str("\\t"),
            c if c.is_control() || is_invisible(c) => {
                c.encode_utf16(&mut [0; 2]).iter().try_for_each(|unit| write!(out, "\\u{unit:04x}"))?
            }
            c => out.push(c),
        }
    }
    out.push('"');
    Ok(())
}

/// A floating point number, and its bits. JSON has no number for those that are not finite.
fn float(out: &mut String, value: f64, shortest: &dyn fmt::Debug, bits: &dyn fmt::Display) -> fmt::Result {
    out.push_str(",\"value\":");
    match value {
        _ if value.is_nan() => out.push_str("\"NaN\""),
        f64::INFINITY => out.push_str("\"Infinity\""),
        f64::NEG_INFINITY => out.push_str("\"-Infinity\""),
        _ => write!(out, "{shortest:?}")?,
    }
    write!(out, ",\"bits\":\"{bits}\"")
}

fn bytes(out: &mut String, name: &str, bytes: &[u8]) -> fmt::Result {
    write!(out, ",\"{name}\":\"")?;
    hex(out, bytes)?;
    out.push('"');
    Ok(())
}

fn text(out: &mut String, text: &str) -> fmt::Result {
    out.push_str(",\"value\":");
    string(out, text)
}

/// What a value holds; for one with children, up to where they stand. 64-bit numbers are strings, for readers that would round.
fn content(out: &mut String, value: &Value<'_>) -> fmt::Result {
    match *value {
        Value::Null => write!(out, ",\"value\":null"),
        Value::Boolean(value) => write!(out, ",\"value\":{value}"),
        Value::Ubyte(value) => write!(out, ",\"value\":{value}"),
        Value::Byte(value) => write!(out, ",\"value\":{value}"),
        Value::Ushort(value) => write!(out, ",\"value\":{value}"),
        Value::Short(value) => write!(out, ",\"value\":{value}"),
        Value::Uint(value) => write!(out, ",\"value\":{value}"),
        Value::Int(value) => write!(out, ",\"value\":{value}"),
        Value::Ulong(value) => write!(out, ",\"value\":\"{value}\""),
        Value::Long(value) => write!(out, ",\"value\":\"{value}\""),
        Value::Timestamp(time) => write!(out, ",\"value\":\"{}\",\"date\":\"{time}\"", time.0),
        Value::Float(value) => float(out, value.into(), &value, &format_args!("{:08x}", value.to_bits())),
        Value::Double(value) => float(out, value, &value, &format_args!("{:016x}", value.to_bits())),
        Value::Decimal32(bits) => write!(out, ",\"bits\":\"{bits:08x}\""),
        Value::Decimal64(bits) => write!(out, ",\"bits\":\"{bits:016x}\""),
        Value::Decimal128(bits) => bytes(out, "bits", &bits),
        Value::Char(value) => text(out, value.encode_utf8(&mut [0; 4])),
        Value::Uuid(uuid) => write!(out, ",\"value\":\"{uuid}\""),
        Value::Binary(value) => bytes(out, "value", value),
        Value::String(value) | Value::Symbol(value) => text(out, value),
        Value::Described => Ok(()),
        Value::List(_) => out.write_str(",\"children\":["),
        Value::Map(_) => out.write_str(",\"entries\":["),
        Value::Array { element: Some(kind), .. } => write!(out, ",\"element\":\"{kind}\",\"elements\":["),
        Value::Array { element: None, .. } => out.write_str(",\"element\":null,\"elements\":["),
    }
}

/// What stands before a part.
fn before(spot: Spot) -> &'static str {
    match (spot.place, spot.first) {
        (Place::Top, _) | (Place::Child, true) => "",
        (Place::Child, false) => ",",
        (Place::Descriptor, _) => ",\"descriptor\":",
        (Place::Described | Place::Entry, _) => ",\"value\":",
        (Place::Key, true) => "{\"key\":",
        (Place::Key, false) => ",{\"key\":",
    }
}

impl<W: Write> Print for Json<W> {
    fn enter(&mut self, spot: Spot, row: &Row<'_>, part: &Part) -> io::Result<()> {
        let value = row.value()?;
        let object = &mut self.object;
        object.clear();
        object.push_str(before(spot));
        object.push_str("{\"offset\":");
        number(object, spot.base + part.offset, 1);
        object.push_str(",\"length\":");
        number(object, part.length, 1);
        object.extend([",\"kind\":\"", part.kind.name(), "\""]);
        content(object, &value).map_err(io::Error::other)?;
        self.out.write_all(object.as_bytes())
    }

    fn leave(&mut self, spot: Spot, kind: Kind) -> io::Result<()> {
        let end = if matches!(kind, Kind::List | Kind::Map | Kind::Array) { "]}" } else { "}" };
        let behind = match spot.place {
            Place::Top => "\n",
            Place::Entry => "}",
            _ => "",
        };
        self.out.write_all(end.as_bytes())?;
        self.out.write_all(behind.as_bytes())
    }
}
