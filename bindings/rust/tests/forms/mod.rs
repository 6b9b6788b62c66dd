//! Each call in its two forms: the plain one, and the one that names its level limit. All calls of a form have to agree.
#![allow(dead_code)] // No test takes all of it.
use std::fmt::Debug;

use afsungar::*;

/// Limits that may not be named. Cut down to 32 bits or fewer, some would be 16.
pub const OUTSIDE: [u64; 6] = [0, 33, 256 + 16, (1 << 32) + 16, 1 << 63, u64::MAX];

/// What lent bytes and words hold before a call.
pub const BYTE: u8 = 0xaa;
pub const WORD: u64 = 0xaaaa;

/// A call that names no level limit, or one that names this.
#[derive(Clone, Copy, Debug, PartialEq, Eq)]
pub enum Form {
    Plain,
    Within(u64),
}

/// All forms whose limit is this: with 16 both, else one.
pub fn forms(limit: u64) -> Vec<Form> {
    let plain = (limit == 16).then_some(Form::Plain);
    plain.into_iter().chain([Form::Within(limit)]).collect()
}

/// What is answered within 32 levels, and the least limit within which no value is too deep, if there is one.
///
/// From that limit on all answers have to be the same, and below it a value is too deep. A limit that may not be named has to
/// be refused.
pub fn within_each<T: PartialEq + Debug>(
    answer: impl Fn(Form) -> Result<T, Refusal>,
) -> (Result<T, Refusal>, Option<u64>) {
    let highest = answer(Form::Within(32));
    let mut enough = None;
    for form in (1..=32).flat_map(forms) {
        let found = answer(form);
        let too_deep = found.as_ref().is_err_and(|refusal| refusal.reason() == Reason::TooDeep);
        assert!(found == highest || too_deep && enough.is_none(), "{form:?}: {found:?} and {highest:?}");
        if !too_deep {
            enough = enough.or(Some(form.limit()));
        }
    }
    for limit in OUTSIDE {
        let outside = answer(Form::Within(limit)).map_err(|refusal| (refusal.reason(), refusal.place()));
        assert_eq!(outside, Err((Reason::LimitOutside, 0)), "{limit}");
    }
    (highest, enough)
}

/// The faulty byte of the first bad text, if all text is there up to its row's end.
fn bad_text(words: &[u64], text: &[u8]) -> Option<u64> {
    let mut start = 0;
    for row in words.chunks_exact(2) {
        let length = match row[0] {
            0x94 | 0x98 => 16,
            0xb0 | 0xb1 | 0xb3 => row[1] as usize,
            _ => 0,
        };
        let part = text[start..].get(..length)?;
        let fault = match row[0] {
            0xb1 => std::str::from_utf8(part).err().map(|error| error.valid_up_to()),
            0xb3 => part.iter().position(|&byte| byte >= 0x80),
            _ => None,
        };
        if let Some(fault) = fault {
            return Some((start + fault) as u64);
        }
        start += length;
    }
    None
}

impl Form {
    pub fn limit(self) -> u64 {
        match self {
            Form::Plain => 16,
            Form::Within(limit) => limit,
        }
    }

    /// Whether the limit may be named.
    pub fn is_in_force(self) -> bool {
        (1..=32).contains(&self.limit())
    }

    pub fn size(self, words: &[u64], text: &[u8]) -> Result<usize, Refusal> {
        let length = match self {
            Form::Plain => size(words, text),
            Form::Within(limit) => size_within(limit, words, text),
        };
        // A 6 has to say whether its place is a row or a byte of the text.
        if let Some(refusal) = length.err().filter(|refusal| refusal.reason() == Reason::TextAmiss) {
            let due =
                bad_text(words, text).map_or(Refusal::writing(Reason::TextAmiss, refusal.place()), Refusal::bad_text);
            assert_eq!(refusal, due, "{words:x?} {text:x?}");
        }
        length
    }

    pub fn write(self, words: &[u64], text: &[u8], out: &mut [u8]) -> Result<usize, Refusal> {
        match self {
            Form::Plain => write(words, text, out),
            Form::Within(limit) => write_within(limit, words, text, out),
        }
    }

    pub fn measure(self, bytes: &[u8]) -> Result<Extent, Refusal> {
        let measured = |bytes: &[u8]| match self {
            Form::Plain => measure(bytes),
            Form::Within(limit) => measure_within(limit, bytes),
        };
        let extent = measured(bytes);
        // The place of an 11 is the code of a boolean, a char or an array, or it is a byte of a text. 0x46 tells which: it is good in
        // every text, and no code.
        if let Some(refusal) = extent.err().filter(|refusal| refusal.reason() == Reason::PayloadBad) {
            let at = refusal.place() as usize;
            let mended = [&bytes[..at], &[0x46], &bytes[at + 1..]].concat();
            match measured(&mended) {
                Err(no_code) if no_code == Refusal::reading(Reason::CodeUnknown, refusal.place()) => {
                    assert!([0x56, 0x73, 0xe0, 0xf0].contains(&bytes[at]), "{refusal} of {bytes:x?}");
                }
                other => assert!(bytes[at] >= 0x80 && other != extent, "{refusal} of {bytes:x?}"),
            }
        }
        extent
    }

    pub fn read(self, bytes: &[u8], words: &mut [u64], text: &mut [u8]) -> Result<Extent, Refusal> {
        match self {
            Form::Plain => read(bytes, words, text),
            Form::Within(limit) => read_within(limit, bytes, words, text),
        }
    }

    /// A walker that has passed so many bytes.
    pub fn walker(self, bytes: &[u8], at: usize) -> Walker<'_> {
        match (self, at) {
            (Form::Plain, 0) => Walker::new(bytes),
            (Form::Plain, at) => Walker::at(bytes, at),
            (Form::Within(limit), 0) => Walker::within(limit, bytes),
            (Form::Within(limit), at) => Walker::at_within(limit, bytes, at),
        }
    }

    pub fn values(self, bytes: &[u8]) -> Values<'_> {
        match self {
            Form::Plain => values(bytes),
            Form::Within(limit) => values_within(limit, bytes),
        }
    }

    /// The bytes of a table, as all calls that size and write say. Lent memory has to be as it is due.
    pub fn bytes_of(self, table: &Table) -> Result<Vec<u8>, Refusal> {
        let (words, text) = (table.words(), table.text());
        let length = self.size(words, text);
        let mut out = vec![BYTE; length.unwrap_or(64) + 3];
        assert_eq!(self.write(words, text, &mut out), length);
        let mut same = vec![BYTE; out.len()];
        let (vec, bytes, again, sized) = match self {
            Form::Plain => (write_to_vec(words, text), table.to_bytes(), table.write_to(&mut same), table.size()),
            Form::Within(limit) => (
                write_to_vec_within(limit, words, text),
                table.to_bytes_within(limit),
                table.write_to_within(limit, &mut same),
                table.size_within(limit),
            ),
        };
        assert_eq!((again, sized), (length, length));
        assert!(out == same && vec == bytes, "{table:?}");
        let left = out.split_off(length.unwrap_or(0));
        assert!(left.iter().all(|&byte| byte == BYTE), "{table:?}");
        assert!(bytes == length.map(|_| out), "{table:?}");
        bytes
    }

    /// The table of the value at the start of the bytes and its length, as all calls that measure, read and walk say. Lent
    /// memory has to be as it is due.
    pub fn table_of(self, bytes: &[u8]) -> Result<(Table, usize), Refusal> {
        let extent = self.measure(bytes);
        let (rows, used) = extent.map_or((16, 16), |extent| (extent.rows, extent.text));
        let (mut words, mut text) = (vec![WORD; 2 * rows + 3], vec![BYTE; used + 3]);
        assert_eq!(self.read(bytes, &mut words, &mut text), extent);
        let filled = if extent.is_ok() { (2 * rows, used) } else { (0, 0) };
        assert!(words.split_off(filled.0).iter().all(|&word| word == WORD), "{bytes:x?}");
        assert!(text.split_off(filled.1).iter().all(|&byte| byte == BYTE), "{bytes:x?}");

        let table = Table::from_parts(words, text);
        let before = Table::from(Value::String("before"));
        let mut over = before.clone();
        let (front, whole, again) = match self {
            Form::Plain => (Table::from_prefix(bytes), Table::from_bytes(bytes), over.read_from(bytes)),
            Form::Within(limit) => (
                Table::from_prefix_within(limit, bytes),
                Table::from_bytes_within(limit, bytes),
                over.read_from_within(limit, bytes),
            ),
        };
        assert_eq!(again, extent);
        assert!(over == *front.as_ref().map_or(&before, |(table, _)| table), "{bytes:x?}");
        assert!(front == extent.map(|extent| (table, extent.length)), "{bytes:x?}");
        // Bytes behind the value are refused where it was to be all there is.
        let all = front.clone().and_then(|(table, length)| match bytes.len() - length {
            0 => Ok(table),
            _ => Err(Refusal::reading(Reason::BytesLeft, length as u64)),
        });
        assert!(whole == all, "{bytes:x?}");
        self.steps_as(bytes, extent);
        front
    }

    /// A first step as measuring says, but done where there are no bytes.
    fn steps_as(self, bytes: &[u8], extent: Result<Extent, Refusal>) {
        let due = if bytes.is_empty() && self.is_in_force() {
            None
        } else {
            Some(extent.map(|extent| &bytes[..extent.length]))
        };
        let mut walker = self.walker(bytes, 0);
        assert!(walker.step() == due, "{bytes:x?}");
        assert_eq!(walker.offset(), extent.map_or(0, |extent| extent.length));
        let first = self.values(bytes).next().map(|value| value.map_err(|refused| refused.refusal()));
        assert!(first == due, "{bytes:x?}");
    }
}
