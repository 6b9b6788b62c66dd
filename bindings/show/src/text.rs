//! Texts, bytes and numbers as people read them.

use std::fmt::{self, Write};

/// The most bytes of a string or symbol that are shown, unless all are asked for.
const TEXT_SHOWN: usize = 80;

/// The most bytes of a binary that are shown, unless all are asked for.
const BINARY_SHOWN: usize = 40;

/// Whether a character shows nothing of itself, or turns the text around it: the default ignorable ones of Unicode, and what
/// parts lines and paragraphs. Of these Rust's own escapes leave some as they are.
pub fn is_invisible(c: char) -> bool {
    matches!(c,
        '\u{ad}' | '\u{34f}' | '\u{61c}' | '\u{115f}'..='\u{1160}' | '\u{17b4}'..='\u{17b5}' | '\u{180b}'..='\u{180f}'
        | '\u{200b}'..='\u{200f}' | '\u{2028}'..='\u{202e}' | '\u{2060}'..='\u{206f}' | '\u{3164}'
        | '\u{fe00}'..='\u{fe0f}' | '\u{feff}' | '\u{ffa0}' | '\u{fff0}'..='\u{fffb}' | '\u{1bca0}'..='\u{1bca3}'
        | '\u{1d173}'..='\u{1d17a}' | '\u{e0000}'..='\u{e0fff}')
}

/// The text in quotes, with everything escaped that cannot be seen.
pub fn quoted(out: &mut impl Write, text: &str) -> fmt::Result {
    out.write_char('"')?;
    if text.bytes().all(|byte| matches!(byte, b' '..=b'~') && byte != b'"' && byte != b'\\') {
        return out.write_str(text).and_then(|()| out.write_char('"'));
    }
    let mut rest = text;
    // Rust escapes the single quote too, which needs none here.
    while let Some(at) = rest.find(|c| c == '\'' || is_invisible(c)) {
        let (front, behind) = rest.split_at(at);
        write!(out, "{}", front.escape_debug())?;
        let mut letters = behind.chars();
        match letters.next() {
            Some(c) if c != '\'' => write!(out, "{}", c.escape_unicode())?,
            _ => out.write_char('\'')?,
        }
        rest = letters.as_str();
    }
    write!(out, "{}\"", rest.escape_debug())
}

/// A text in quotes; where it is long its beginning, and how many bytes it has.
pub fn text(out: &mut impl Write, text: &str, full: bool) -> fmt::Result {
    if full || text.len() <= TEXT_SHOWN {
        return quoted(out, text);
    }
    let end = (0..=TEXT_SHOWN).rev().find(|at| text.is_char_boundary(*at)).unwrap_or(0);
    quoted(out, &text[..end])?;
    more(out, text.len())
}

/// Bytes in hex; where they are many the first of them, and how many they are.
pub fn binary(out: &mut impl Write, bytes: &[u8], full: bool) -> fmt::Result {
    if bytes.is_empty() {
        return out.write_str("of no bytes");
    }
    if full || bytes.len() <= BINARY_SHOWN {
        return hex(out, bytes);
    }
    hex(out, &bytes[..BINARY_SHOWN])?;
    more(out, bytes.len())
}

fn more(out: &mut impl Write, length: usize) -> fmt::Result {
    out.write_str(" … ")?;
    grouped(out, length)?;
    out.write_str(" bytes")
}

pub fn hex(out: &mut impl Write, bytes: &[u8]) -> fmt::Result {
    bytes.iter().try_for_each(|byte| write!(out, "{byte:02x}"))
}

/// A number at the right of so many places, or of as many as it takes. `write!` would be slow on a large file.
pub fn number(out: &mut String, number: usize, width: usize) {
    let mut digits = [b' '; 20];
    let mut first = digits.len();
    let mut left = number;
    loop {
        first -= 1;
        digits[first] = b'0' + (left % 10) as u8;
        left /= 10;
        if left == 0 {
            break;
        }
    }
    out.push_str(std::str::from_utf8(&digits[first.min(digits.len() - width)..]).unwrap_or_default());
}

/// A number with commas between each three digits.
fn grouped(out: &mut impl Write, number: usize) -> fmt::Result {
    let digits = number.to_string();
    for (at, digit) in digits.chars().enumerate() {
        if at > 0 && (digits.len() - at) % 3 == 0 {
            out.write_char(',')?;
        }
        out.write_char(digit)?;
    }
    Ok(())
}

/// A character in single quotes, and its code point.
pub fn character(out: &mut impl Write, c: char) -> fmt::Result {
    match is_invisible(c) {
        true => write!(out, "'{}'", c.escape_unicode())?,
        false => write!(out, "{c:?}")?,
    }
    write!(out, " (U+{:04X})", u32::from(c))
}

#[cfg(test)]
mod tests {
    use super::*;

    fn shown(s: &str, full: bool) -> String {
        let mut out = String::new();
        text(&mut out, s, full).unwrap();
        out
    }

    #[test]
    fn what_cannot_be_seen_is_escaped() {
        for (given, due) in [
            ("", r#""""#),
            ("it's \"M4\" \\", r#""it's \"M4\" \\""#),
            ("\0\t\r\n\x1b[31m\x7f\u{85}", r#""\0\t\r\n\u{1b}[31m\u{7f}\u{85}""#),
            ("a\u{202e}b\u{2066}c\u{200b}d\u{feff}", r#""a\u{202e}b\u{2066}c\u{200b}d\u{feff}""#),
            ("a\u{3164}b\u{fe0f}c\u{2028}d", r#""a\u{3164}b\u{fe0f}c\u{2028}d""#),
            ("Ø1.2 e\u{301} 測", "\"Ø1.2 e\u{301} 測\""),
            ("''", r#""''""#),
        ] {
            assert_eq!(shown(given, false), due);
        }
    }

    #[test]
    fn long_texts_are_cut_between_characters() {
        let fits = "a".repeat(80);
        assert_eq!(shown(&fits, false), format!("\"{fits}\""));
        let long = format!("{}Ø{}", "a".repeat(79), "b".repeat(4919));
        assert_eq!(shown(&long, false), format!("\"{}\" … 5,000 bytes", "a".repeat(79)));
        assert_eq!(shown(&long, true), format!("\"{long}\""));
    }

    #[test]
    fn numbers_stand_at_the_right() {
        for (given, width, due) in
            [(0, 1, "0"), (7, 3, "  7"), (1234, 3, "1234"), (usize::MAX, 6, "18446744073709551615")]
        {
            let mut out = String::new();
            number(&mut out, given, width);
            assert_eq!(out, due);
        }
    }

    #[test]
    fn numbers_are_grouped() {
        for (number, due) in [(0, "0"), (999, "999"), (1000, "1,000"), (1_234_567, "1,234,567")] {
            let mut out = String::new();
            grouped(&mut out, number).unwrap();
            assert_eq!(out, due);
        }
    }
}
