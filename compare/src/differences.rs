//! The known differences from the ported crate (docs/DIFFERENCES.md), each with its smallest tables: what the crate does, what
//! we do, what we read the crate's bytes to, and what Part 1 says. That both do it is checked, and that the document states it.

use crate::{
    limit::Limit,
    original,
    ours::{self, PATTERN},
    report,
    table::{array, shown, Kind, Table},
};
use std::collections::BTreeSet;

/// What the crate and we do is said in one line: bytes in hex, where `00*8` is a byte eight times; a refusal, as `4 at 1`; or
/// how it ends otherwise. What we read is a table, as in the document, or a refusal.
struct Case {
    difference: u32,
    rows: &'static [(Kind, u64)],
    text: &'static str,
    crate_does: &'static str,
    we_do: &'static str,
    we_read: &'static str,
    part_1: &'static str,
}

/// What we read where that is the very table.
const IT: &str = "that table";
/// The crate has no bytes to read.
const NOTHING: &str = "-";

/// The document. It has a section for each difference, where tables and bytes stand in backticks.
const DOCUMENT: &str = include_str!("../../docs/DIFFERENCES.md");

const CASES: [Case; 40] = [
    Case {
        difference: 1,
        rows: &[array(Kind::String, 1), (Kind::String, 2)],
        text: "c3 98",
        crate_does: "e0 08 01 b1 00 00 00 01 c3 98",
        we_do: "e0 08 01 b1 00 00 00 02 c3 98",
        we_read: "11 at 8",
        part_1: "the length counts octets: ours",
    },
    Case {
        difference: 2,
        rows: &[array(Kind::Null, 2), (Kind::Null, 0), (Kind::Null, 0)],
        text: "",
        crate_does: "e0 03 02 40 40",
        we_do: "4 at 0",
        we_read: "4 at 0",
        part_1: "one element code, empty payloads: `e0 02 02 40`",
    },
    Case {
        difference: 2,
        rows: &[array(Kind::List, 2), (Kind::List, 0), (Kind::List, 0)],
        text: "",
        crate_does: "e0 03 02 45 45",
        we_do: "e0 12 02 d0 00 00 00 04 00 00 00 00 00 00 00 04 00 00 00 00",
        we_read: "4 at 0",
        part_1: "one element code, empty payloads: `e0 02 02 45`, or ours",
    },
    Case {
        difference: 2,
        rows: &[array(Kind::List, 2), (Kind::List, 1), (Kind::Null, 0), (Kind::List, 0)],
        text: "",
        crate_does: "e0 06 02 c0 02 01 40 45",
        we_do: "e0 13 02 d0 00 00 00 05 00 00 00 01 40 00 00 00 04 00 00 00 00",
        we_read: "9 at 0",
        part_1: "the second payload behind `c0` is `01 00`, or ours",
    },
    Case {
        difference: 2,
        rows: &[array(Kind::List, 2), (Kind::List, 0), (Kind::List, 1), (Kind::Null, 0)],
        text: "",
        crate_does: "e0 05 02 45 02 01 40",
        we_do: "e0 13 02 d0 00 00 00 04 00 00 00 00 00 00 00 05 00 00 00 01 40",
        we_read: "4 at 0",
        part_1: "one element code for both, `e0 07 02 c0 01 00 02 01 40`, or ours",
    },
    Case {
        difference: 2,
        rows: &[array(Kind::List, 1), (Kind::List, 0)],
        text: "",
        crate_does: "e0 02 01 45",
        we_do: "e0 0a 01 d0 00 00 00 04 00 00 00 00",
        we_read: "4 at 0",
        part_1: "the crate's bytes, or ours",
    },
    Case {
        difference: 2,
        rows: &[array(Kind::Null, 1), (Kind::Null, 0)],
        text: "",
        crate_does: "e0 02 01 40",
        we_do: "4 at 0",
        we_read: "4 at 0",
        part_1: "the crate's bytes; that we refuse them is our own choice",
    },
    Case {
        difference: 3,
        rows: &[array(Kind::Ubyte, 2), (Kind::Ubyte, 0), (Kind::Byte, 0)],
        text: "",
        crate_does: "e0 04 02 50 00 00",
        we_do: "4 at 2",
        we_read: "`[50:2] 50:0 50:0`",
        part_1: "all elements are of one type: no such array",
    },
    Case {
        difference: 3,
        rows: &[array(Kind::Ubyte, 2), (Kind::Ubyte, 0), (Kind::Ushort, 0)],
        text: "",
        crate_does: "e0 05 02 50 00 00 00",
        we_do: "4 at 2",
        we_read: "12 at 0",
        part_1: "all elements are of one type: no such array",
    },
    Case {
        difference: 3,
        rows: &[array(Kind::Ubyte, 2), (Kind::Ubyte, 7), (Kind::Null, 0)],
        text: "",
        crate_does: "e0 04 02 50 07 40",
        we_do: "4 at 2",
        we_read: "`[50:2] 50:7 50:64`",
        part_1: "all elements are of one type: no such array",
    },
    Case {
        difference: 4,
        rows: &[array(Kind::Uint, 0)],
        text: "",
        crate_does: "e0 01 00",
        we_do: "e0 02 00 70",
        we_read: "`f0:0`",
        part_1: "an element code even so: ours",
    },
    Case {
        difference: 4,
        rows: &[(Kind::Array, 0)],
        text: "",
        crate_does: "e0 01 00",
        we_do: "5 at 0",
        we_read: IT,
        part_1: "an element code even so: no such array",
    },
    Case {
        difference: 4,
        rows: &[(Kind::Map, 4), (Kind::Null, 0), (Kind::Null, 0), (Kind::Null, 0), (Kind::Null, 0)],
        text: "",
        crate_does: "c1 05 04 40 40 40 40",
        we_do: "c1 05 04 40 40 40 40",
        we_read: IT,
        part_1: "keys are distinct: no such map",
    },
    Case {
        difference: 5,
        rows: &[(Kind::Map, 2), (Kind::Timestamp, 0), (Kind::Long, 0)],
        text: "",
        crate_does: "c1 13 02 83 00*8 83 00*8",
        we_do: "c1 0c 02 83 00*8 55 00",
        we_read: "`d1:2 83:0 83:0`",
        part_1: "a long is no timestamp: ours",
    },
    Case {
        difference: 5,
        rows: &[(Kind::Map, 2), (Kind::Timestamp, 0), (Kind::String, 0)],
        text: "",
        crate_does: "panics: internal error: entered unreachable code",
        we_do: "c1 0c 02 83 00*8 a1 00",
        we_read: NOTHING,
        part_1: "ours",
    },
    Case {
        difference: 5,
        rows: &[(Kind::Map, 2), array(Kind::Uint, 0), (Kind::List, 0)],
        text: "",
        crate_does: "c1 07 02 e0 01 00 e0 01 00",
        we_do: "c1 06 02 e0 02 00 70 45",
        we_read: "`d1:2 f0:0 f0:0`",
        part_1: "a list is no array: ours",
    },
    Case {
        difference: 5,
        rows: &[(Kind::Map, 2), (Kind::Described, 2), (Kind::Ulong, 0), (Kind::Timestamp, 0), (Kind::Long, 0)],
        text: "",
        crate_does: "c1 15 02 00 44 83 00*8 83 00*8",
        we_do: "c1 0e 02 00 44 83 00*8 55 00",
        we_read: "`d1:2 00:2 80:0 83:0 83:0`",
        part_1: "ours",
    },
    Case {
        difference: 5,
        rows: &[(Kind::Described, 2), (Kind::Timestamp, 0), (Kind::Long, 0)],
        text: "",
        crate_does: "00 83 00*8 83 00*8",
        we_do: "00 83 00*8 55 00",
        we_read: "`00:2 83:0 83:0`",
        part_1: "ours",
    },
    Case {
        difference: 5,
        rows: &[(Kind::Described, 2), array(Kind::Uint, 0), (Kind::List, 0)],
        text: "",
        crate_does: "00 e0 01 00 e0 01 00",
        we_do: "00 e0 02 00 70 45",
        we_read: "`00:2 f0:0 f0:0`",
        part_1: "ours",
    },
    Case {
        difference: 5,
        rows: &[(Kind::Array, 1), (Kind::Described, 2), (Kind::Symbol, 0), (Kind::String, 0)],
        text: "",
        crate_does: "e0 0c 01 00 b3 00 00 00 00 b3 00 00 00 00",
        we_do: "5 at 0",
        we_read: "4 at 0",
        part_1: "a string is no symbol: `e0 0c 01 00 b3 00 00 00 00 b1 00 00 00 00`",
    },
    Case {
        difference: 5,
        rows: &[(Kind::Array, 1), (Kind::Described, 2), (Kind::Symbol, 0), (Kind::Long, 0)],
        text: "",
        crate_does: "panics: internal error: entered unreachable code",
        we_do: "5 at 0",
        we_read: NOTHING,
        part_1: "an array as any other",
    },
    Case {
        difference: 5,
        rows: &[(Kind::Array, 1), (Kind::Described, 2), (Kind::Symbol, 0), (Kind::Binary, 0)],
        text: "",
        crate_does: "panics: internal error: entered unreachable code",
        we_do: "5 at 0",
        we_read: NOTHING,
        part_1: "an array as any other",
    },
    Case {
        difference: 6,
        rows: &[(Kind::Symbol, 2)],
        text: "c3 98",
        crate_does: "a3 02 c3 98",
        we_do: "6 at 0",
        we_read: "11 at 2",
        part_1: "symbols are ASCII: no such symbol",
    },
    Case {
        difference: 6,
        rows: &[(Kind::Binary, 1_048_572)],
        text: "00*1048572",
        crate_does: "b0 00 0f ff fc 00*1048572",
        we_do: "7 at 0",
        we_read: IT,
        part_1: "the crate's bytes; the limit is our own",
    },
    Case {
        difference: 7,
        rows: &[array(Kind::List, 2), (Kind::List, 1), (Kind::Null, 0), (Kind::List, 1), (Kind::Binary, 253)],
        text: "00*253",
        crate_does: "f0 00 00 01 0f 00 00 00 02 c0 02 01 40 00 00 01 03 00 00 00 01 a0 fd 00*253",
        we_do: "f0 00 00 01 15 00 00 00 02 d0 00 00 00 05 00 00 00 01 40 00 00 01 03 00 00 00 01 a0 fd 00*253",
        we_read: "12 at 0",
        part_1: "fields as wide as the element code says: ours",
    },
    Case {
        difference: 7,
        rows: &[array(Kind::List, 2), (Kind::List, 1), (Kind::Binary, 253), (Kind::List, 1), (Kind::Null, 0)],
        text: "00*253",
        crate_does: "f0 00 00 01 0f 00 00 00 02 d0 00 00 01 03 00 00 00 01 a0 fd 00*253 02 01 40",
        we_do: "f0 00 00 01 15 00 00 00 02 d0 00 00 01 03 00 00 00 01 a0 fd 00*256 05 00 00 00 01 40",
        we_read: "9 at 0",
        part_1: "fields as wide as the element code says: ours",
    },
    Case {
        difference: 7,
        rows: &[array(Kind::Map, 2), (Kind::Map, 0), (Kind::Map, 2), (Kind::Null, 0), (Kind::Binary, 252)],
        text: "00*252",
        crate_does: "f0 00 00 01 0e 00 00 00 02 c1 01 00 00 00 01 03 00 00 00 02 40 a0 fc 00*252",
        we_do: "f0 00 00 01 14 00 00 00 02 d1 00 00 00 04 00 00 00 00 00 00 01 03 00 00 00 02 40 a0 fc 00*252",
        we_read: "12 at 0",
        part_1: "fields as wide as the element code says: ours",
    },
    Case {
        difference: 7,
        rows: &[array(Kind::Map, 2), (Kind::Map, 2), (Kind::Null, 0), (Kind::Binary, 252), (Kind::Map, 0)],
        text: "00*252",
        crate_does: "f0 00 00 01 0e 00 00 00 02 d1 00 00 01 03 00 00 00 02 40 a0 fc 00*252 01 00",
        we_do: "f0 00 00 01 14 00 00 00 02 d1 00 00 01 03 00 00 00 02 40 a0 fc 00*255 04 00 00 00 00",
        we_read: "9 at 0",
        part_1: "fields as wide as the element code says: ours",
    },
    Case {
        difference: 7,
        rows: &[array(Kind::Array, 2), array(Kind::Binary, 0), array(Kind::Binary, 1), (Kind::Binary, 250)],
        text: "00*250",
        crate_does: "f0 00 00 01 0e 00 00 00 02 e0 01 00 00 00 01 03 00 00 00 01 b0 00 00 00 fa 00*250",
        we_do: "f0 00 00 01 15 00 00 00 02 f0 00 00 00 05 00 00 00 00 b0 00 00 01 03 00 00 00 01 b0 00 00 00 fa 00*250",
        we_read: "12 at 0",
        part_1: "fields as wide as the element code says, an element code in the empty array: ours",
    },
    Case {
        difference: 7,
        rows: &[array(Kind::Array, 2), array(Kind::Binary, 1), (Kind::Binary, 250), array(Kind::Binary, 0)],
        text: "00*250",
        crate_does: "f0 00 00 01 0e 00 00 00 02 f0 00 00 01 03 00 00 00 01 b0 00 00 00 fa 00*250 01 00",
        we_do: "f0 00 00 01 15 00 00 00 02 f0 00 00 01 03 00 00 00 01 b0 00 00 00 fa 00*253 05 00 00 00 00 b0",
        we_read: "9 at 0",
        part_1: "fields as wide as the element code says, an element code in the empty array: ours",
    },
    Case {
        difference: 7,
        rows: &[
            (Kind::Array, 2),
            (Kind::Described, 2),
            (Kind::Ulong, 1),
            (Kind::Ubyte, 7),
            (Kind::Described, 2),
            (Kind::Ulong, 1),
            (Kind::Ubyte, 7),
        ],
        text: "",
        crate_does: "e0 17 02 00 80 00 00 00 00 00 00 00 01 50 07 00*8 01 07",
        we_do: "5 at 0",
        we_read: "4 at 0",
        part_1: "the descriptor once, `e0 07 02 00 53 01 50 07 07`",
    },
    Case {
        difference: 7,
        rows: &[
            (Kind::Array, 2),
            (Kind::Described, 2),
            (Kind::Symbol, 0),
            (Kind::Ubyte, 7),
            (Kind::Described, 2),
            (Kind::Symbol, 0),
            (Kind::Ubyte, 7),
        ],
        text: "",
        crate_does: "e0 0f 02 00 b3 00 00 00 00 50 07 00 00 00 00 00 07",
        we_do: "5 at 0",
        we_read: "4 at 0",
        part_1: "the descriptor once, `e0 07 02 00 a3 00 50 07 07`",
    },
    Case {
        difference: 7,
        rows: &[array(Kind::List, 2), (Kind::List, 1), (Kind::Null, 0), (Kind::List, 1), (Kind::Null, 0)],
        text: "",
        crate_does: "e0 08 02 c0 02 01 40 02 01 40",
        we_do: "e0 14 02 d0 00 00 00 05 00 00 00 01 40 00 00 00 05 00 00 00 01 40",
        we_read: IT,
        part_1: "the crate's bytes, or ours",
    },
    Case {
        difference: 7,
        rows: &[array(Kind::Map, 2), (Kind::Map, 0), (Kind::Map, 0)],
        text: "",
        crate_does: "e0 06 02 c1 01 00 01 00",
        we_do: "e0 12 02 d1 00 00 00 04 00 00 00 00 00 00 00 04 00 00 00 00",
        we_read: IT,
        part_1: "the crate's bytes, or ours",
    },
    Case {
        difference: 7,
        rows: &[array(Kind::Array, 2), array(Kind::Ubyte, 1), (Kind::Ubyte, 7), array(Kind::Ubyte, 1), (Kind::Ubyte, 8)],
        text: "",
        crate_does: "e0 0a 02 e0 03 01 50 07 03 01 50 08",
        we_do: "e0 16 02 f0 00 00 00 06 00 00 00 01 50 07 00 00 00 06 00 00 00 01 50 08",
        we_read: IT,
        part_1: "the crate's bytes, or ours",
    },
    Case {
        difference: 7,
        rows: &[array(Kind::List, 1), (Kind::List, 1), (Kind::List, 1), (Kind::Null, 0)],
        text: "",
        crate_does: "e0 08 01 c0 05 01 c0 02 01 40",
        we_do: "e0 0e 01 d0 00 00 00 08 00 00 00 01 c0 02 01 40",
        we_read: IT,
        part_1: "the crate's bytes, or ours",
    },
    Case {
        difference: 7,
        rows: &[array(Kind::Array, 1), array(Kind::Array, 1), array(Kind::Ubyte, 1), (Kind::Ubyte, 7)],
        text: "",
        crate_does: "e0 09 01 e0 06 01 e0 03 01 50 07",
        we_do: "e0 15 01 f0 00 00 00 0f 00 00 00 01 f0 00 00 00 06 00 00 00 01 50 07",
        we_read: IT,
        part_1: "the crate's bytes, or ours",
    },
    Case {
        difference: 7,
        rows: &[array(Kind::List, 1), (Kind::List, 1), (Kind::Binary, 253)],
        text: "00*253",
        crate_does: "f0 00 00 01 0c 00 00 00 01 d0 00 00 01 03 00 00 00 01 a0 fd 00*253",
        we_do: "f0 00 00 01 0c 00 00 00 01 d0 00 00 01 03 00 00 00 01 a0 fd 00*253",
        we_read: IT,
        part_1: "both",
    },
    Case {
        difference: 7,
        rows: &[(Kind::Array, 1), (Kind::Described, 2), (Kind::Ulong, 1), (Kind::Ubyte, 7)],
        text: "",
        crate_does: "e0 0d 01 00 80 00 00 00 00 00 00 00 01 50 07",
        we_do: "5 at 0",
        we_read: "4 at 0",
        part_1: "the crate's bytes; that we refuse them is our own choice",
    },
    Case {
        difference: 7,
        rows: &[array(Kind::Array, 2), array(Kind::Uint, 0), array(Kind::Uint, 0)],
        text: "",
        crate_does: "e0 06 02 e0 01 00 01 00",
        we_do: "e0 14 02 f0 00 00 00 05 00 00 00 00 70 00 00 00 05 00 00 00 00 70",
        we_read: "`[f0:2] f0:0 f0:0`",
        part_1: "an element code in each empty array: ours",
    },
];

/// Prints them all. False where the crate or we do something else, or the document and the cases are not of the same tables.
pub fn run() -> bool {
    report::heading("Known differences");
    let mut as_known = true;
    let rows: Vec<_> = CASES
        .iter()
        .map(|case| {
            let mut table = Table { words: Vec::new(), text: bytes_of(case.text) };
            for &(kind, number) in case.rows {
                table.row(kind, number);
            }
            let mut cell = |does: String, known: &str| {
                as_known &= does == known;
                report::code(if does == known { does } else { format!("NOT AS KNOWN: {does}") })
            };
            let (theirs, ours) = (cell(crate_does(&table), case.crate_does), cell(we_do(&table), case.we_do));
            let read = we_read(&table);
            as_known &= read == case.we_read;
            let read = if read == case.we_read { read } else { format!("NOT AS KNOWN: {read}") };
            vec![case.difference.to_string(), report::code(title(&table)), theirs, ours, read, case.part_1.to_string()]
        })
        .collect();
    report::table(6, &["", "table", "the crate", "we", "we read the crate's bytes to", "Part 1"], &rows);
    println!(
        "Not run: bodies of more than 4,294,967,291 bytes (6), where the crate gives `too_long` and casts lengths in arrays."
    );
    let unlike = unlike_document();
    for what in &unlike {
        println!("\nNOT AS docs/DIFFERENCES.md: {what}");
    }
    as_known && unlike.is_empty()
}

/// What the document does not state of a case, and its tables that are no case.
fn unlike_document() -> Vec<String> {
    let mut unlike = Vec::new();
    for case in &CASES {
        let stated = stated(case.difference);
        for due in [rows(case).as_str(), case.crate_does, case.we_do] {
            let is_shown = due.split(' ').all(begins_in_hex);
            if is_shown && !stated.contains(&due) {
                unlike.push(format!("{} does not state `{due}`", case.difference));
            }
        }
        // the writer's places are rows, but for that of 7; those of 6 here are bytes of a bad text
        let row = match case.we_do.split(' ').next() {
            Some("7") => " at place ",
            Some("6") => " at byte ",
            _ => " at row ",
        };
        for due in [case.we_do.replace(" at ", row), case.we_read.to_string()] {
            if due.contains(" at ") && !plain(section(case.difference)).contains(&due) {
                unlike.push(format!("{} does not state {due}", case.difference));
            }
        }
    }
    for difference in CASES.iter().map(|case| case.difference).collect::<BTreeSet<_>>() {
        let run: Vec<_> = CASES.iter().filter(|case| case.difference == difference).map(rows).collect();
        let tables = stated(difference).into_iter().filter(|words| unboxed(words).as_bytes().get(2) == Some(&b':'));
        unlike.extend(tables.filter(|table| !run.iter().any(|rows| rows == table)).map(|table| format!("`{table}` is not run")));
    }
    unlike
}

/// Without the bracket that the row of an array begins with.
fn unboxed(word: &str) -> &str {
    word.strip_prefix('[').unwrap_or(word)
}

/// Whether it is a byte, or the first word of a row.
fn begins_in_hex(word: &str) -> bool {
    let word = unboxed(word).as_bytes();
    word.len() > 1 && word[..2].iter().all(u8::is_ascii_hexdigit)
}

/// The section of a difference.
fn section(difference: u32) -> &'static str {
    let head = format!("\n## {difference} ");
    DOCUMENT.split_once(&head).map_or("", |(_, behind)| behind.split("\n## ").next().unwrap_or(behind))
}

/// What stands there in backticks.
fn stated(difference: u32) -> Vec<&'static str> {
    section(difference).split('`').skip(1).step_by(2).collect()
}

/// A text in one line, with single spaces.
fn plain(text: &str) -> String {
    text.split_whitespace().collect::<Vec<_>>().join(" ")
}

fn rows(case: &Case) -> String {
    let rows: Vec<_> = case.rows.iter().map(|&(kind, number)| shown(kind as u64, number)).collect();
    rows.join(" ")
}

fn crate_does(table: &Table) -> String {
    let mut out = Vec::new();
    match original::try_write(table, &mut out) {
        Ok(()) => runs(&out),
        Err(trouble) => trouble.to_string(),
    }
}

fn we_do(table: &Table) -> String {
    let told = ours::size(Limit::HIGHEST, table);
    let length = told.length as usize;
    let mut out = vec![PATTERN; length + 8];
    let written = ours::write(Limit::HIGHEST, table, &mut out);
    match told.number {
        _ if written != told => format!("sizing gives {told}, writing {written}"),
        _ if out[length..] != [PATTERN; 8] => "touches what stands behind".into(),
        0 => runs(&out[..length]),
        number => format!("{number} at {}", told.place),
    }
}

/// What our reader makes of the crate's bytes.
fn we_read(table: &Table) -> String {
    let mut bytes = Vec::new();
    if original::try_write(table, &mut bytes).is_err() {
        return NOTHING.into();
    }
    let (told, back) = ours::read_whole(Limit::HIGHEST, &bytes);
    match told.number {
        0 if told.length as usize != bytes.len() => format!("{} of the bytes", told.length),
        0 if back == *table => IT.into(),
        0 => report::code(title(&back)),
        number => format!("{number} at {}", told.place),
    }
}

fn title(table: &Table) -> String {
    let rows: Vec<_> = table.words.chunks(2).map(|row| shown(row[0], row[1])).collect();
    let text = if table.text.is_empty() { String::new() } else { format!(", text {}", runs(&table.text)) };
    format!("{}{text}", rows.join(" "))
}

/// Bytes in hex, eight or more alike as `00*8`.
fn runs(bytes: &[u8]) -> String {
    let parts: Vec<_> = bytes
        .chunk_by(|a, b| a == b)
        .map(|run| match run.len() {
            length @ 8.. => format!("{:02x}*{length}", run[0]),
            length => vec![format!("{:02x}", run[0]); length].join(" "),
        })
        .collect();
    parts.join(" ")
}

fn bytes_of(text: &str) -> Vec<u8> {
    text.split_whitespace()
        .flat_map(|word| {
            let (byte, count) = word.split_once('*').unwrap_or((word, "1"));
            let byte = u8::from_str_radix(byte, 16).expect("hex");
            vec![byte; count.parse().expect("a count")]
        })
        .collect()
}
