//! The worked examples of docs/FORMAT.md, 10. Those of 32 and 33 levels name the limit 32; the others are tried within each.
mod forms;

use afsungar::{measure, measure_within, size, Builder, Extent, Kind, Reason, Refusal, Table, Value};
use forms::within_each;

/// Two hex digits a byte; spaces do not count.
fn hex(digits: &str) -> Vec<u8> {
    let digits: Vec<u8> = digits.bytes().filter(|&b| b != b' ').collect();
    digits.chunks(2).map(|two| u8::from_str_radix(std::str::from_utf8(two).unwrap(), 16).unwrap()).collect()
}

/// The number of an array's row: so many elements of this kind.
const fn of(kind: u64, count: u64) -> u64 {
    count + 4_294_967_296 * kind
}

/// Written to these bytes, and read back to the same.
fn written(words: &[u64], text: &str, bytes: &str, build: impl FnOnce(&Builder)) {
    let (text, bytes) = (hex(text), hex(bytes));
    let table = Table::build(build);
    assert_eq!((table.words(), table.text()), (words, &text[..]));
    assert_eq!(bytes_of(&table), bytes);
    assert_eq!(within_each(|form| form.table_of(&bytes)).0, Ok((table, bytes.len())));
}

/// The bytes within each limit.
fn bytes_of(table: &Table) -> Vec<u8> {
    within_each(|form| form.bytes_of(table)).0.unwrap()
}

#[test]
fn uint_255_and_256() {
    written(&[0x70, 255], "", "52 ff", |t| {
        t.uint(255);
    });
    written(&[0x70, 256], "", "70 00 00 01 00", |t| {
        t.uint(256);
    });
}

#[test]
fn int_minus_128_and_minus_129() {
    written(&[0x71, 4_294_967_168], "", "54 80", |t| {
        t.int(-128);
    });
    written(&[0x71, 4_294_967_167], "", "71 ff ff ff 7f", |t| {
        t.int(-129);
    });
}

#[test]
fn list_of_one_null() {
    written(&[0xd0, 1, 0x40, 0], "", "c0 02 01 40", |t| {
        t.list(|t| {
            t.null();
        });
    });
}

#[test]
fn empty_map_and_empty_array() {
    written(&[0xd1, 0], "", "c1 01 00", |t| {
        t.map(|_| {});
    });
    written(&[0xf0, 481_036_337_152], "", "e0 02 00 70", |t| {
        t.empty_array(Kind::Uint);
    });
}

#[test]
fn map_of_symbol_to_uint() {
    written(&[0xd1, 2, 0xb3, 1, 0x70, 2], "76", "c1 06 02 a3 01 76 52 02", |t| {
        t.map(|t| {
            t.symbol("v").uint(2);
        });
    });
}

#[test]
fn array_of_uint() {
    written(&[0xf0, 481_036_337_154, 0x70, 0, 0x70, 1], "", "e0 0a 02 70 00 00 00 00 00 00 00 01", |t| {
        t.array_of([0u32, 1]);
    });
}

#[test]
fn array_of_string() {
    written(&[0xf0, of(0xb1, 1), 0xb1, 5], "c3 98 31 2e 32", "e0 0b 01 b1 00 00 00 05 c3 98 31 2e 32", |t| {
        t.array_of(["Ø1.2"]);
    });
}

#[test]
fn array_of_lists() {
    let bytes = "e0 17 02 d0 00 00 00 06 00 00 00 01 52 01 00 00 00 07 00 00 00 02 52 02 43";
    written(&[0xf0, of(0xd0, 2), 0xd0, 1, 0x70, 1, 0xd0, 2, 0x70, 2, 0x70, 0], "", bytes, |t| {
        t.array_of_lists([vec![1u32], vec![2, 0]]);
    });
    let bytes = "e0 1b 03 d0 00 00 00 04 00 00 00 00 00 00 00 05 00 00 00 01 40 00 00 00 04 00 00 00 00";
    written(&[0xf0, of(0xd0, 3), 0xd0, 0, 0xd0, 1, 0x40, 0, 0xd0, 0], "", bytes, |t| {
        t.array_of_lists([vec![], vec![()], vec![]]);
    });
    // A list within an element has a code of its own, and the short form.
    let bytes = "e0 0e 01 d0 00 00 00 08 00 00 00 01 c0 02 01 40";
    written(&[0xf0, of(0xd0, 1), 0xd0, 1, 0xd0, 1, 0x40, 0], "", bytes, |t| {
        t.array(Kind::List, |t| {
            t.list(|t| {
                t.list_of([()]);
            });
        });
    });
}

#[test]
fn array_of_maps() {
    let bytes = "e0 17 02 d1 00 00 00 09 00 00 00 02 a3 01 76 52 02 00 00 00 04 00 00 00 00";
    written(&[0xf0, of(0xd1, 2), 0xd1, 2, 0xb3, 1, 0x70, 2, 0xd1, 0], "76", bytes, |t| {
        t.array_of_maps([vec![(Value::Symbol("v"), 2u32)], vec![]]);
    });
}

#[test]
fn array_of_arrays() {
    let bytes = "e0 17 02 f0 00 00 00 06 00 00 00 01 50 05 00 00 00 07 00 00 00 02 56 01 00";
    let words = [0xf0, of(0xf0, 2), 0xf0, of(0x50, 1), 0x50, 5, 0xf0, of(0x56, 2), 0x56, 1, 0x56, 0];
    written(&words, "", bytes, |t| {
        t.array(Kind::Array, |t| {
            t.array_of([5u8]).array_of([true, false]);
        });
    });
    let bytes = "e0 14 02 f0 00 00 00 05 00 00 00 00 70 00 00 00 05 00 00 00 00 b1";
    written(&[0xf0, of(0xf0, 2), 0xf0, of(0x70, 0), 0xf0, of(0xb1, 0)], "", bytes, |t| {
        t.array(Kind::Array, |t| {
            t.array_of::<u32>([]).array_of::<&str>([]);
        });
    });
}

#[test]
fn described_empty_list() {
    written(&[0, 2, 0x80, 36, 0xd0, 0], "", "00 53 24 45", |t| {
        t.described(|t| {
            t.ulong(36).list(|_| {});
        });
    });
}

fn lists(t: &Builder, levels: usize) {
    t.list(|t| {
        if levels > 1 {
            lists(t, levels - 1);
        }
    });
}

#[test]
fn lists_in_lists() {
    let table = Table::build(|t| lists(t, 32));
    assert_eq!(table.len(), 32);
    let bytes = table.to_bytes_within(32).unwrap();
    assert_eq!(bytes.len(), 94);
    assert_eq!(Table::from_bytes_within(32, &bytes), Ok(table));

    let table = Table::build(|t| lists(t, 33));
    assert_eq!(table.to_bytes_within(32), Err(Refusal::writing(Reason::TooDeep, 32)));
    // The same in bytes: the 33rd list is at offset 96.
    let bytes: Vec<u8> = (0..32).rev().flat_map(|n| [0xc0, 3 * n + 2, 1]).chain([0x45]).collect();
    assert_eq!(measure_within(32, &bytes), Err(Refusal::reading(Reason::TooDeep, 96)));
}

fn arrays(t: &Builder, levels: usize) {
    if levels > 1 {
        t.array(Kind::Array, |t| arrays(t, levels - 1));
    } else {
        t.empty_array(Kind::Uint);
    }
}

#[test]
fn arrays_in_arrays() {
    let table = Table::build(|t| arrays(t, 32));
    let bytes = table.to_bytes_within(32).unwrap();
    assert_eq!(table.words()[60..], [0xf0, of(0xf0, 1), 0xf0, of(0x70, 0)]);
    assert_eq!(bytes.len(), 289);
    assert_eq!(Table::from_bytes_within(32, &bytes), Ok(table));

    let table = Table::build(|t| arrays(t, 33));
    assert_eq!(table.to_bytes_within(32), Err(Refusal::writing(Reason::TooDeep, 32)));
    // The same in bytes, the short form throughout: too deep at the outermost array.
    let bytes: Vec<u8> = (0..33).rev().flat_map(|n| [0xe0, 3 * n + 1, u8::from(n > 0)]).collect();
    assert_eq!(measure_within(32, &bytes), Err(Refusal::reading(Reason::TooDeep, 0)));
}

#[test]
fn the_longest_string() {
    let string = |length| {
        Table::build(|t| {
            t.string("x".repeat(length));
        })
    };
    assert_eq!(string(1_048_571).size(), Ok(1_048_576));
    let bytes = string(1_048_571).to_bytes().unwrap();
    assert_eq!(Table::from_bytes(&bytes), Ok(string(1_048_571)));
    assert_eq!(string(1_048_572).size(), Err(Refusal::writing(Reason::TooLong, 0)));
}

#[test]
fn bad_and_missing_text() {
    assert_eq!(size(&[0xd0, 2, 0xb1, 2, 0xb1, 3], &hex("61 62 78 c3 28")), Err(Refusal::bad_text(3)));
    assert_eq!(size(&[0xd0, 2, 0xb1, 1, 0xb1, 3], &hex("61 ff")), Err(Refusal::writing(Reason::TextAmiss, 2)));
}

#[test]
fn the_widths_of_an_array() {
    // The element code and the elements: a body of 254 bytes, then one of 255.
    let short = bytes_of(&Table::build(|t| {
        t.array_of([7u8; 253]);
    }));
    assert_eq!(short[..4], hex("e0 ff fd 50"));
    assert_eq!(short.len(), 2 + 255);
    let wide = bytes_of(&Table::build(|t| {
        t.array_of([7u8; 254]);
    }));
    assert_eq!(wide[..10], hex("f0 00 00 01 03 00 00 00 fe 50"));
    assert_eq!(wide.len(), 5 + 259);

    // The same with a list as the element: its code, its size and its count, and a binary of its own code.
    let list = |length| {
        bytes_of(&Table::build(|t| {
            t.array_of_lists([[&vec![7u8; length]]]);
        }))
    };
    assert_eq!(list(243)[..14], hex("e0 ff 01 d0 00 00 00 f9 00 00 00 01 a0 f3"));
    assert_eq!(list(244)[..20], hex("f0 00 00 01 03 00 00 00 01 d0 00 00 00 fa 00 00 00 01 a0 f4"));
}

#[test]
fn read_and_refused() {
    for (bytes, reason, offset) in [
        ("", Reason::InputShort, 0),
        ("46", Reason::CodeUnknown, 0),
        ("56 02", Reason::PayloadBad, 0),
        ("c0 00", Reason::SizeAmiss, 0),
        ("c0 01 01", Reason::InputShort, 3),
        ("c0 03 01 45 45", Reason::SizeAmiss, 0),
        ("c0 05 01 40", Reason::InputShort, 0),
        ("c1 02 01 40", Reason::SizeAmiss, 0),
        ("e0 02 01 40", Reason::ElementUnfit, 0),
        ("e0 02 01 45", Reason::ElementUnfit, 0),
        ("e0 05 01 c0 02 01 46", Reason::CodeUnknown, 0),
        ("e0 05 01 c1 02 01 40", Reason::SizeAmiss, 0),
        ("e0 06 01 c0 03 01 40 40", Reason::SizeAmiss, 0),
        ("e0 04 01 c0 02 00 40", Reason::InputShort, 0),
        ("c0 09 01 e0 06 01 e0 03 01 56 02", Reason::PayloadBad, 3),
        ("a1 03 e2 82 41", Reason::PayloadBad, 2),
        ("e0 06 02 a1 01 61 01 80", Reason::PayloadBad, 7),
    ] {
        let (found, _) = within_each(|form| form.table_of(&hex(bytes)));
        assert_eq!(found, Err(Refusal::reading(reason, offset)), "{bytes}");
    }
}

#[test]
fn read() {
    let front = Table::from_prefix(&hex("40 40"));
    assert_eq!(front, Ok((Table::build(|t| t.null()), 1)));
    assert_eq!(Table::from_bytes(&hex("40 40")), Err(Refusal::reading(Reason::BytesLeft, 1)));

    let whole = |digits: &str, table: Table| {
        let bytes = hex(digits);
        assert_eq!(measure(&bytes), Ok(Extent { length: bytes.len(), rows: table.len(), text: table.text().len() }));
        assert_eq!(Table::from_bytes(&bytes), Ok(table));
    };
    whole("e0 02 00 70", Table::build(|t| t.empty_array(Kind::Uint)));
    whole("e0 01 00", Table::from(Value::Array { count: 0, element: None }));
    whole("e0 07 02 c0 02 01 40 01 00", Table::build(|t| t.array_of_lists([vec![()], vec![]])));
}

#[test]
fn listed() {
    let bytes = hex("c1 06 02 a3 01 76 52 02");
    let table = Table::from_bytes(&bytes).unwrap();
    assert_eq!(format!("{table}end {}\n", bytes.len()), "0 d1 2\n1 b3 1\n2 70 2\nend 8\n");
    // An array's number is listed as it is.
    assert_eq!(Table::from_bytes(&hex("e0 02 00 70")).unwrap().to_string(), "0 f0 481036337152\n");
}
