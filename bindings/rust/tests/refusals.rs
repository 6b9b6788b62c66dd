//! Every refusal, 1 to 15, with its place; and that lent memory keeps what it held. 15 comes before all others: each of these is
//! tried within limits that may not be named as well.
mod forms;

use afsungar::{measure, size, Kind, Reason, Refusal, Table, Task};
use forms::{forms, Form, BYTE, OUTSIDE, WORD};

/// The number of an array's row: so many elements of this kind.
const fn of(kind: u64, count: u64) -> u64 {
    count + 4_294_967_296 * kind
}

/// Each form of the limits 16 and 32 with what is due, and each limit that may not be named with 15.
fn each_form(due: Refusal) -> impl Iterator<Item = (Form, Refusal)> {
    let outside = match due.task() {
        Task::Writing => Refusal::writing(Reason::LimitOutside, 0),
        Task::Reading => Refusal::reading(Reason::LimitOutside, 0),
    };
    let named = forms(16).into_iter().chain(forms(32)).map(move |form| (form, due));
    named.chain(OUTSIDE.map(|limit| (Form::Within(limit), outside)))
}

/// Sizing and writing refuse alike, and the output stays.
fn writing(words: &[u64], text: &[u8], reason: Reason, row: u64) {
    let due = Refusal::writing(reason, row);
    refused(&Table::from_parts(words.to_vec(), text.to_vec()), due);
    assert_eq!((due.number(), due.place(), due.task()), (reason.number(), row, Task::Writing));
}

fn refused(table: &Table, due: Refusal) {
    for (form, due) in each_form(due) {
        assert_eq!(form.bytes_of(table), Err(due), "{form:?} {table:?}");
    }
}

/// As `writing`, for text that is bad at this byte, of this row. The row by itself says the same.
fn bad_text(words: &[u64], text: &[u8], byte: u64, row: usize) {
    let table = Table::from_parts(words.to_vec(), text.to_vec());
    let due = Refusal::bad_text(byte);
    refused(&table, due);
    assert_eq!((due.number(), due.place(), due.task()), (6, byte, Task::Writing));
    let found = table.row_of_text_byte(byte).unwrap();
    assert_eq!((found.index, found.value(), table.values()), (row, Err(due), Err(due)), "{table:?}");
}

/// Measuring and reading refuse alike, and words and text stay.
fn reading(bytes: &[u8], reason: Reason, offset: u64) {
    for (form, due) in each_form(Refusal::reading(reason, offset)) {
        assert_eq!(form.table_of(bytes), Err(due), "{form:?} {bytes:x?}");
    }
    let due = Refusal::reading(reason, offset);
    assert_eq!((due.number(), due.place(), due.task()), (reason.number(), offset, Task::Reading));
}

#[test]
fn rows_amiss_1() {
    writing(&[], &[], Reason::RowsAmiss, 0);
    writing(&[0x40], &[], Reason::RowsAmiss, 0);
    writing(&[0x40, 0, 0x40], &[], Reason::RowsAmiss, 0);
    writing(&[0xd0, 2, 0x40, 0], &[], Reason::RowsAmiss, 2);
    writing(&[0x40, 0, 0x40, 0], &[], Reason::RowsAmiss, 1);
}

#[test]
fn kind_unknown_2() {
    writing(&[0xd0, 2, 0xff, 0], &[], Reason::KindUnknown, 1);
    writing(&[0x140, 0], &[], Reason::KindUnknown, 0);
    writing(&[u64::MAX, 0], &[], Reason::KindUnknown, 0);
}

#[test]
fn too_deep_3() {
    for form in [2, 15, 16, 17, 32].into_iter().flat_map(forms) {
        let levels = form.limit() as usize;
        let written = |words: &[u64]| form.bytes_of(&Table::from_parts(words.to_vec(), vec![]));
        let due = Err(Refusal::writing(Reason::TooDeep, form.limit()));
        assert_eq!(written(&[0xd0, 1].repeat(levels + 1)), due, "{form:?}");
        // Arrays, one in the other; and a list with a child as the last of them.
        let array = [0xf0, of(0xf0, 1)];
        let outer = array.repeat(levels - 2);
        assert_eq!(written(&array.repeat(levels + 1)), due, "{form:?}");
        assert_eq!(written(&[&outer[..], &[0xf0, of(0xd0, 1), 0xd0, 1, 0x40, 0]].concat()), due, "{form:?}");
        // Of another kind than told, and telling no kind: the level comes first.
        assert_eq!(written(&[&outer[..], &array, &[0xf0, of(0x70, 1), 0xf0, 0]].concat()), due, "{form:?}");

        // Described values, of which none is whole: the one that is too deep has no byte, and its level comes first.
        let bytes = vec![0; levels];
        assert_eq!(form.table_of(&bytes), Err(Refusal::reading(Reason::TooDeep, form.limit())), "{form:?}");
        // An array at the last level but one, whose element says that it has a child. None is there either.
        for code in [0xc0, 0xe0] {
            let bytes = [&bytes[2..], &[0xe0, 0x04, 0x01, code, 0x01, 0x01]].concat();
            assert_eq!(form.table_of(&bytes), Err(Refusal::reading(Reason::TooDeep, form.limit() - 2)), "{form:?}");
        }
    }
}

#[test]
fn element_unfit_4() {
    // Of another kind than told, the first too.
    writing(&[0xf0, of(0x70, 1), 0x71, 0], &[], Reason::ElementUnfit, 1);
    writing(&[0xf0, of(0x70, 2), 0x70, 0, 0x71, 0], &[], Reason::ElementUnfit, 2);
    writing(&[0xf0, of(0x70, 2), 0x71, 0, 0x71, 0], &[], Reason::ElementUnfit, 1);
    writing(&[0xf0, of(0xd0, 2), 0xd0, 0, 0xd1, 0], &[], Reason::ElementUnfit, 2);
    // Null and described, which no array can tell.
    writing(&[0xf0, of(0x70, 1), 0x40, 0], &[], Reason::ElementUnfit, 1);
    writing(&[0xf0, of(0xd0, 1), 0x00, 2, 0x40, 0, 0x40, 0], &[], Reason::ElementUnfit, 1);
    // Within elements that are arrays or lists, where each array tells its own kind.
    let inner = [0xf0, of(0xf0, 2), 0xf0, of(0x50, 1), 0x50, 5, 0xf0, of(0x56, 2), 0x56, 1, 0x50, 0];
    writing(&inner, &[], Reason::ElementUnfit, 5);
    writing(&[0xf0, of(0xd0, 1), 0xd0, 1, 0xf0, of(0xf0, 1), 0x40, 0], &[], Reason::ElementUnfit, 3);
    // Null is told: at the array, whatever its count, and whatever is behind it.
    for count in [0, 1, 1_048_577, 4_294_967_295] {
        writing(&[0xf0, of(0x40, count)], &[], Reason::ElementUnfit, 0);
        writing(&[0xf0, of(0x40, count), 0x40, 0], &[], Reason::ElementUnfit, 0);
        writing(&[0xd0, 2, 0x40, 0, 0xf0, of(0x40, count)], &[], Reason::ElementUnfit, 2);
        writing(&[0xf0, of(0xf0, 1), 0xf0, of(0x40, count)], &[], Reason::ElementUnfit, 1);
    }
    for code in (0x40..=0x45).chain([0x00]) {
        reading(&[0xe0, 0x02, 0x01, code], Reason::ElementUnfit, 0);
        reading(&[0xe0, 0x02, 0x00, code], Reason::ElementUnfit, 0);
        reading(&[0xe0, 0x05, 0x01, 0xe0, 0x02, 0x01, code], Reason::ElementUnfit, 0);
    }
    reading(&[0xc0, 0x06, 0x01, 0xe0, 0x03, 0x00, 0x40, 0x40], Reason::ElementUnfit, 3);
}

#[test]
fn number_outside_5() {
    for bad in [
        [0x40, 1],
        [0x56, 2],
        [0x50, 256],
        [0x51, 256],
        [0x60, 65_536],
        [0x70, 1 << 32],
        [0x71, u64::MAX],
        [0x72, 1 << 32],
        [0x73, 0xd800],
        [0x73, 0x11_0000],
        [0x98, 16],
        [0xd1, 1],
        [0x00, 3],
        [0xb0, 1_048_577],
        [0xd0, 1_048_577],
    ] {
        writing(&bad, &[], Reason::NumberOutside, 0);
        writing(&[0xd0, 1, bad[0], bad[1]], &[], Reason::NumberOutside, 1);
    }
}

#[test]
fn number_outside_5_in_arrays() {
    let mut bad = vec![of(0x70, 1_048_577), of(0xf0, u64::from(u32::MAX)), u64::MAX];
    // Not told, with elements behind it or not; the same number would tell described.
    bad.extend([0, 1, 2, 1_048_577]);
    // What is no kind: the codes of short forms, and what has the code of a kind in its lowest byte.
    bad.extend((1..=0xff).filter(|&code| Kind::from_code(code).is_none()).map(|code| of(code, 0)));
    bad.extend([0x100, 0x140, 0x170, 0x8000_0070, 0xffff_ff70].map(|code| of(code, 1)));
    for number in bad {
        writing(&[0xf0, number], &[], Reason::NumberOutside, 0);
        writing(&[0xf0, number, 0x70, 0], &[], Reason::NumberOutside, 0);
        writing(&[0xf0, number, 0x00, 2, 0x40, 0, 0x40, 0], &[], Reason::NumberOutside, 0);
        writing(&[0xd0, 2, 0x40, 0, 0xf0, number], &[], Reason::NumberOutside, 2);
        writing(&[0xf0, of(0xf0, 1), 0xf0, number], &[], Reason::NumberOutside, 1);
        // As an element of another kind than told it is that first.
        writing(&[0xf0, of(0x70, 1), 0xf0, number], &[], Reason::ElementUnfit, 1);
    }
}

#[test]
fn text_amiss_6() {
    // Too short: at the row.
    writing(&[0xb1, 3], b"ab", Reason::TextAmiss, 0);
    writing(&[0x98, 0], &[0; 15], Reason::TextAmiss, 0);
    writing(&[0x94, 0], &[], Reason::TextAmiss, 0);
    writing(&[0xd0, 2, 0xb1, 2, 0xb3, 1], b"ab", Reason::TextAmiss, 2);
    // Left: at the number of rows.
    writing(&[0xb0, 1], b"ab", Reason::TextAmiss, 1);
    writing(&[0xd0, 2, 0xb0, 2, 0x40, 0], &[0xff; 9], Reason::TextAmiss, 3);
}

#[test]
fn bad_text_6() {
    bad_text(&[0xb1, 1], &[0x80], 0, 0);
    bad_text(&[0xb1, 4], &[b'x', 0xc3, 0xc3, 0x98], 1, 0);
    bad_text(&[0xb3, 4], "x\u{7f}Ø".as_bytes(), 2, 0);
    // A symbol has no sequences: its fault is its first byte that is not ASCII, whatever stands behind it.
    bad_text(&[0xb3, 5], &[b'x', 0xc3, 0x98, 0xff, b'x'], 1, 0);
    // Cut off, overlong, a surrogate, above 10ffff, and bytes that begin nothing: at the first byte of each.
    let faults: [&[u8]; 14] = [
        &[0xc3],
        &[0xe2, 0x82],
        &[0xf0, 0x9f, 0x98],
        &[0xc0, 0x80],
        &[0xc1, 0xbf],
        &[0xe0, 0x80, 0x80],
        &[0xe0, 0x9f, 0xbf],
        &[0xf0, 0x8f, 0xbf, 0xbf],
        &[0xed, 0xa0, 0x80],
        &[0xf4, 0x90, 0x80, 0x80],
        &[0xf5, 0x80, 0x80, 0x80],
        &[0xe2, 0x82, 0x41],
        &[0xbf],
        &[0xff],
    ];
    for fault in faults {
        for before in ["", "M4", "Ø", "€\u{10ffff}"] {
            let at = before.len();
            for behind in [&b""[..], b"x"] {
                let text = [before.as_bytes(), fault, behind].concat();
                bad_text(&[0xb1, text.len() as u64], &text, at as u64, 0);
            }
            // Alone, behind other texts: the bytes of all of them count, whatever they hold.
            let text = [&[0xff; 16][..], &[0x80; 3], b"M4", "Ø".as_bytes(), before.as_bytes(), fault].concat();
            let words = [0xd0, 5, 0x98, 0, 0xb0, 3, 0xb3, 2, 0xb1, 2, 0xb1, (at + fault.len()) as u64];
            bad_text(&words, &text, 16 + 3 + 2 + 2 + at as u64, 5);
        }
    }
}

#[test]
fn bad_text_6_behind_and_in_other_rows() {
    // A sequence that is split over two rows is a fault of the first. What is bad in the second does not count.
    bad_text(&[0xd0, 2, 0xb1, 1, 0xb1, 1], "Ø".as_bytes(), 0, 1);
    bad_text(&[0xd0, 3, 0xb1, 1, 0xb1, 2, 0xb3, 1], &[b'x', b'x', 0xc3, 0xff], 2, 2);
    // The row that has the byte is not the one before it, whose text is empty.
    bad_text(&[0xd0, 4, 0xb1, 0, 0xb3, 1, 0xb3, 0, 0xb1, 1], &[b'x', 0xc3], 1, 4);
    // In arrays, maps, described values, and below them.
    bad_text(&[0xf0, of(0xb1, 2), 0xb1, 2, 0xb1, 2], &[b'M', b'4', b'M', 0xff], 3, 2);
    bad_text(&[0xf0, of(0xf0, 2), 0xf0, of(0xb3, 1), 0xb3, 1, 0xf0, of(0xb3, 1), 0xb3, 1], &[b'x', 0x80], 1, 4);
    bad_text(&[0xd1, 2, 0xb3, 1, 0xf0, of(0xd0, 1), 0xd0, 1, 0xb1, 3], &[b'v', b'x', 0xe2, 0x82], 2, 4);
    bad_text(&[0x00, 2, 0xb3, 2, 0x94, 0], &[[0xc3, 0x98].as_slice(), &[0; 16]].concat(), 0, 1);
    // Behind a text that makes the table too long, which is found out last.
    let text = [vec![b'x'; 1_048_576], vec![0xff]].concat();
    bad_text(&[0xd0, 2, 0xb1, 1_048_576, 0xb3, 1], &text, 1_048_576, 2);
}

/// The number of a row is the number of a byte too, and that byte may be of any text.
#[test]
fn text_amiss_6_at_a_row_is_at_no_byte() {
    // Too short comes before bad, even where what is there is bad already.
    writing(&[0xb1, 2], &[0xff], Reason::TextAmiss, 0);
    writing(&[0xd0, 2, 0xb1, 1, 0xb1, 3], &[b'x', 0xff], Reason::TextAmiss, 2);
    writing(&[0xd0, 3, 0xb0, 1, 0xb3, 2, 0x98, 0], &[0xff; 2], Reason::TextAmiss, 2);
    writing(&[0xd0, 2, 0xb0, 3, 0xb3, 1], &[0xff; 3], Reason::TextAmiss, 2);
    // Bad text comes before a later row that is too short, and before text that is left.
    bad_text(&[0xd0, 2, 0xb1, 3, 0xb1, 9], &[b'x', b'x', 0xff], 2, 1);
    bad_text(&[0xb1, 2], &[b'x', 0xff, b'x'], 1, 0);
    // Text left, with a byte of the number of rows that is no one's, or a binary's, or within a sequence.
    writing(&[0xb1, 1], &[b'x', 0xff], Reason::TextAmiss, 1);
    writing(&[0xb0, 2], &[0xff; 3], Reason::TextAmiss, 1);
    writing(&[0xb1, 2], &[0xc3, 0x98, 0x98], Reason::TextAmiss, 1);
    // A text of the greatest length is good by itself, though it makes the table too long.
    let long = vec![b'x'; 1_048_576];
    writing(&[0xd0, 2, 0xb1, 1_048_576, 0xb3, 1], &long, Reason::TextAmiss, 2);
    writing(&[0xb1, 1_048_576], &[&long[..], &[0xff]].concat(), Reason::TextAmiss, 1);
}

#[test]
fn too_long_7() {
    let half = vec![0; 600_000];
    let table = Table::build(|t| {
        t.list_of([&half, &half]);
    });
    writing(table.words(), table.text(), Reason::TooLong, 0);
}

#[test]
fn output_short_8() {
    for (form, due) in each_form(Refusal::writing(Reason::OutputShort, 0)) {
        assert_eq!(form.write(&[0x40, 0], &[], &mut []), Err(due), "{form:?}");
        let mut out = [BYTE; 4];
        assert_eq!(form.write(&[0x70, 256], &[], &mut out), Err(due), "{form:?}");
        assert_eq!(out, [BYTE; 4]);
    }
}

#[test]
fn input_short_9() {
    reading(&[], Reason::InputShort, 0);
    reading(&[0x70, 0, 0, 0], Reason::InputShort, 0);
    reading(&[0xc0, 0x01, 0x01], Reason::InputShort, 3);
    // The input goes on, the list does not.
    reading(&[0xc0, 0x02, 0x01, 0x50, 0x07], Reason::InputShort, 3);
    // A count of four thousand million over a body of two bytes.
    reading(&[0xd0, 0, 0, 0, 6, 0xee, 0x6b, 0x28, 0, 0x40, 0x40], Reason::InputShort, 11);
    // An array's element that is longer than the array's body, and one that misses its child: at the array.
    reading(&[0xc0, 0x08, 0x02, 0x40, 0xe0, 0x04, 0x01, 0xc0, 0x02, 0x00, 0x40], Reason::InputShort, 4);
    reading(&[0xc0, 0x07, 0x02, 0x40, 0xe0, 0x04, 0x01, 0xc0, 0x01, 0x01], Reason::InputShort, 4);
}

#[test]
fn code_unknown_10() {
    reading(&[0x46], Reason::CodeUnknown, 0);
    reading(&[0x00, 0x40, 0xff], Reason::CodeUnknown, 2);
    // In an array's element, and before what is wrong with the next element: its size.
    reading(&[0xc0, 0x09, 0x02, 0x40, 0xe0, 0x05, 0x01, 0xc0, 0x02, 0x01, 0x46], Reason::CodeUnknown, 4);
    reading(&[0xe0, 0x07, 0x02, 0xc0, 0x02, 0x01, 0x46, 0x05, 0x01], Reason::CodeUnknown, 0);
}

#[test]
fn payload_bad_11() {
    reading(&[0x56, 0x02], Reason::PayloadBad, 0);
    reading(&[0x73, 0, 0, 0xd8, 0], Reason::PayloadBad, 0);
    reading(&[0xc0, 0x04, 0x02, 0x40, 0x56, 0xff], Reason::PayloadBad, 4);
    // In an array, in an array in a list in an array, and in an array in an array in a list: at the outermost array.
    reading(&[0xc0, 0x08, 0x02, 0x40, 0xe0, 0x04, 0x02, 0x56, 0x01, 0xe0], Reason::PayloadBad, 4);
    reading(&[0xe0, 0x06, 0x01, 0x73, 0x00, 0x11, 0x00, 0x00], Reason::PayloadBad, 0);
    reading(&[0xe0, 0x0a, 0x01, 0xc0, 0x07, 0x02, 0x40, 0xe0, 0x03, 0x01, 0x56, 0x02], Reason::PayloadBad, 0);
    reading(&[0xc0, 0x09, 0x01, 0xe0, 0x06, 0x01, 0xe0, 0x03, 0x01, 0x56, 0x02], Reason::PayloadBad, 3);
}

/// At the faulty byte, wherever it stands.
#[test]
fn bad_text_11() {
    reading(&[0xa1, 0x01, 0xc3], Reason::PayloadBad, 2);
    reading(&[0xa1, 0x03, 0xe2, 0x82, 0x41], Reason::PayloadBad, 2);
    reading(&[0xa1, 0x04, b'x', 0xc3, 0x98, 0x98], Reason::PayloadBad, 5);
    reading(&[0xb1, 0, 0, 0, 3, b'x', 0xf0, 0x9f, 0x98, 0x80], Reason::PayloadBad, 6);
    reading(&[0xa3, 0x03, b'x', 0xc3, 0x98], Reason::PayloadBad, 3);
    reading(&[0xb3, 0, 0, 0, 1, 0x80], Reason::PayloadBad, 5);
    // In a list, behind other texts and a binary; in a map; in a described value.
    let list = [0xc0, 0x0b, 0x03, 0xa1, 0x02, 0xc3, 0x98, 0xa0, 0x01, 0xff, 0xa1, 0x01, 0xc3];
    reading(&list, Reason::PayloadBad, 12);
    reading(&[0xc1, 0x06, 0x02, 0x40, 0xa3, 0x02, b'v', 0xff], Reason::PayloadBad, 7);
    reading(&[0x00, 0xa3, 0x01, 0x80, 0x40], Reason::PayloadBad, 3);
    // In an array, in arrays in an array, in a list in an array, and in an array in a list in an array.
    reading(&[0xe0, 0x06, 0x02, 0xa1, 0x01, 0x61, 0x01, 0x80], Reason::PayloadBad, 7);
    let arrays = [0xe0, 0x0b, 0x02, 0xe0, 0x03, 0x01, 0x56, 0x01, 0x04, 0x01, 0xa3, 0x01, 0xff];
    reading(&arrays, Reason::PayloadBad, 12);
    reading(&[0xc0, 0x0a, 0x01, 0xe0, 0x07, 0x01, 0xc0, 0x04, 0x01, 0xa1, 0x01, 0xe0], Reason::PayloadBad, 11);
    let deep = [0xe0, 0x0b, 0x01, 0xc0, 0x08, 0x02, 0x40, 0xe0, 0x04, 0x01, 0xa1, 0x01, 0xf0];
    reading(&deep, Reason::PayloadBad, 12);
    // What looks like an array with a bad boolean, in a string.
    reading(&[0xa1, 0x05, 0xe0, 0x03, 0x01, 0x56, 0x02], Reason::PayloadBad, 2);
    // Too short comes before bad.
    reading(&[0xa1, 0x02, 0xff], Reason::InputShort, 0);
    reading(&[0xe0, 0x04, 0x01, 0xa1, 0x02, 0xff, 0xff], Reason::InputShort, 0);
}

#[test]
fn bad_text_11_behind_other_values() {
    // Null, string M4, and a list with a bad symbol: its place is counted from where the walker stays, and by the iterator in
    // all bytes.
    let bytes = [0x40, 0xa1, 0x02, 0x4d, 0x34, 0xc0, 0x05, 0x01, 0xa3, 0x02, b'v', 0xff];
    for form in forms(16).into_iter().chain(forms(32)) {
        let mut walker = form.walker(&bytes, 0);
        assert_eq!((walker.step(), walker.step()), (Some(Ok(&bytes[..1])), Some(Ok(&bytes[1..5]))));
        for _ in 0..2 {
            assert_eq!(walker.step(), Some(Err(Refusal::reading(Reason::PayloadBad, 6))));
            assert_eq!(walker.offset(), 5);
        }
        let mut values = form.values(&bytes);
        let refused = values.nth(2).unwrap().unwrap_err();
        assert_eq!(refused.refusal(), Refusal::reading(Reason::PayloadBad, 11));
        assert_eq!((refused.index(), refused.start()), (2, 5));
        assert_eq!((values.offset(), values.next()), (5, None));
    }
}

#[test]
fn size_amiss_12() {
    reading(&[0xc0, 0x00], Reason::SizeAmiss, 0);
    reading(&[0xd0, 0, 0, 0, 3], Reason::SizeAmiss, 0);
    reading(&[0x00, 0x40, 0xc1, 0x02, 0x01, 0x40], Reason::SizeAmiss, 2);
    reading(&[0xc0, 0x03, 0x01, 0x45, 0x45], Reason::SizeAmiss, 0);
    // In an array's element: a size below its count field, an odd map, a byte left.
    reading(&[0x00, 0x40, 0xe0, 0x04, 0x01, 0xc0, 0x00, 0x00], Reason::SizeAmiss, 2);
    reading(&[0x00, 0x40, 0xe0, 0x05, 0x01, 0xc1, 0x02, 0x01, 0x40], Reason::SizeAmiss, 2);
    reading(&[0x00, 0x40, 0xe0, 0x06, 0x01, 0xc0, 0x03, 0x01, 0x40, 0x40], Reason::SizeAmiss, 2);
}

#[test]
fn rows_short_13_and_text_short_14() {
    let bytes = [0xc0, 0x05, 0x01, 0xa1, 0x02, 0x4d, 0x34]; // a list of string M4
    let (mut words, mut text) = ([WORD; 5], [BYTE; 2]);
    for (form, due) in each_form(Refusal::reading(Reason::RowsShort, 0)) {
        // A lone last word is room for no row.
        for room in 0..4 {
            assert_eq!(form.read(&bytes, &mut words[..room], &mut text), Err(due), "{form:?}");
            assert_eq!(form.read(&bytes, &mut words[..room], &mut []), Err(due), "{form:?}");
        }
    }
    for (form, due) in each_form(Refusal::reading(Reason::TextShort, 0)) {
        assert_eq!(form.read(&bytes, &mut words, &mut text[..1]), Err(due), "{form:?}");
    }
    assert_eq!((words, text), ([WORD; 5], [BYTE; 2]));
    assert_eq!(Form::Plain.read(&bytes, &mut words, &mut text).map(|extent| extent.rows), Ok(2));
    assert_eq!((words, &text), ([0xd0, 1, 0xb1, 2, WORD], b"M4"));
}

#[test]
fn numbers_and_words() {
    let mut seen = Vec::new();
    for (at, reason) in Reason::ALL.into_iter().enumerate() {
        assert_eq!(usize::from(reason.number()), at + 1);
        assert_eq!(Reason::from_number(reason.number()), Some(reason));
        assert_eq!(u8::from(reason), reason.number());
        for refusal in [Refusal::writing(reason, 7), Refusal::reading(reason, 7)] {
            let text = refusal.to_string();
            assert!(text.contains(&format!("({})", reason.number())), "{text}");
            let placed = !matches!(reason.number(), 7 | 8 | 13..=15);
            let writes = refusal.task() == Task::Writing;
            assert_eq!(text.ends_with(" at row 7"), placed && writes, "{text}");
            assert_eq!(text.ends_with(" at byte 7"), placed && !writes, "{text}");
            assert_eq!(refusal.row(), (placed && writes).then_some(7));
            assert_eq!(refusal.offset(), (placed && !writes).then_some(7));
            assert_eq!(refusal.text_byte(), None);
            assert_eq!(refusal.reason(), reason);
            seen.push(text);
        }
    }
    let refusal = Refusal::bad_text(7);
    assert_eq!((refusal.row(), refusal.text_byte(), refusal.offset()), (None, Some(7), None));
    assert_eq!(refusal.reason(), Reason::TextAmiss);
    assert_eq!(refusal.to_string(), "a string is not UTF-8 or a symbol not ASCII (6) at byte 7 of the text");
    seen.push(refusal.to_string());
    seen.sort();
    seen.dedup();
    assert_eq!(seen.len(), 15 + 10 + 1, "ten reasons have a place, and say a row or an offset; one may say a byte");
    assert_eq!(Reason::from_number(0), None);
    assert_eq!(Reason::from_number(16), None);
}

#[test]
fn as_errors() {
    let refusal = measure(&[0x46]).unwrap_err();
    let boxed: Box<dyn std::error::Error + Send + Sync> = refusal.into();
    assert_eq!(boxed.to_string(), "the format code is not one of the 40 (10) at byte 0");
    let io = std::io::Error::from(refusal);
    assert_eq!(io.kind(), std::io::ErrorKind::InvalidData);
    let io = std::io::Error::from(size(&[], &[]).unwrap_err());
    assert_eq!(io.kind(), std::io::ErrorKind::InvalidInput);
}
