//! Values that are refused: the words, the byte, the mark below it, and what is shown before it.

mod common;

use common::{hex, in_repository, run};

const DEEP: &str = "a value stands deeper than the level limit of the call";
const ELEMENT: &str = "an array's element code is not allowed";
const SHORT: &str = "a value goes on beyond its bytes";
const CODE: &str = "the format code is not one of the 40";
const PAYLOAD: &str = "a boolean, char, string or symbol is not valid";
const SIZE: &str = "a size or count does not fit its body";

/// Bytes, the number and the words of the refusal, the byte of the file, and the one where the value begins.
const REFUSED: [(&str, u8, &str, usize, usize); 24] = [
    ("46", 10, CODE, 0, 0),
    ("40 40 46", 10, CODE, 2, 2),
    ("c0 02 01 46", 10, CODE, 3, 0),
    ("40 00 53 24 c0 02 01 46", 10, CODE, 7, 1),
    ("e0 05 01 c0 02 01 46", 10, CODE, 0, 0),
    ("40 c0 09 02 40 e0 05 01 c0 02 01 46", 10, CODE, 5, 1),
    ("e0 02 01 40", 4, ELEMENT, 0, 0),
    ("41 c0 05 01 e0 02 01 45", 4, ELEMENT, 4, 1),
    ("70 00 00", 9, SHORT, 0, 0),
    ("00", 9, SHORT, 1, 0),
    ("c0 01 01", 9, SHORT, 3, 0),
    ("c0 05 01 40", 9, SHORT, 0, 0),
    ("40 a1 03 61", 9, SHORT, 1, 1),
    ("e0 02 01 c0", 9, SHORT, 0, 0),
    ("56 02", 11, PAYLOAD, 0, 0),
    ("c0 06 01 73 00 00 d8 00", 11, PAYLOAD, 3, 0),
    ("40 a1 03 e2 82 41", 11, PAYLOAD, 3, 1),
    ("c0 05 01 a3 02 61 ff", 11, PAYLOAD, 6, 0),
    ("e0 06 02 a1 01 61 01 80", 11, PAYLOAD, 7, 0),
    ("c0 00", 12, SIZE, 0, 0),
    ("c0 03 01 45 45", 12, SIZE, 0, 0),
    ("40 c0 05 01 c1 02 01 40", 12, SIZE, 4, 1),
    ("e0 05 01 c1 02 01 40", 12, SIZE, 0, 0),
    ("e0 03 00 70 46", 12, SIZE, 0, 0),
];

/// The two lines that have the refusal.
fn said(number: u8, words: &str, offset: usize, start: usize, before: &str) -> String {
    format!(
        "show: refused at byte {offset}: {words} ({number})\n      in the value that begins at byte {start}, {before}\n"
    )
}

#[test]
fn each_refusal_has_its_words_byte_and_mark() {
    for (digits, number, words, offset, start) in REFUSED {
        let bytes = hex(digits);
        let ran = run(&[], &bytes);
        assert_eq!(ran.status, Some(1), "{digits}");
        let before = match bytes[..start].len() {
            0 => "which is the first",
            1 => "behind 1 good value",
            _ => "behind 2 good values",
        };
        let rest = ran.err.strip_prefix(&said(number, words, offset, start, before));
        let rest = rest.unwrap_or_else(|| panic!("{digits}: {}", ran.err));
        let shown = bytes.iter().map(|byte| format!(" {byte:02x}")).collect::<String>();
        let dump = format!("     0 {shown}\n{}^^\n", " ".repeat(8 + 3 * offset));
        assert!(rest.ends_with(&dump), "{digits}: {}", ran.err);
    }
}

#[test]
fn each_refusal_has_its_json() {
    for (digits, number, words, offset, start) in REFUSED {
        let ran = run(&["--json"], &hex(digits));
        assert_eq!((ran.status, ran.err.as_str()), (Some(1), ""), "{digits}");
        let index = start; // each good value before it has one byte
        let due = format!(r#"{{"refused":{{"number":{number},"words":"{words}","offset":{offset},"value":{index}}}}}"#);
        assert_eq!(ran.out.lines().last(), Some(due.as_str()), "{digits}");
        assert_eq!(ran.out.lines().count(), index + 1, "{digits}");
    }
}

#[test]
fn the_levels_end_at_32() {
    let ran = run(&[], &[0; 40]);
    assert_eq!(ran.status, Some(1));
    let mark = "    16  00 00 00 00 00 00 00 00 00 00 00 00 00 00 00 00\n    32  00 00 00 00 00 00 00 00\n        ^^\n";
    assert_eq!(ran.err, said(3, DEEP, 32, 0, "which is the first") + mark);
    let last = format!("    32         {}descriptor: refused", " ".repeat(64));
    assert_eq!((ran.out.lines().count(), ran.out.lines().last()), (34, Some(last.as_str())));

    // 32 levels are good: 31 lists around an empty one
    let mut deep = vec![0x45];
    for _ in 0..31 {
        deep = [&[0xc0, deep.len() as u8 + 1, 1], &deep[..]].concat();
    }
    assert_eq!(run(&[], &deep).status, Some(0));
    let deeper = [&[0xc0, deep.len() as u8 + 1, 1], &deep[..]].concat();
    let ran = run(&[], &deeper);
    assert!(ran.err.starts_with(&said(3, DEEP, 96, 0, "which is the first")), "{}", ran.err);
    let last = format!("    96         {}refused", " ".repeat(64));
    assert_eq!((ran.out.lines().count(), ran.out.lines().last()), (34, Some(last.as_str())));
}

#[test]
fn what_is_good_before_the_fault_is_shown() {
    let bytes = hex("40 c0 0f 04 52 05 c1 0a 04 a1 01 61 43 a1 01 62 46 40");
    let due = "\
offset length
     0      1  null
     1     17  list of 4, refused
     4      2    uint 5
     6     12    map of 2 entries, refused
     9      4      string \"a\": uint 0
    13             string \"b\": refused
";
    let ran = run(&[], &bytes);
    assert_eq!(ran.out, due);
    assert!(ran.err.starts_with(&said(10, CODE, 16, 1, "behind 1 good value")), "{}", ran.err);
}

#[test]
fn of_a_file_that_is_cut_off_the_values_that_are_there_are_shown() {
    let order = std::fs::read(in_repository("examples/order.amqp")).unwrap();
    let whole = run(&[], &order).out;
    let ran = run(&[], &order[..70]);
    let due = "\
offset length
     0         described, refused
     1     21    descriptor: symbol \"afsungar:order:list\"
    22           list of 7, refused
    25      9      ulong 4711
    34      9      timestamp 1763164800000 (2025-11-15T00:00:00Z)
    43     11      symbol \"ear-shell\"
    54      7      string \"Ø1.2\"
    61             refused
";
    assert_eq!(ran.out, due);
    assert!(ran.err.contains("      it would end at byte 190, and the input ends at byte 70\n"), "{}", ran.err);
    for length in 1..order.len() {
        let ran = run(&[], &order[..length]);
        assert_eq!(ran.status, Some(1), "{length}");
        // What is not refused stands in the whole order too.
        let good = |line: &&str| !line.ends_with("refused");
        assert!(ran.out.lines().filter(good).all(|line| whole.lines().any(|due| due == line)), "{length}: {}", ran.out);
    }
}

#[test]
fn a_list_with_bytes_left_over_has_all_its_children() {
    let ran = run(&[], &hex("c0 04 02 41 42 40"));
    let due = "\
offset length
     0      6  list of 2, refused
     3      1    boolean true
     4      1    boolean false
";
    assert_eq!(ran.out, due);
    assert!(ran.err.starts_with(&said(12, SIZE, 0, 0, "which is the first")), "{}", ran.err);
}

#[test]
fn the_end_of_the_input_is_told_only_where_it_is_in_the_way() {
    // a string of 5 bytes, all of them there, in a list that has room for none
    let ran = run(&[], &hex("c0 03 01 a1 05 61 62 63 64 65"));
    assert!(ran.err.starts_with(&said(9, SHORT, 3, 0, "which is the first")), "{}", ran.err);
    assert!(!ran.err.contains("it would end"), "{}", ran.err);
}

#[test]
fn a_map_of_an_odd_count_is_not_opened() {
    assert_eq!(run(&[], &hex("c1 04 03 41 42 40")).out, "offset length\n     0         refused\n");
}

#[test]
fn an_array_is_told_where_the_place_is_its_own() {
    let note = "      it is the array there that is refused, or something in it\n";
    assert!(run(&[], &hex("40 e0 05 01 c0 02 01 46")).err.contains(note));
    // a text in an array has a place of its own, also where its faulty byte is that of an array's code
    assert!(!run(&[], &hex("e0 06 02 a1 01 61 01 f0")).err.contains(note));
    assert!(!run(&[], &hex("a1 01 e0")).err.contains(note));
}

#[test]
fn the_dump_has_the_lines_around_the_fault() {
    let bytes = [&[0x40; 40][..], &hex("a1 05 61")].concat();
    let nulls = " 40".repeat(16);
    let due = format!("    16 {nulls}\n    32  40 40 40 40 40 40 40 40 a1 05 61\n{}^^\n", " ".repeat(32));
    let ran = run(&[], &bytes);
    assert!(ran.err.ends_with(&due), "{}", ran.err);
    assert!(ran.err.contains("in the value that begins at byte 40, behind 40 good values\n"), "{}", ran.err);

    // the byte that is missing is the first of a line
    let bytes = [&[0x40; 13][..], &hex("c0 01 01")].concat();
    let due = format!("     0 {} c0 01 01\n    16 \n        ^^\n", " 40".repeat(13));
    let ran = run(&[], &bytes);
    assert!(ran.err.ends_with(&due), "{}", ran.err);
}
