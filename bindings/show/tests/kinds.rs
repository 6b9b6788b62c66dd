//! Each of the 25 kinds: its line, and its JSON.

mod common;

use common::{hex, run, tree};

/// Bytes, the line without offset and length, and what JSON has behind the name of the kind.
const KINDS: [(&str, &str, &str); 56] = [
    ("40", "null", r#""value":null"#),
    ("41", "boolean true", r#""value":true"#),
    ("42", "boolean false", r#""value":false"#),
    ("56 01", "boolean true", r#""value":true"#),
    ("50 ff", "ubyte 255", r#""value":255"#),
    ("51 80", "byte -128", r#""value":-128"#),
    ("60 ff ff", "ushort 65535", r#""value":65535"#),
    ("61 ff fe", "short -2", r#""value":-2"#),
    ("43", "uint 0", r#""value":0"#),
    ("52 07", "uint 7", r#""value":7"#),
    ("70 ff ff ff ff", "uint 4294967295", r#""value":4294967295"#),
    ("54 f4", "int -12", r#""value":-12"#),
    ("71 80 00 00 00", "int -2147483648", r#""value":-2147483648"#),
    ("44", "ulong 0", r#""value":"0""#),
    ("80 ff ff ff ff ff ff ff ff", "ulong 18446744073709551615", r#""value":"18446744073709551615""#),
    ("55 ff", "long -1", r#""value":"-1""#),
    ("81 80 00 00 00 00 00 00 00", "long -9223372036854775808", r#""value":"-9223372036854775808""#),
    ("72 3f c0 00 00", "float 1.5", r#""value":1.5,"bits":"3fc00000""#),
    ("72 3d cc cc cd", "float 0.1", r#""value":0.1,"bits":"3dcccccd""#),
    ("72 80 00 00 00", "float -0.0", r#""value":-0.0,"bits":"80000000""#),
    ("72 7f c0 00 01", "float NaN (0x7fc00001)", r#""value":"NaN","bits":"7fc00001""#),
    ("72 7f 80 00 00", "float inf", r#""value":"Infinity","bits":"7f800000""#),
    ("72 7f 7f ff ff", "float 3.4028235e38", r#""value":3.4028235e38,"bits":"7f7fffff""#),
    ("82 3f b9 99 99 99 99 99 9a", "double 0.1", r#""value":0.1,"bits":"3fb999999999999a""#),
    ("82 ff f0 00 00 00 00 00 00", "double -inf", r#""value":"-Infinity","bits":"fff0000000000000""#),
    ("82 ff f8 00 00 00 00 00 02", "double NaN (0xfff8000000000002)", r#""value":"NaN","bits":"fff8000000000002""#),
    ("82 00 00 00 00 00 00 00 01", "double 5e-324", r#""value":5e-324,"bits":"0000000000000001""#),
    ("74 22 50 00 01", "decimal32 0x22500001", r#""bits":"22500001""#),
    ("84 22 50 00 00 00 00 00 01", "decimal64 0x2250000000000001", r#""bits":"2250000000000001""#),
    (
        "94 000102030405060708090a0b0c0d0e0f",
        "decimal128 0x000102030405060708090a0b0c0d0e0f",
        r#""bits":"000102030405060708090a0b0c0d0e0f""#,
    ),
    ("73 00 00 00 d8", "char 'Ø' (U+00D8)", r#""value":"Ø""#),
    ("73 00 00 00 27", r"char '\'' (U+0027)", r#""value":"'""#),
    ("73 00 00 20 2e", r"char '\u{202e}' (U+202E)", r#""value":"\u202e""#),
    ("73 00 01 f6 00", "char '😀' (U+1F600)", r#""value":"😀""#),
    (
        "83 00 00 01 9a 84 cf c4 00",
        "timestamp 1763164800000 (2025-11-15T00:00:00Z)",
        r#""value":"1763164800000","date":"2025-11-15T00:00:00Z""#,
    ),
    (
        "83 ff ff ff ff ff ff ff ff",
        "timestamp -1 (1969-12-31T23:59:59.999Z)",
        r#""value":"-1","date":"1969-12-31T23:59:59.999Z""#,
    ),
    (
        "98 6f1c0a523b8e4d109a7721e455d00c3f",
        "uuid 6f1c0a52-3b8e-4d10-9a77-21e455d00c3f",
        r#""value":"6f1c0a52-3b8e-4d10-9a77-21e455d00c3f""#,
    ),
    ("a0 00", "binary of no bytes", r#""value":"""#),
    ("a0 03 00 ff 22", "binary 00ff22", r#""value":"00ff22""#),
    ("b0 00 00 00 01 22", "binary 22", r#""value":"22""#),
    ("a1 00", r#"string """#, r#""value":"""#),
    ("a1 05 c3 98 31 2e 32", r#"string "Ø1.2""#, r#""value":"Ø1.2""#),
    ("a1 06 22 5c 0a 09 0d 27", r#"string "\"\\\n\t\r'""#, r#""value":"\"\\\n\t\r'""#),
    ("a1 04 00 1b 7f 2f", r#"string "\0\u{1b}\u{7f}/""#, r#""value":"\u0000\u001b\u007f/""#),
    ("a1 07 c2 85 e2 80 ae 20 61", r#"string "\u{85}\u{202e} a""#, r#""value":"\u0085\u202e a""#),
    ("a1 04 f3 a0 81 81", r#"string "\u{e0041}""#, r#""value":"\udb40\udc41""#),
    ("a3 04 6c 65 66 74", r#"symbol "left""#, r#""value":"left""#),
    ("b3 00 00 00 01 00", r#"symbol "\0""#, r#""value":"\u0000""#),
    ("45", "list of 0", r#""children":[]"#),
    ("c0 01 00", "list of 0", r#""children":[]"#),
    ("c1 01 00", "map of 0 entries", r#""entries":[]"#),
    ("e0 01 00", "array of 0, of no told kind", r#""element":null,"elements":[]"#),
    ("e0 02 00 52", "array of 0 uints", r#""element":"uint","elements":[]"#),
    ("e0 02 00 a0", "array of 0 binaries", r#""element":"binary","elements":[]"#),
    ("f0 00 00 00 05 00 00 00 00 f0", "array of 0 arrays", r#""element":"array","elements":[]"#),
    ("d1 00 00 00 04 00 00 00 00", "map of 0 entries", r#""entries":[]"#),
];

#[test]
fn each_kind_has_its_line() {
    for (bytes, line, _) in KINDS {
        let bytes = hex(bytes);
        let ran = run(&[], &bytes);
        assert_eq!((ran.status, ran.err.as_str()), (Some(0), ""), "{line}");
        assert_eq!(ran.out, format!("offset length\n     0 {:>6}  {line}\n", bytes.len()));
    }
}

#[test]
fn each_kind_has_its_json() {
    for (bytes, line, json) in KINDS {
        let bytes = hex(bytes);
        let kind = line.split(' ').next().unwrap();
        let ran = run(&["--json"], &bytes);
        assert_eq!((ran.status, ran.err.as_str()), (Some(0), ""), "{line}");
        assert_eq!(ran.out, format!("{{\"offset\":0,\"length\":{},\"kind\":\"{kind}\",{json}}}\n", bytes.len()));
    }
}

#[test]
fn all_values_of_a_file_are_shown() {
    let bytes: Vec<u8> = KINDS.iter().flat_map(|(bytes, ..)| hex(bytes)).collect();
    let lines = tree(&[], &bytes);
    assert!(lines.iter().map(String::as_str).eq(KINDS.iter().map(|(_, line, _)| *line)), "{lines:#?}");
}

#[test]
fn a_described_value_has_two_parts() {
    let bytes = hex("40 00 53 24 c0 02 01 40");
    let due =
        "offset length\n     0      1  null\n     1      7  described\n     2      2    descriptor: ulong 36\n     \
               4      4    list of 1\n     7      1      null\n";
    assert_eq!(run(&[], &bytes).out, due);
    let due = concat!(
        r#"{"offset":0,"length":1,"kind":"null","value":null}"#,
        "\n",
        r#"{"offset":1,"length":7,"kind":"described","descriptor":{"offset":2,"length":2,"kind":"ulong","value":"36"},"#,
        r#""value":{"offset":4,"length":4,"kind":"list","children":[{"offset":7,"length":1,"kind":"null","value":null}]}}"#,
        "\n"
    );
    assert_eq!(run(&["--json"], &bytes).out, due);
}

#[test]
fn an_entry_stands_beside_its_key() {
    // left: 2; a list of 7 and 8: a list of 9; an empty list: null
    let bytes = hex("c1 17 06 a3 04 6c 65 66 74 52 02 c0 05 02 52 07 52 08 c0 03 01 52 09 45 40");
    let due = "\
offset length
     0     25  map of 3 entries
     3      8    symbol \"left\": uint 2
    11      7    key: list of 2
    14      2      uint 7
    16      2      uint 8
    18      5    value: list of 1
    21      2      uint 9
    23      2    list of 0: null
";
    assert_eq!(run(&[], &bytes).out, due);
    let json = run(&["--json"], &hex("c1 08 04 a3 01 61 52 02 43 44")).out;
    let due = concat!(
        r#"{"offset":0,"length":10,"kind":"map","entries":["#,
        r#"{"key":{"offset":3,"length":3,"kind":"symbol","value":"a"},"value":{"offset":6,"length":2,"kind":"uint","value":2}},"#,
        r#"{"key":{"offset":8,"length":1,"kind":"uint","value":0},"value":{"offset":9,"length":1,"kind":"ulong","value":"0"}}]}"#,
        "\n"
    );
    assert_eq!(json, due);
}

#[test]
fn an_element_stands_at_its_payload() {
    let due = "\
offset length
     0     25  array of 2 lists
     4     10    list of 1
    12      2      uint 1
    14     11    list of 2
    22      2      uint 2
    24      1      uint 0
";
    let bytes = hex("e0 17 02 d0 00000006 00000001 5201 00000007 00000002 5202 43");
    assert_eq!(run(&[], &bytes).out, due);
    // arrays in an array, the second of no told kind
    let due = "\
offset length
     0     10  array of 2 arrays
     4      4    array of 1 ubyte
     7      1      ubyte 5
     8      2    array of 0, of no told kind
";
    let bytes = hex("e0 08 02 e0 03 01 50 05 01 00");
    assert_eq!(run(&[], &bytes).out, due);
    let json = run(&["--json"], &hex("e0 04 02 50 05 06")).out;
    let due = concat!(
        r#"{"offset":0,"length":6,"kind":"array","element":"ubyte","elements":["#,
        r#"{"offset":4,"length":1,"kind":"ubyte","value":5},{"offset":5,"length":1,"kind":"ubyte","value":6}]}"#,
        "\n"
    );
    assert_eq!(json, due);
}

#[test]
fn long_texts_and_binaries_are_cut_unless_all_is_asked_for() {
    let text = "a".repeat(5000);
    let bytes = [&hex("b1 00 00 13 88"), text.as_bytes()].concat();
    assert_eq!(tree(&[], &bytes), [format!("string \"{}\" … 5,000 bytes", &text[..80])]);
    assert_eq!(tree(&["--full"], &bytes), [format!("string \"{text}\"")]);
    assert!(run(&["--json"], &bytes).out.contains(&text));

    let bytes = [&hex("a0 29")[..], &[0xab; 41]].concat();
    assert_eq!(tree(&[], &bytes), [format!("binary {} … 41 bytes", "ab".repeat(40))]);
    assert_eq!(tree(&["--full"], &bytes), [format!("binary {}", "ab".repeat(41))]);
    assert!(run(&["--json"], &bytes).out.contains(&"ab".repeat(41)));
}
