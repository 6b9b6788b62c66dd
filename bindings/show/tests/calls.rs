//! How the program is called, and how it ends.

mod common;

use std::fs::{self, File};
use std::io::Read;
use std::os::unix::fs::PermissionsExt;
use std::path::Path;
use std::process::{Command, Stdio};

use common::{command, hex, in_repository, run};

/// Whether a text is one value of JSON.
fn is_json(text: &str) -> bool {
    value(text.as_bytes()).is_some_and(|rest| rest.is_empty())
}

/// What is left behind the value at the front.
fn value(text: &[u8]) -> Option<&[u8]> {
    match text.first()? {
        b'{' => items(&text[1..], b'}', |text| value(string(text)?.strip_prefix(b":")?)),
        b'[' => items(&text[1..], b']', value),
        b'"' => string(text),
        b't' => text.strip_prefix(b"true"),
        b'f' => text.strip_prefix(b"false"),
        b'n' => text.strip_prefix(b"null"),
        _ => {
            let end = text.iter().position(|byte| b",]}".contains(byte)).unwrap_or(text.len());
            let digits = std::str::from_utf8(&text[..end]).ok()?;
            digits.parse::<f64>().ok().filter(|number| number.is_finite())?;
            Some(&text[end..])
        }
    }
}

fn items(mut text: &[u8], end: u8, item: impl Fn(&[u8]) -> Option<&[u8]>) -> Option<&[u8]> {
    if text.first() == Some(&end) {
        return Some(&text[1..]);
    }
    loop {
        text = item(text)?;
        match text.split_first()? {
            (b',', rest) => text = rest,
            (byte, rest) if *byte == end => return Some(rest),
            _ => return None,
        }
    }
}

fn string(text: &[u8]) -> Option<&[u8]> {
    let mut rest = text.strip_prefix(b"\"")?;
    loop {
        rest = match rest {
            [b'"', rest @ ..] => return Some(rest),
            [b'\\', b'u', digits @ ..] if digits.get(..4)?.iter().all(u8::is_ascii_hexdigit) => &digits[4..],
            [b'\\', b'"' | b'\\' | b'n' | b'r' | b't', rest @ ..] => rest,
            [b'\\', ..] | [0..=31, ..] => return None,
            [_, rest @ ..] => rest,
            [] => return None,
        };
    }
}

#[test]
fn the_check_of_json_tells_good_from_bad() {
    for good in ["{}", "[]", "null", r#"{"a":[1,-2.5e3,"\u202e\"",true],"b":{}}"#] {
        assert!(is_json(good), "{good}");
    }
    for bad in ["", "{", "{}}", "[1,]", "{\"a\"}", "NaN", "inf", "\"\\x\"", "\"\n\"", "{\"a\":}", "[1 2]"] {
        assert!(!is_json(bad), "{bad}");
    }
}

#[test]
fn the_order_is_shown_as_in_its_file() {
    let order = in_repository("examples/order.amqp");
    let due = fs::read_to_string(in_repository("examples/order.show")).unwrap();
    for words in [vec![order.as_str()], vec!["--colour=never", "--", &order]] {
        let ran = run(&words, b"");
        assert_eq!((ran.status, ran.err.as_str()), (Some(0), ""));
        assert_eq!(ran.out, due);
    }
    let bytes = fs::read(&order).unwrap();
    for words in [vec![], vec!["-"], vec!["--", "-"], vec!["--colour=auto"]] {
        assert_eq!(run(&words, &bytes).out, due);
    }
}

#[test]
fn each_line_of_json_is_json() {
    let order = fs::read(in_repository("examples/order.amqp")).unwrap();
    let odd = hex("a1 08 22 5c 00 1f 7f c2 85 2f 82 7f ef ff ff ff ff ff ff 46");
    let ran = run(&["--json"], &[order, odd].concat());
    assert_eq!(ran.out.lines().count(), 4);
    for line in ran.out.lines() {
        assert!(is_json(line), "{line}");
    }
}

#[test]
fn json_is_json_for_all_stored_cases() {
    let stored = fs::read_to_string(in_repository("crates/vectors/data/read.txt")).unwrap();
    let (mut bytes, mut cases) = (Vec::new(), 0);
    for line in stored.lines() {
        let fields: Vec<&str> = line.split(' ').collect();
        let plain = |field: &str| field.bytes().all(|byte| byte.is_ascii_hexdigit());
        // Cases with bytes behind the value are left out, so that the next one stands behind it.
        if fields.len() > 4 && plain(fields[1]) && fields[4] == format!("={}", fields[1].len() / 2) {
            bytes.extend(hex(fields[1]));
            cases += 1;
        }
    }
    let ran = run(&["--json"], &bytes);
    let out = ran.out;
    assert_eq!((ran.status, out.lines().count()), (Some(0), cases));
    assert!(cases > 500, "{cases} cases");
    for line in out.lines() {
        assert!(is_json(line), "{line}");
    }
}

#[test]
fn help_and_version() {
    for word in ["-h", "--help"] {
        let ran = run(&["--json", word], b"");
        assert_eq!((ran.status, ran.err.as_str()), (Some(0), ""));
        assert!(ran.out.starts_with("usage: show [OPTIONS] [FILE]\n"));
    }
    assert_eq!(run(&["--version"], b"").out, format!("show {}\n", env!("CARGO_PKG_VERSION")));
}

/// The script of the repository, where of all commands only these are there.
fn script(name: &str, tools: &[&str]) -> Command {
    let folder = Path::new(env!("CARGO_TARGET_TMPDIR")).join(name);
    fs::create_dir_all(&folder).unwrap();
    for tool in tools {
        let found = Command::new("sh").args(["-c", &format!("command -v {tool}")]).output().unwrap().stdout;
        let found = String::from_utf8(found).unwrap();
        let path = folder.join(tool);
        // not a link: `rt ci` takes a checkout with none
        let _ = fs::remove_file(&path);
        fs::write(&path, format!("#!/bin/sh\nexec {} \"$@\"\n", found.trim())).unwrap();
        fs::set_permissions(&path, fs::Permissions::from_mode(0o755)).unwrap();
    }
    let mut command = Command::new(in_repository("show"));
    command.env("PATH", folder).stdin(Stdio::null());
    command
}

#[test]
fn the_script_has_the_help_before_anything_is_built() {
    let tools = ["bash", "dirname", "readlink", "sed"];
    let due = run(&["--help"], b"").out;
    for word in ["-h", "--help"] {
        let ran = script("help", &tools).args(["--json", word]).output().unwrap();
        assert_eq!((ran.status.code(), ran.stderr.as_slice()), (Some(0), &b""[..]));
        assert_eq!(String::from_utf8(ran.stdout).unwrap(), due);
    }
    for words in [&["--json"][..], &["--", "--help"]] {
        let ran = script("cargo", &tools).args(words).output().unwrap();
        assert_eq!((ran.status.code(), ran.stdout.as_slice()), (Some(2), &b""[..]));
        let said = String::from_utf8(ran.stderr).unwrap();
        assert_eq!(said, "show: it is built by cargo, and there is no command cargo\n");
    }
}

#[test]
fn a_wrong_call_is_told_in_a_sentence() {
    let order = in_repository("examples/order.amqp");
    let folder = in_repository("examples");
    for (words, said) in [
        (vec!["--rows"], "there is no option --rows; show --help tells which there are"),
        (vec!["-x"], "there is no option -x; show --help tells which there are"),
        (vec!["--colour"], "there is no option --colour; show --help tells which there are"),
        (vec!["--colour=red"], "colour is auto, always or never, and not red"),
        (vec![&order, &order], "one file at most, and here are 2"),
        (vec!["--", "--rows"], "there is no file --rows"),
        (vec!["--", "--help"], "there is no file --help"),
        (vec!["no/such/file"], "there is no file no/such/file"),
        (vec![&folder], &format!("{folder} is a folder")),
    ] {
        let ran = run(&words, b"");
        assert_eq!((ran.status, ran.out.as_str()), (Some(2), ""), "{words:?}");
        assert_eq!(ran.err, format!("show: {said}\n"));
    }
}

#[test]
fn no_bytes_are_no_values() {
    for words in [&[][..], &["--json"]] {
        let ran = run(words, b"");
        assert_eq!((ran.status, ran.out.as_str()), (Some(0), ""));
        assert_eq!(ran.err, "show: there are no bytes, and so no values\n");
    }
}

#[test]
fn colour_is_as_asked_for() {
    let plain = run(&[], &hex("c0 03 01 52 07")).out;
    let painted = run(&["--colour=always"], &hex("c0 03 01 52 07")).out;
    assert!(!plain.contains('\x1b'));
    assert_eq!(
        painted,
        "\x1b[2moffset length\x1b[0m\n\x1b[2m     0      5\x1b[0m  \x1b[36mlist\x1b[0m of 1\n\
         \x1b[2m     3      2\x1b[0m    \x1b[36muint\x1b[0m \x1b[32m7\x1b[0m\n"
    );
    assert!(!run(&["--colour=always", "--json"], &hex("52 07")).out.contains('\x1b'));
}

#[test]
fn an_output_that_is_full_is_told() {
    for words in [&[][..], &["--json"], &["--help"]] {
        let mut child = command()
            .args(words)
            .stdin(File::open(in_repository("examples/order.amqp")).unwrap())
            .stdout(File::create("/dev/full").unwrap())
            .stderr(Stdio::piped())
            .spawn()
            .unwrap();
        let mut said = String::new();
        child.stderr.take().unwrap().read_to_string(&mut said).unwrap();
        assert_eq!(child.wait().unwrap().code(), Some(1), "{words:?}");
        assert!(said.starts_with("show: standard output cannot be written: "), "{said}");
        assert_eq!(said.lines().count(), 1);
    }
}

#[test]
fn an_output_that_is_closed_is_no_error() {
    let path = Path::new(env!("CARGO_TARGET_TMPDIR")).join("nulls");
    fs::write(&path, vec![0x40; 1_000_000]).unwrap();
    for words in [&[][..], &["--json"]] {
        let mut child = command().args(words).arg(&path).stdout(Stdio::piped()).stderr(Stdio::piped()).spawn().unwrap();
        let mut front = [0; 6];
        let mut out = child.stdout.take().unwrap();
        out.read_exact(&mut front).unwrap();
        drop(out);
        let ended = child.wait_with_output().unwrap();
        assert_eq!((ended.status.code(), ended.stderr.as_slice()), (Some(0), &b""[..]), "{words:?}");
    }
}

#[test]
fn a_file_of_many_values_is_shown_to_its_end() {
    let ran = run(&[], &vec![0x40; 100_000]);
    assert_eq!(ran.status, Some(0));
    assert_eq!(ran.out.lines().count(), 100_001);
    assert_eq!(ran.out.lines().last(), Some(" 99999      1  null"));
    // the columns grow with the file
    let ran = run(&[], &vec![0x40; 1_000_000]);
    assert_eq!(ran.out.lines().next(), Some(" offset  length"));
}
