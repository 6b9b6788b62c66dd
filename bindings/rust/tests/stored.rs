//! The repository's stored cases (crates/vectors/data, whose README.md says how a line reads), each through this crate.
//!
//! Outside the repository there is nothing to replay.
mod forms;

use std::fs;
use std::path::{Path, PathBuf};

use afsungar::{Extent, Refusal, Table};
use forms::{forms, Form};

/// What a file holds is told by the first of these that is in its name: own_read_big.txt is as read.txt.
const KINDS: [&str; 7] = ["write", "original", "size", "read", "own_walk", "walk", "listing"];

fn kind_of(path: &Path) -> Option<&'static str> {
    KINDS.into_iter().find(|&kind| name(path).contains(kind))
}

fn all_files() -> impl Iterator<Item = PathBuf> {
    let folder = Path::new(env!("CARGO_MANIFEST_DIR")).join("../../crates/vectors/data");
    let paths = fs::read_dir(folder).into_iter().flatten().map(|entry| entry.unwrap().path());
    paths.filter(|path| path.to_string_lossy().ends_with(".txt"))
}

/// The files of a kind.
fn files(kind: &str) -> Vec<PathBuf> {
    all_files().filter(|path| kind_of(path) == Some(kind)).collect()
}

fn name(path: &Path) -> &str {
    path.file_name().and_then(|name| name.to_str()).unwrap()
}

/// Calls `case` with the fields of each line of these files. There are at least so many lines.
fn replay_lines(kind: &str, least: usize, mut case: impl FnMut(&[&str])) {
    let files = files(kind);
    let mut cases = 0;
    for file in &files {
        let text = fs::read_to_string(file).unwrap();
        let before = cases;
        for line in text.lines().filter(|line| !line.is_empty() && !line.starts_with('#')) {
            case(&line.split(' ').collect::<Vec<_>>());
            cases += 1;
        }
        assert!(cases > before, "{} has no cases", name(file));
    }
    assert!(files.is_empty() || cases >= least, "{cases} cases of {kind}");
}

/// Calls `case` with each form of the level limit that a line begins with, and the fields behind it.
fn replay(kind: &str, least: usize, case: fn(Form, &[&str])) {
    replay_lines(kind, least, |fields| {
        let limit = fields[0].parse().unwrap();
        forms(limit).into_iter().for_each(|form| case(form, &fields[1..]));
    });
}

/// A part and how often it is there.
fn times(part: &str) -> (&str, usize) {
    part.split_once('*').map_or((part, 1), |(part, times)| (part, times.parse().unwrap()))
}

fn bytes(field: &str) -> Vec<u8> {
    let mut bytes = Vec::new();
    for part in field.split(',').filter(|&part| part != "-") {
        let (digits, times) = times(part);
        let part =
            digits.as_bytes().chunks(2).map(|two| u8::from_str_radix(std::str::from_utf8(two).unwrap(), 16).unwrap());
        bytes.extend(part);
        let last = *bytes.last().unwrap();
        bytes.extend(std::iter::repeat(last).take(times - 1));
    }
    bytes
}

fn words(field: &str) -> Vec<u64> {
    let hex = |digits| u64::from_str_radix(digits, 16).unwrap();
    let mut words = Vec::new();
    for part in field.split(',').filter(|&part| part != "-") {
        let (row, times) = times(part);
        match (row.strip_prefix('+'), row.split_once(':')) {
            (Some(word), _) => words.push(hex(word)),
            (_, Some((kind, number))) => words.extend([hex(kind), number.parse().unwrap()].repeat(times)),
            _ => panic!("{part}"),
        }
    }
    words
}

/// What stands behind `=`, or the number and place of the refusal.
fn answer(field: &str) -> Result<&str, (u8, u64)> {
    if let Some(success) = field.strip_prefix('=') {
        return Ok(success);
    }
    let (number, place) = field.strip_prefix('!').and_then(|refusal| refusal.split_once('@')).unwrap();
    Err((number.parse().unwrap(), place.parse().unwrap()))
}

fn told(refusal: Refusal) -> (u8, u64) {
    (refusal.number(), refusal.place())
}

fn sized(form: Form, fields: &[&str]) {
    let [table, text, due] = fields else { panic!("{fields:?}") };
    let due = answer(due).map(|length| length.parse().unwrap());
    assert_eq!(form.size(&words(table), &bytes(text)).map_err(told), due, "{form:?} {fields:?}");
}

fn written(form: Form, fields: &[&str]) {
    let [table, text, room, due] = fields else { panic!("{fields:?}") };
    let (words, text, room): (_, _, usize) = (words(table), bytes(text), room.parse().unwrap());
    let due = answer(due).map(bytes);
    let mut out = vec![0x5a; room];
    let found = form.write(&words, &text, &mut out).map_err(told);
    assert_eq!(found, due.as_ref().map(Vec::len).map_err(|&refusal| refusal), "{form:?} {fields:?}");
    let mut left = due.clone().unwrap_or_default();
    left.resize(room, 0x5a);
    assert!(out == left, "{form:?} {fields:?}");

    let table = Table::from_parts(words, text);
    match due {
        Ok(bytes) => {
            assert!(form.bytes_of(&table).as_ref() == Ok(&bytes), "{form:?} {fields:?}");
            assert!(table.values().is_ok(), "{fields:?}");
            let length = bytes.len();
            assert!(form.table_of(&bytes) == Ok((table, length)), "{form:?} {fields:?}");
        }
        Err((8, _)) => {
            assert!(form.bytes_of(&table).is_ok_and(|bytes| bytes.len() > room), "{form:?} {fields:?}");
        }
        Err(refusal) => assert_eq!(form.bytes_of(&table).map_err(told), Err(refusal), "{form:?} {fields:?}"),
    }
}

fn was_read(form: Form, fields: &[&str]) {
    let [input, rows_room, text_room, due @ ..] = fields else { panic!("{fields:?}") };
    let input = bytes(input);
    let mut held = vec![0x5a5a; rows_room.parse().unwrap()];
    let mut text = vec![0x5a; text_room.parse().unwrap()];
    let (mut held_due, mut text_due) = (held.clone(), text.clone());
    let found = form.read(&input, &mut held, &mut text);
    match answer(due[0]) {
        Ok(length) => {
            let table = Table::from_parts(words(due[1]), bytes(due[2]));
            let extent = Extent { length: length.parse().unwrap(), rows: table.len(), text: table.text().len() };
            assert_eq!((found, form.measure(&input)), (Ok(extent), Ok(extent)), "{form:?} {fields:?}");
            held_due[..table.words().len()].copy_from_slice(table.words());
            text_due[..table.text().len()].copy_from_slice(table.text());
            assert!(table.values().is_ok(), "{fields:?}");
            assert!(form.table_of(&input) == Ok((table, extent.length)), "{form:?} {fields:?}");
        }
        Err(refusal) => {
            assert_eq!(found.map_err(told), Err(refusal), "{form:?} {fields:?}");
            match refusal {
                (13 | 14, _) => assert!(form.table_of(&input).is_ok(), "{form:?} {fields:?}"),
                _ => assert_eq!(form.table_of(&input).map_err(told), Err(refusal), "{form:?} {fields:?}"),
            }
        }
    }
    assert!(held == held_due && text == text_due, "{form:?} {fields:?}");
}

fn walked(form: Form, fields: &[&str]) {
    walked_from(0, form, fields);
}

/// The first field is where the walker begins.
fn walked_on(form: Form, fields: &[&str]) {
    walked_from(fields[0].parse().unwrap(), form, &fields[1..]);
}

fn walked_from(start: usize, form: Form, fields: &[&str]) {
    let input = bytes(fields[0]);
    let mut walker = form.walker(&input, start);
    for due in &fields[1..] {
        let due = answer(due).map(|length| length.parse::<usize>().unwrap());
        let rest = walker.rest();
        match walker.step() {
            None => assert_eq!(due, Ok(0), "{form:?} {fields:?}"),
            Some(Ok(value)) => assert_eq!((Ok(value.len()), value), (due, &rest[..value.len()]), "{form:?} {fields:?}"),
            Some(Err(refusal)) => assert_eq!(Err(told(refusal)), due, "{form:?} {fields:?}"),
        }
    }
}

/// The listing names the limit 32.
fn listed(fields: &[&str]) {
    let input = bytes(fields[0]);
    let output = match Form::Within(32).table_of(&input) {
        Ok((table, length)) => format!("{table}end {length}\n"),
        Err(refusal) => format!("refused {} {}\n", refusal.number(), refusal.place()),
    };
    let due = fields[1..].join(" ").replace('/', "\n");
    assert!(output == due || due == "input too large\n" && input.len() > 4096, "{fields:?}");
}

#[test]
fn cases_of_the_writer() {
    replay("write", 8346, written);
    replay("original", 763, written);
    replay("size", 3389, sized);
}

#[test]
fn cases_of_the_reader() {
    replay("read", 9888, was_read);
}

#[test]
fn cases_of_the_walker_and_the_listing() {
    replay("walk", 641, walked);
    replay("own_walk", 628, walked_on);
    replay_lines("listing", 229, listed);
}

#[test]
fn every_file_is_replayed() {
    for file in all_files() {
        assert!(kind_of(&file).is_some(), "{}", name(&file));
    }
}
