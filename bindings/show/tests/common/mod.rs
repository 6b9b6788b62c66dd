//! What the tests share: a run of the program, and bytes from hex.
#![allow(dead_code)] // each test file takes its part

use std::io::Write;
use std::process::{Command, Stdio};
use std::thread;

pub struct Ran {
    pub status: Option<i32>,
    pub out: String,
    pub err: String,
}

pub fn command() -> Command {
    let mut command = Command::new(env!("CARGO_BIN_EXE_show"));
    command.env_remove("NO_COLOR");
    command
}

/// Runs the program on these bytes as standard input.
pub fn run(words: &[&str], input: &[u8]) -> Ran {
    let mut child = command()
        .args(words)
        .stdin(Stdio::piped())
        .stdout(Stdio::piped())
        .stderr(Stdio::piped())
        .spawn()
        .expect("the program runs");
    let mut stdin = child.stdin.take().expect("it has a standard input");
    let input = input.to_vec();
    // A program that ends before it reads leaves a closed pipe.
    let writer = thread::spawn(move || drop(stdin.write_all(&input)));
    let ended = child.wait_with_output().expect("it ends");
    writer.join().expect("all is written");
    Ran {
        status: ended.status.code(),
        out: String::from_utf8(ended.stdout).expect("UTF-8"),
        err: String::from_utf8(ended.stderr).expect("UTF-8"),
    }
}

/// The bytes of hex digits; spaces part them.
pub fn hex(digits: &str) -> Vec<u8> {
    let digits: Vec<u8> = digits.bytes().filter(|byte| *byte != b' ').collect();
    let pair = |pair: &[u8]| u8::from_str_radix(std::str::from_utf8(pair).unwrap(), 16).unwrap();
    digits.chunks(2).map(pair).collect()
}

/// The tree without its first line, each line without offset and length.
pub fn tree(words: &[&str], input: &[u8]) -> Vec<String> {
    let ran = run(words, input);
    assert_eq!((ran.status, ran.err.as_str()), (Some(0), ""));
    ran.out.lines().skip(1).map(|line| line[15..].to_string()).collect()
}

/// The file of the repository that has this name.
pub fn in_repository(name: &str) -> String {
    format!("{}/../../{name}", env!("CARGO_MANIFEST_DIR"))
}
