//! The C header and the programs beside it, in bindings/c: each compiled without a warning, linked with this crate's library and run.
//!
//! Outside the repository there is no header.
use afsungar::{Reason, Refusal};
use std::fs;
use std::io::ErrorKind;
use std::path::{Path, PathBuf};
use std::process::{Command, Output};

const FLAGS: [&str; 5] = ["-Wall", "-Wextra", "-pedantic", "-Wconversion", "-Werror"];

fn repository() -> PathBuf {
    Path::new(env!("CARGO_MANIFEST_DIR")).join("../..")
}

/// The program of a source file; none where there is no C++ compiler, or no header. A C compiler has to be there: Rust links by it.
fn program(compiler: &str, language: &[&str], name: &str) -> Option<PathBuf> {
    let folder = repository().join("bindings/c");
    let program = Path::new(env!("CARGO_TARGET_TMPDIR")).join(format!("{name}-{compiler}"));
    if !folder.is_dir() {
        return None;
    }
    let mut command = Command::new(compiler);
    command.args(language).args(FLAGS).arg("-I").arg(&folder).arg(folder.join(format!("{name}.c")));
    command.args(["-x", "none", env!("AFSUNGAR_LINKED"), "-o"]).arg(&program);
    match command.output() {
        Err(why) if why.kind() == ErrorKind::NotFound && compiler == "c++" => {
            eprintln!("not tried: there is no {compiler}");
            None
        }
        made => {
            succeeded(&made.unwrap());
            Some(program)
        }
    }
}

fn succeeded(output: &Output) {
    let said = [&output.stdout[..], &output.stderr].concat();
    assert!(output.status.success(), "{}: {}", output.status, String::from_utf8_lossy(&said));
}

/// Runs a program that says what is not as it is due.
fn in_both_languages(name: &str) {
    let c = program("cc", &["-std=c99", "-x", "c"], name);
    let cpp = program("c++", &["-std=c++11", "-x", "c++"], name);
    for program in c.into_iter().chain(cpp) {
        succeeded(&Command::new(program).output().unwrap());
    }
}

/// places.c tries what the header has for the place of a 6.
#[test]
fn places() {
    in_both_languages("places");
}

/// helpers.c tries all else that the header has beside the ten functions, and null pointers.
#[test]
fn helpers() {
    in_both_languages("helpers");
}

/// What stands in quotes on the header's lines that begin so.
fn quoted(beginning: &str) -> Option<Vec<String>> {
    let header = fs::read_to_string(repository().join("bindings/c/afsungar.h")).ok()?;
    let lines = header.lines().filter(|line| line.trim_start().starts_with(beginning));
    Some(lines.filter_map(|line| Some(line.split('"').nth(1)?.to_string())).collect())
}

#[test]
fn the_version() {
    let Some(versions) = quoted("#define AFSUNGAR_VERSION ") else { return };
    assert_eq!(versions, [env!("CARGO_PKG_VERSION")]);
}

/// The header has the words of this crate. For a 4 it has those of reading and of writing, and for a 6 those of both cases.
#[test]
fn the_words_of_the_refusals() {
    let Some(words) = quoted("case AFSUNGAR_") else { return };
    let said = |refusal: Refusal| refusal.words();
    let due = Reason::ALL.map(|reason| match reason {
        Reason::ElementUnfit => {
            format!("{}, or {}", said(Refusal::reading(reason, 0)), said(Refusal::writing(reason, 0)))
        }
        Reason::TextAmiss => format!("{}, or {}", said(Refusal::writing(reason, 0)), said(Refusal::bad_text(0))),
        _ => said(Refusal::writing(reason, 0)).to_owned(),
    });
    assert_eq!(words, due);
}

#[test]
fn the_order() {
    let Some(order) = program("cc", &["-std=c99", "-x", "c"], "order") else { return };
    let examples = repository().join("examples");
    let written = Command::new(&order).output().unwrap();
    succeeded(&written);
    assert_eq!(written.stdout, fs::read(examples.join("order.amqp")).unwrap());
    let listed = Command::new(&order).arg(examples.join("order.amqp")).output().unwrap();
    succeeded(&listed);
    assert_eq!(listed.stdout, fs::read(examples.join("order.txt")).unwrap());

    // with the texts it is the same listing, and they stand behind their rows
    let shown = Command::new(&order).arg("--texts").arg(examples.join("order.amqp")).output().unwrap();
    succeeded(&shown);
    let shown = String::from_utf8(shown.stdout).unwrap();
    let bare: String = shown.lines().map(|line| line.split(" \"").next().unwrap().to_string() + "\n").collect();
    assert_eq!(bare.as_bytes(), listed.stdout);
    assert!(shown.contains("5 b3 9 \"ear-shell\"\n6 b1 5 \"Ø1.2\"\n"), "{shown}");
}
