//! Shows the AMQP 1.0 values of a file, as a tree or as JSON.

mod extents;
mod json;
mod options;
mod refused;
mod text;
mod tree;
mod walk;

use std::env;
use std::fs;
use std::io::{self, stderr, stdin, stdout, BufWriter, IsTerminal, Read, Write};
use std::path::Path;
use std::process::ExitCode;

use afsungar::{Table, LEVELS_MOST};

use crate::extents::Parts;
use crate::json::Json;
use crate::options::{Options, Task};
use crate::refused::{good_parts, Refused};
use crate::tree::Tree;
use crate::walk::{walk, Print, Spot};

/// The room for output that is gathered before it is written.
const GATHERED: usize = 1 << 16;

fn main() -> ExitCode {
    let task = match options::taken(env::args_os().skip(1)) {
        Ok(task) => task,
        Err(why) => return failed(&why, 2),
    };
    let done = match task {
        Task::Help => stdout().write_all(options::HELP.as_bytes()).map(|()| true),
        Task::Version => writeln!(stdout(), "show {}", env!("CARGO_PKG_VERSION")).map(|()| true),
        Task::Show(options) => match input(&options) {
            Ok(bytes) => show(&bytes, &options),
            Err(why) => return failed(&why, 2),
        },
    };
    match done {
        Ok(true) => ExitCode::SUCCESS,
        Ok(false) => ExitCode::from(1),
        // Whoever reads has seen enough.
        Err(why) if why.kind() == io::ErrorKind::BrokenPipe => ExitCode::SUCCESS,
        Err(why) => failed(&format!("standard output cannot be written: {why}"), 1),
    }
}

/// Says why on standard error; if that cannot be written either, the status has to do.
fn failed(why: &str, status: u8) -> ExitCode {
    let _ = writeln!(stderr(), "show: {why}");
    ExitCode::from(status)
}

/// The bytes of the file; the error is a sentence.
fn input(options: &Options) -> Result<Vec<u8>, String> {
    let Some(file) = &options.file else {
        if stdin().is_terminal() {
            failed("the values are read from the terminal; Ctrl-D ends them", 0);
        }
        let mut bytes = Vec::new();
        return match stdin().lock().read_to_end(&mut bytes) {
            Ok(_) => Ok(bytes),
            Err(why) => Err(format!("standard input cannot be read: {why}")),
        };
    };
    let path = Path::new(file);
    if path.is_dir() {
        return Err(format!("{} is a folder", path.display()));
    }
    fs::read(path).map_err(|why| match why.kind() {
        io::ErrorKind::NotFound => format!("there is no file {}", path.display()),
        _ => format!("{} cannot be read: {why}", path.display()),
    })
}

/// Shows the values, and gives whether all were good.
fn show(bytes: &[u8], options: &Options) -> io::Result<bool> {
    if bytes.is_empty() {
        failed("there are no bytes, and so no values", 0);
    }
    let out = BufWriter::with_capacity(GATHERED, stdout().lock());
    let mut table = Table::default();
    if options.json {
        let mut json = Json::new(out);
        let refused = show_values(&mut json, &mut table, bytes)?;
        refused.iter().try_for_each(|refused| json.refused(refused))?;
        json.finish()?;
        return Ok(refused.is_none());
    }
    let mut tree = Tree::new(out, options.colour, options.full, bytes.len());
    let Some(refused) = show_values(&mut tree, &mut table, bytes)? else {
        return tree.finish().map(|()| true);
    };
    let inner = good_parts(&mut tree, &mut table, bytes, refused.start)?;
    tree.finish()?;
    let explained = refused.explain(bytes, inner).map_err(io::Error::other)?;
    let _ = stderr().write_all(explained.as_bytes());
    Ok(false)
}

/// Prints all values up to one that is refused.
fn show_values(print: &mut impl Print, table: &mut Table, bytes: &[u8]) -> io::Result<Option<Refused>> {
    let (mut at, mut index) = (0, 0);
    while at < bytes.len() {
        let extent = match table.read_from_within(LEVELS_MOST, &bytes[at..]) {
            Ok(extent) => extent,
            Err(refusal) => return Ok(Some(Refused::new(&refusal, at, index))),
        };
        debug_assert!(Parts::of(&bytes[at..]).next().is_some_and(|whole| whole.length == extent.length));
        walk(print, Spot::top(at), table, &bytes[at..])?;
        at += extent.length;
        index += 1;
    }
    Ok(None)
}
