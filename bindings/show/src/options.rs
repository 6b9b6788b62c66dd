//! The command line.

use std::env;
use std::ffi::OsString;
use std::io::{stdout, IsTerminal};

pub const HELP: &str = "\
usage: show [OPTIONS] [FILE]

Shows the AMQP 1.0 values of FILE, or of standard input where FILE is - or not given: any number of them, end to end, of any
length and of up to 32 levels. Each value and each part of it has a line with its offset in the file, its length in bytes, the
name of its kind and what it holds. An entry of a map is on one line with its key, and so are its offset and length, unless the
key has parts of its own. An element of an array has no format code: its offset is that of its payload.

Where a value is refused, what is good before it is shown, and standard error has the reason, the byte and the bytes around it.

  --json             for each value a line of JSON; a refusal is the last line
  --full             long texts and binaries in full
  --colour=WHEN      auto (the default: on a terminal, and if NO_COLOR is not set), always or never
  -h, --help         print this
  --version          print the version
  --                 what follows is no option

Status 0: all values are shown, or there are none, or whoever reads the output has closed it. 1: a value is refused, or
standard output cannot be written. 2: the call is wrong, or the file cannot be read.
";

/// What is to be done.
pub enum Task {
    Help,
    Version,
    Show(Options),
}

#[derive(Default)]
pub struct Options {
    /// None is standard input.
    pub file: Option<OsString>,
    pub json: bool,
    pub full: bool,
    pub colour: bool,
}

/// Takes the words of the command line; the error is a sentence.
pub fn taken(words: impl Iterator<Item = OsString>) -> Result<Task, String> {
    let mut options = Options { colour: colour_wanted("auto")?, ..Options::default() };
    let mut files = Vec::new();
    let mut over = false;
    for word in words {
        match word.to_str() {
            Some("--") if !over => over = true,
            Some("-h" | "--help") if !over => return Ok(Task::Help),
            Some("--version") if !over => return Ok(Task::Version),
            Some("--json") if !over => options.json = true,
            Some("--full") if !over => options.full = true,
            Some(option) if !over && option.starts_with('-') && option != "-" => {
                let when = option.strip_prefix("--colour=").or_else(|| option.strip_prefix("--color="));
                options.colour = when.map_or_else(|| Err(unknown(option)), colour_wanted)?;
            }
            _ => files.push(word),
        }
    }
    if files.len() > 1 {
        return Err(format!("one file at most, and here are {}", files.len()));
    }
    options.file = files.pop().filter(|file| file != "-");
    Ok(Task::Show(options))
}

fn unknown(option: &str) -> String {
    format!("there is no option {option}; show --help tells which there are")
}

fn colour_wanted(when: &str) -> Result<bool, String> {
    match when {
        "always" => Ok(true),
        "never" => Ok(false),
        "auto" => Ok(stdout().is_terminal() && env::var_os("NO_COLOR").map_or(true, |set| set.is_empty())),
        _ => Err(format!("colour is auto, always or never, and not {when}")),
    }
}
