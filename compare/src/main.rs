//! The judge from outside: the proved library beside the crate that it is ported from and beside Qpid Proton.
//!
//!     afsungar-compare [--quick] [--seed N] [--picture FILE] [PART..]
//!
//! Parts: equal, differences, proton, bytes, speed; without any, all. Prints Markdown. The part sample prints stored cases instead. Status 1: something is not as it has to be.

mod bytes;
mod damage;
mod differences;
mod domain;
mod equal;
mod faults;
mod findings;
mod forms;
mod generate;
mod levels;
mod limit;
mod original;
mod ours;
mod peers;
mod picture;
mod proton;
mod random;
mod reader;
mod report;
mod sample;
mod shapes;
mod small;
mod table;
mod texts;
mod timing;

use std::{env, process::ExitCode};

const PARTS: [&str; 5] = ["equal", "differences", "proton", "bytes", "speed"];
const SAMPLE: &str = "sample";

struct Arguments {
    quick: bool,
    seed: u64,
    picture: Option<String>,
    parts: Vec<String>,
}

fn arguments() -> Result<Arguments, String> {
    let mut given = Arguments { quick: false, seed: 1, picture: None, parts: Vec::new() };
    let mut words = env::args().skip(1);
    while let Some(word) = words.next() {
        match word.as_str() {
            "--quick" => given.quick = true,
            "--seed" => given.seed = words.next().and_then(|n| n.parse().ok()).ok_or("--seed needs a number")?,
            "--picture" => given.picture = Some(words.next().ok_or("--picture needs a file")?),
            part if PARTS.contains(&part) => given.parts.push(word),
            SAMPLE => given.parts = vec![word],
            _ => return Err(format!("unknown: {word}; parts are {}", PARTS.join(", "))),
        }
    }
    if given.parts.is_empty() {
        given.parts = PARTS.map(String::from).to_vec();
    }
    Ok(given)
}

/// Runs a part and prints what it finds; false if something is not as it has to be.
fn run(part: &str, given: &Arguments) -> bool {
    let seed = given.seed;
    let many = |quick, whole| if given.quick { quick } else { whole };
    match part {
        "equal" => equal::run(&equal::Plan { seed, random: many(750_000, 10_000_000), rows: 5 }).is_empty(),
        "differences" => differences::run(),
        "proton" => peers::run(&peers::Plan { seed, random: many(300_000, 2_000_000) }),
        "bytes" => bytes::run(&bytes::Plan { seed, runs: many(850_000, 10_000_000) }).is_empty(),
        _ => timing::run(&timing::Plan { rounds: many(15, 151) as usize, picture: given.picture.clone() }),
    }
}

fn main() -> ExitCode {
    let given = match arguments() {
        Ok(given) => given,
        Err(message) => {
            eprintln!("{message}");
            return ExitCode::from(2);
        }
    };
    original::silence();
    if given.parts == [SAMPLE] {
        sample::print(given.seed);
        return ExitCode::SUCCESS;
    }
    let amiss: Vec<_> = given.parts.iter().filter(|part| !run(part, &given)).map(String::as_str).collect();
    if amiss.is_empty() {
        println!("\nAll as it has to be: {}.", given.parts.join(", "));
        ExitCode::SUCCESS
    } else {
        println!("\nNOT as it has to be: {}.", amiss.join(", "));
        ExitCode::FAILURE
    }
}
