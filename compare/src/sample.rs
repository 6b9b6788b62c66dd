//! A sample of the ported crate's answers, as stored cases (crates/vectors/data/README.md): tables inside the domain of equality,
//! each with the bytes that the crate writes for it and an output of just that length.

use crate::{domain, generate::Generator, limit::HIGHEST, original, small, table::Table};

/// Cases of random tables, the bytes that the longest may have, and one in how many of the small tables is taken.
const RANDOM: usize = 600;
const LONGEST: usize = 160;
const ONE_IN: usize = 1_200;

pub fn print(seed: u64) {
    println!("# by `compare/run --seed {seed} sample`: answers of serde_amqp 0.18.0's writer");
    let mut tables = Generator::equal(seed);
    let mut left = RANDOM;
    while left > 0 {
        if let Some(case) = case(tables.table()) {
            println!("{case}");
            left -= 1;
        }
    }
    let mut count = 0;
    small::each(5, &small::ALPHABET, &[], &mut |table| {
        if domain::is_equal(table) {
            count += 1;
            if count % ONE_IN == 0 {
                case(table).iter().for_each(|case| println!("{case}"));
            }
        }
    });
}

/// The line of a table within the highest limit, if its bytes are not too many.
fn case(table: &Table) -> Option<String> {
    let mut bytes = Vec::new();
    original::write(table, &mut bytes).ok()?;
    let rows: Vec<_> = table.words.chunks(2).map(|row| format!("{:02x}:{}", row[0], row[1])).collect();
    let fields = [rows.join(","), field(&table.text), bytes.len().to_string(), format!("={}", digits(&bytes))];
    (bytes.len() <= LONGEST).then(|| format!("{HIGHEST} {}", fields.join(" ")))
}

/// A field of bytes; `-` where there are none.
fn field(bytes: &[u8]) -> String {
    match bytes.is_empty() {
        true => "-".into(),
        false => digits(bytes),
    }
}

fn digits(bytes: &[u8]) -> String {
    bytes.iter().map(|byte| format!("{byte:02x}")).collect()
}
