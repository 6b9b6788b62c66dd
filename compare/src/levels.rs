//! Tables and bytes within level limits chosen at random: we answer what the judge's own writer and reader answer within them. From our answers
//! alone: a higher limit changes nothing but a 3, and the form that names no limit is the one that names 16. A limit that is refused comes before all else.

use crate::{
    domain::{self, MOST},
    findings::Findings,
    limit::{Limit, DEFAULT, HIGHEST},
    ours::{self, Told, PATTERN, PATTERN_WORD},
    random::Random,
    reader, report,
    table::{hex, Table},
};
use std::fmt;

/// All that calls answer, and all that they leave in what was lent to them.
#[derive(PartialEq, Eq)]
struct Outcome {
    /// Of sizing or measuring.
    first: Told,
    /// Of writing or reading.
    second: Told,
    /// Of the walker's steps from the start and from the end, with where it then is.
    steps: Option<[(Told, u64); 2]>,
    words: Vec<u64>,
    bytes: Vec<u8>,
}

impl fmt::Display for Outcome {
    fn fmt(&self, f: &mut fmt::Formatter<'_>) -> fmt::Result {
        write!(f, "{}, then {}", self.first, self.second)?;
        self.steps.iter().flatten().try_for_each(|(told, at)| write!(f, ", to {at} with {told}"))
    }
}

/// What is lent to calls. One after the other they are made with the same.
trait Lent {
    fn ours(&self, limit: Limit) -> Outcome;
    /// What has to come of it.
    fn due(&self, limit: Limit) -> Outcome;
    fn length(&self) -> usize;
    fn shown(&self) -> String;
}

/// Room that is lent beyond what is needed.
const BEYOND: usize = 3;

/// So much room as is needed and more, and once in eight times less.
fn room(random: &mut Random, need: usize) -> usize {
    match random.once_in(8) {
        true => need.saturating_sub(1),
        false => need + BEYOND,
    }
}

struct Writing<'a> {
    table: &'a Table,
    /// What it is written to, if it is.
    due: &'a [u8],
    room: usize,
}

impl<'a> Writing<'a> {
    fn new(table: &'a Table, due: &'a [u8], random: &mut Random) -> Self {
        Writing { table, due, room: room(random, due.len()) }
    }
}

impl Lent for Writing<'_> {
    fn ours(&self, limit: Limit) -> Outcome {
        let mut bytes = vec![PATTERN; self.room];
        let (first, second) = (ours::size(limit, self.table), ours::write(limit, self.table, &mut bytes));
        Outcome { first, second, steps: None, words: Vec::new(), bytes }
    }

    fn due(&self, limit: Limit) -> Outcome {
        let length = self.due.len();
        let first = match domain::check(limit, self.table).refusal {
            Some(refusal) => refusal,
            None if length as u64 > MOST => Told::refusal(7, 0),
            None => Told::success(length, 0, 0),
        };
        let second = if first.is_success() && length > self.room { Told::refusal(8, 0) } else { first };
        let mut bytes = vec![PATTERN; self.room];
        if second.is_success() {
            bytes[..length].copy_from_slice(self.due);
        }
        Outcome { first, second, steps: None, words: Vec::new(), bytes }
    }

    fn length(&self) -> usize {
        self.table.words.len() + self.table.text.len()
    }

    fn shown(&self) -> String {
        self.table.to_string()
    }
}

struct Reading<'a> {
    bytes: &'a [u8],
    words: usize,
    text: usize,
    /// The end of the bytes, or a place beyond it.
    end: u64,
}

impl<'a> Reading<'a> {
    /// `told` is what measuring says within the highest limit.
    fn new(bytes: &'a [u8], told: &Told, random: &mut Random) -> Self {
        let (words, text) = (room(random, 2 * told.rows as usize), room(random, told.text as usize));
        let end = random.of(&[bytes.len() as u64, bytes.len() as u64 + 1, u64::MAX]);
        Reading { bytes, words, text, end }
    }
}

impl Lent for Reading<'_> {
    fn ours(&self, limit: Limit) -> Outcome {
        let (mut words, mut bytes) = (vec![PATTERN_WORD; self.words], vec![PATTERN; self.text]);
        let (first, second) = (ours::measure(limit, self.bytes), ours::read(limit, self.bytes, &mut words, &mut bytes));
        let steps = Some([0, self.end].map(|from| ours::step(limit, self.bytes, from)));
        Outcome { first, second, steps, words, bytes }
    }

    fn due(&self, limit: Limit) -> Outcome {
        let (first, table) = match reader::read(limit, self.bytes).value {
            Ok((table, length)) => (Told::success(length, table.rows(), table.text.len()), table),
            Err(refusal) => (refusal, Table::default()),
        };
        let second = match first {
            told if told.rows > self.words as u64 / 2 => Told::refusal(13, 0),
            told if told.text > self.text as u64 => Told::refusal(14, 0),
            told => told,
        };
        let (mut words, mut bytes) = (vec![PATTERN_WORD; self.words], vec![PATTERN; self.text]);
        if second.is_success() {
            words[..table.words.len()].copy_from_slice(&table.words);
            bytes[..table.text.len()].copy_from_slice(&table.text);
        }
        let done = limit.levels().err().unwrap_or(Told::success(0, 0, 0));
        let start = if self.bytes.is_empty() { done } else { Told { rows: 0, text: 0, ..first } };
        Outcome { first, second, steps: Some([(start, start.length), (done, self.end)]), words, bytes }
    }

    fn length(&self) -> usize {
        self.bytes.len()
    }

    fn shown(&self) -> String {
        hex(self.bytes)
    }
}

/// What comes of two limits.
const PAIRS: [&str; 4] = [
    "accepted within a limit and, to the same, within a higher one",
    "refused within a limit, not with 3, and likewise within a higher one",
    "refused with 3 within a limit, and accepted within a higher one",
    "refused with 3 within a limit, and with another number within a higher one",
];

/// What has to come.
pub struct Classes {
    /// The deepest level.
    deepest: u32,
    /// Answers of writing or reading: 0 and refusals.
    numbers: &'static [usize],
    pairs: &'static [usize],
}

/// Of tables that we accept, of tables with faults, and of whatever bytes.
pub const TABLES: Classes = Classes { deepest: HIGHEST, numbers: &[0, 3, 8, 15], pairs: &[0, 2] };
pub const FAULTS: Classes = Classes { deepest: HIGHEST + 1, numbers: &[0, 1, 2, 3, 4, 5, 6, 7, 8, 15], pairs: &[0, 1, 2, 3] };
pub const BYTES: Classes = Classes { deepest: HIGHEST + 1, numbers: &[0, 3, 4, 9, 10, 11, 12, 13, 14, 15], pairs: &[0, 1, 2, 3] };

/// How often something came, by limit from 1 on.
type ByLimit = [u64; HIGHEST as usize];

pub struct Judge {
    random: Random,
    classes: Classes,
    all: u64,
    deep: u64,
    plain: u64,
    answers: [u64; 16],
    /// Accepted with a value at the last level, and refused with 3.
    last: ByLimit,
    beyond: ByLimit,
    pairs: [u64; PAIRS.len()],
    pub findings: Findings,
}

impl Judge {
    pub fn new(seed: u64, classes: Classes) -> Self {
        Judge {
            random: Random::new(seed.rotate_left(32)),
            classes,
            all: 0,
            deep: 0,
            plain: 0,
            answers: [0; 16],
            last: [0; HIGHEST as usize],
            beyond: [0; HIGHEST as usize],
            pairs: [0; PAIRS.len()],
            findings: Findings::default(),
        }
    }

    /// A table, what it is written to, if it is, and the deepest level in it that is looked at.
    pub fn table(&mut self, table: &Table, due: &[u8], deepest: u32) {
        let lent = Writing::new(table, due, &mut self.random);
        self.hold(&lent, deepest);
    }

    /// Bytes, what measuring says of them within the highest limit, and the deepest level in them that is looked at.
    pub fn bytes(&mut self, bytes: &[u8], told: &Told, deepest: u32) {
        let lent = Reading::new(bytes, told, &mut self.random);
        self.hold(&lent, deepest);
    }

    fn hold(&mut self, lent: &impl Lent, deepest: u32) {
        let limit = Limit::in_force(&mut self.random, deepest);
        let due = lent.due(limit);
        self.count(limit, &due, deepest);
        let ours = lent.ours(limit);
        self.same("what is due", lent, limit, &ours, &due);
        self.pair(lent, limit, ours);
        let refused = Limit::refused(&mut self.random);
        let due = lent.due(refused);
        self.answers[due.second.number as usize] += 1;
        self.same("15 before all else", lent, refused, &lent.ours(refused), &due);
    }

    fn count(&mut self, limit: Limit, due: &Outcome, deepest: u32) {
        self.all += 1;
        self.deep += (deepest > DEFAULT) as u64;
        self.plain += (limit == Limit::Plain) as u64;
        self.answers[due.second.number as usize] += 1;
        let levels = limit.levels().expect("it is in force");
        match due.second.number {
            0 if levels == deepest => self.last[levels as usize - 1] += 1,
            3 => self.beyond[levels as usize - 1] += 1,
            _ => {}
        }
    }

    /// What comes of one limit beside what comes of another, every second time. For the form that names none the other is the same, named.
    fn pair(&mut self, lent: &impl Lent, limit: Limit, ours: Outcome) {
        let other = match limit {
            Limit::Plain => DEFAULT as usize,
            Limit::Within(_) if self.random.once_in(2) => self.random.within(1, HIGHEST as usize),
            Limit::Within(_) => return,
        };
        let other = Limit::Within(other as u64);
        let mut both = [(limit, ours), (other, lent.ours(other))];
        both.sort_by_key(|(limit, _)| limit.levels().expect("it is in force"));
        let [(low, lower), (high, higher)] = both;
        if low.levels() == high.levels() {
            return self.same("the same, named and not", lent, limit, &lower, &higher);
        }
        let which = match (lower.first.number, higher.first.number) {
            (0, _) => 0,
            (3, 0) => 2,
            (3, 3) => return,
            (3, _) => 3,
            _ => 1,
        };
        self.pairs[which] += 1;
        if lower.first.number != 3 {
            self.same("a higher one changes nothing but a 3", lent, high, &higher, &lower);
        }
    }

    fn same(&mut self, what: &str, lent: &impl Lent, limit: Limit, ours: &Outcome, due: &Outcome) {
        if ours != due {
            let left = (&ours.words, &ours.bytes) == (&due.words, &due.bytes);
            let left = if left { "" } else { ", and lent memory is not as it has to be" };
            self.findings.note(format!("level limits: {what}"), lent.length(), || {
                format!("`{}`, {limit}: {ours}; due is {due}{left}", lent.shown())
            });
        }
    }

    /// Refused with 3, by those limits that values go beyond.
    fn beyond(&self) -> &[u64] {
        &self.beyond[..self.classes.deepest as usize - 1]
    }

    /// What was found, and with it what had to come and never came.
    fn found(mut self) -> Findings {
        let mut found = std::mem::take(&mut self.findings);
        let Classes { numbers, pairs, .. } = self.classes;
        numbers.iter().for_each(|&number| found.need(&format!("within level limits the answer {number}"), self.answers[number]));
        pairs.iter().for_each(|&pair| found.need(PAIRS[pair], self.pairs[pair]));
        (1..).zip(self.last).for_each(|(limit, count)| found.need(&format!("a value at the last of {limit} levels"), count));
        (1..).zip(self.beyond()).for_each(|(limit, &count)| found.need(&format!("a value beyond {limit} levels"), count));
        found
    }
}

/// Prints what came, with a column for each judge, and gives what was found.
pub fn conclude<const N: usize>(judges: [(&str, Judge); N]) -> Findings {
    print(&judges);
    let mut findings = Findings::default();
    judges.into_iter().for_each(|(_, judge)| findings.add(judge.found()));
    findings
}

fn print(judges: &[(&str, Judge)]) {
    let row = |what: &str, count: &dyn Fn(&Judge) -> u64| {
        let counts = judges.iter().map(|(_, judge)| report::number(count(judge)));
        [what.to_string()].into_iter().chain(counts).collect::<Vec<_>>()
    };
    let mut rows = vec![
        row("all", &|judge| judge.all),
        row("with more than 16 levels", &|judge| judge.deep),
        row("in the form that names no limit", &|judge| judge.plain),
        row("accepted", &|judge| judge.answers[0]),
        row("of these with a value at the last level", &|judge| judge.last.iter().sum()),
        row("of these the fewest for one limit", &|judge| fewest(&judge.last)),
    ];
    for number in 1..=14 {
        if judges.iter().any(|(_, judge)| judge.answers[number] > 0) {
            rows.push(row(&format!("refused with {number}"), &|judge| judge.answers[number]));
        }
        if number == 3 {
            rows.push(row("of these the fewest for one limit", &|judge| fewest(judge.beyond())));
        }
    }
    rows.extend(PAIRS.iter().enumerate().map(|(pair, what)| row(what, &|judge| judge.pairs[pair])));
    rows.push(row("with a limit of 0 or above 32, refused with 15", &|judge| judge.answers[15]));
    let head: Vec<_> = ["within limits chosen at random"].into_iter().chain(judges.iter().map(|(name, _)| *name)).collect();
    report::table(1, &head, &rows);
}

fn fewest(counts: &[u64]) -> u64 {
    counts.iter().copied().min().unwrap_or(0)
}
