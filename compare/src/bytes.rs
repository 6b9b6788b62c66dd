//! Reading whatever bytes, within the highest level limit: we answer what the judge's own reader answers; measuring, reading and the walker agree,
//! appended bytes change nothing but a 9, at most one front is accepted, and nothing is touched that should not be. A table in any form that the
//! format allows is read to that table. The same runs are read within other limits.

use crate::{
    damage::Damage,
    domain,
    findings::Findings,
    forms::{self, AnyForm},
    generate::Generator,
    levels,
    limit::Limit,
    ours::{self, Told, PATTERN, PATTERN_WORD},
    random::Random,
    reader::{self, Found},
    report,
    table::{hex, Table},
    texts::Tally,
};

pub struct Plan {
    pub seed: u64,
    pub runs: u64,
}

pub fn run(plan: &Plan) -> Findings {
    report::heading("Reading whatever bytes");
    let mut judge = Judge::new(plan.seed);
    let (mut tables, mut forms) = (Generator::all(plan.seed), AnyForm(Random::new(plan.seed)));
    for i in 0..plan.runs {
        judge.next();
        if i % FORMS == 0 {
            judge.any_form(tables.table(), &mut forms);
        }
    }
    judge.print(plan);
    for number in ANSWERS {
        judge.findings.need(&format!("of runs of bytes the answer {number}"), judge.numbers[number]);
    }
    judge.bad.all().for_each(|(what, count)| judge.findings.need(&format!("of runs of bytes {what}"), count));
    judge.findings.add(levels::conclude([("runs of bytes", judge.levels)]));
    judge.findings.print();
    judge.findings
}

/// The room lent beyond what is needed.
const BEYOND: usize = 3;
/// Of a longer value not every front is tried.
const FRONTS: usize = 64;
/// For so many runs of bytes there is one table in any form.
const FORMS: u64 = 5;

/// Success, and all that measuring refuses within a limit that is in force.
const ANSWERS: [usize; 7] = [0, 3, 4, 9, 10, 11, 12];

struct Judge {
    damage: Damage,
    findings: Findings,
    levels: levels::Judge,
    numbers: [u64; 16],
    bad: Tally,
    fronts: u64,
    appended: u64,
    changed: u64,
    walked: u64,
    forms: u64,
    /// Of the accepted runs and of the tables in any form, those with an empty array that tells no kind.
    untold: u64,
    untold_forms: u64,
    words: Vec<u64>,
    text: Vec<u8>,
    longer: Vec<u8>,
    /// The last runs of bytes, end to end.
    stream: Vec<u8>,
}

impl Judge {
    fn new(seed: u64) -> Self {
        Judge {
            damage: Damage::new(seed),
            findings: Findings::default(),
            levels: levels::Judge::new(seed, levels::BYTES),
            numbers: [0; 16],
            bad: Tally::default(),
            fronts: 0,
            appended: 0,
            changed: 0,
            walked: 0,
            forms: 0,
            untold: 0,
            untold_forms: 0,
            words: Vec::new(),
            text: Vec::new(),
            longer: Vec::new(),
            stream: Vec::new(),
        }
    }

    fn next(&mut self) {
        let bytes = self.damage.bytes().to_vec();
        let told = ours::measure(Limit::HIGHEST, &bytes);
        self.numbers[(told.number as usize).min(15)] += 1;
        let possible = ANSWERS.contains(&(told.number as usize));
        self.hold("measuring is fair", told.is_fair() && possible && told.length <= bytes.len() as u64, &bytes, &told);
        let deepest = self.own(&bytes, &told);
        self.levels.bytes(&bytes, &told, deepest);
        self.read(&bytes, &told);
        self.append(&bytes, &told);
        self.step(&bytes, &told);
        if told.is_success() {
            self.fronts(&bytes[..told.length as usize]);
            self.again(&bytes, &told);
        }
        self.walk(&bytes);
    }

    /// A table in forms chosen at random, one-byte and four-byte ones in arrays too, is read to that table. Some of its empty arrays tell no kind and
    /// have no element code.
    fn any_form(&mut self, table: &Table, forms: &mut AnyForm) {
        let mut table = table.clone();
        forms.untell(&mut table);
        self.forms += 1;
        self.untold_forms += table.untold().is_some() as u64;
        let mut bytes = Vec::new();
        forms::write(&table, forms, &mut bytes);
        let (told, back) = ours::read_whole(Limit::HIGHEST, &bytes);
        let due = Told::success(bytes.len(), table.rows(), table.text.len());
        self.hold("a table in any form is read to that table", told == due && back == table, &bytes, &told);
    }

    fn hold(&mut self, what: &str, holds: bool, bytes: &[u8], told: &Told) {
        if !holds {
            self.findings.note(what, bytes.len(), || format!("`{}`: {told}", hex(bytes)));
        }
    }

    /// The judge's own reader gives the same answer, and the same table. It says how deep it looked.
    fn own(&mut self, bytes: &[u8], told: &Told) -> u32 {
        let Found { value, deepest, bad } = reader::read(Limit::HIGHEST, bytes);
        bad.iter().for_each(|bad| self.bad.count(bad));
        let same = match value {
            Ok((table, length)) => {
                let back = ours::read_whole(Limit::HIGHEST, bytes).1;
                *told == Told::success(length, table.rows(), table.text.len()) && back == table
            }
            Err(refusal) => *told == refusal,
        };
        self.hold("the judge's own reader agrees", same, bytes, told);
        deepest
    }

    /// Lends so many words and bytes of text, all of them the pattern, and reads.
    fn read_into(&mut self, bytes: &[u8], words: usize, text: usize) -> Told {
        self.words.clear();
        self.words.resize(words, PATTERN_WORD);
        self.text.clear();
        self.text.resize(text, PATTERN);
        ours::read(Limit::HIGHEST, bytes, &mut self.words, &mut self.text)
    }

    /// Whether what was lent is the pattern still, from these places on.
    fn untouched(&self, words: usize, text: usize) -> bool {
        self.words[words..].iter().all(|&word| word == PATTERN_WORD) && self.text[text..].iter().all(|&byte| byte == PATTERN)
    }

    /// Reading says what measuring says, or 13, or 14, and fills just what it says.
    fn read(&mut self, bytes: &[u8], told: &Told) {
        let (words, text) = (2 * told.rows as usize, told.text as usize);
        let read = self.read_into(bytes, words + BEYOND, text + BEYOND);
        self.hold("reading agrees with measuring", read == *told, bytes, &read);
        let untouched = self.untouched(words, text);
        self.hold("reading touches nothing beyond", untouched, bytes, &read);
        if !told.is_success() {
            let none = self.read_into(bytes, 0, 0);
            return self.hold("a refusal does not depend on the room", none == *told, bytes, &none);
        }
        // one word less is one row less
        let few = self.read_into(bytes, words - 1, text.saturating_sub(1));
        let untouched = self.untouched(0, 0);
        self.hold("too few rows: 13 at 0, nothing touched", few == Told::refusal(13, 0) && untouched, bytes, &few);
        if text > 0 {
            let short = self.read_into(bytes, words, text - 1);
            let untouched = self.untouched(0, 0);
            self.hold("too little text: 14 at 0, nothing touched", short == Told::refusal(14, 0) && untouched, bytes, &short);
        }
    }

    /// With bytes appended a success stays, and so does a refusal other than 9.
    fn append(&mut self, bytes: &[u8], told: &Told) {
        self.appended += 1;
        self.longer.clear();
        self.longer.extend_from_slice(bytes);
        for _ in 0..self.damage.random().within(1, 12) {
            self.longer.push(self.damage.random().byte());
        }
        let longer = ours::measure(Limit::HIGHEST, &self.longer);
        if told.number == 9 {
            self.changed += (longer != *told) as u64;
        } else {
            self.hold("appended bytes change nothing but a 9", longer == *told, bytes, &longer);
        }
    }

    /// Each proper front of an accepted value is refused with 9: so at most one front is accepted.
    fn fronts(&mut self, value: &[u8]) {
        for i in 0..value.len().min(FRONTS) {
            let length = if value.len() <= FRONTS { i } else { self.damage.random().below(value.len()) };
            self.fronts += 1;
            let told = ours::measure(Limit::HIGHEST, &value[..length]);
            self.hold("a front of a value is refused with 9", told.number == 9 && told.is_fair(), value, &told);
        }
    }

    /// What was read is written, and that is read to the same table. Not so where an empty array tells no kind: that is refused at its row.
    fn again(&mut self, bytes: &[u8], told: &Told) {
        let table = ours::read_whole(Limit::HIGHEST, bytes).1;
        let size = ours::size(Limit::HIGHEST, &table);
        let mut out = vec![PATTERN; size.length as usize];
        let written = ours::write(Limit::HIGHEST, &table, &mut out);
        self.hold("sizing and writing agree", written == size, bytes, told);
        let due = table.untold().map(|row| Told::refusal(5, row as u64));
        let refusal = domain::check(Limit::HIGHEST, &table).refusal;
        self.hold("the judge refuses what tells no kind, and nothing else", refusal == due, bytes, told);
        match due {
            Some(due) => {
                self.untold += 1;
                self.hold("an empty array that was read and tells no kind is refused", size == due, bytes, told);
            }
            None => {
                let back = ours::read_whole(Limit::HIGHEST, &out).1;
                self.hold("what was read is written and read again", size.is_success() && back == table, bytes, told);
            }
        }
        self.by_wrapper(bytes, &table);
    }

    /// The Rust wrapper, called without a limit, says what the functions in C say.
    fn by_wrapper(&mut self, bytes: &[u8], table: &Table) {
        let mut back = Table { words: vec![0; table.words.len()], text: vec![0; table.text.len()] };
        let told = ours::measure(Limit::Plain, bytes);
        let read = afsungar::read(bytes, &mut back.words, &mut back.text);
        let same = read == afsungar::measure(bytes) && told_by(read, |e| Told::success(e.length, e.rows, e.text)) == told;
        self.hold("the Rust wrapper's reader agrees", same && (back == *table) == told.is_success(), bytes, &told);
        let told = ours::size(Limit::Plain, table);
        let size = afsungar::size(&table.words, &table.text);
        let mut out = vec![PATTERN; told.length as usize];
        let same = size == afsungar::write(&table.words, &table.text, &mut out);
        let same = same && told_by(size, |length| Told::success(length, 0, 0)) == told;
        self.hold("the Rust wrapper's sizing and writing agree", same, bytes, &told);
    }

    /// A step from the start is measuring; from the end on it is done.
    fn step(&mut self, bytes: &[u8], told: &Told) {
        let (step, at) = ours::step(Limit::HIGHEST, bytes, 0);
        let due = if bytes.is_empty() { Told::success(0, 0, 0) } else { Told { rows: 0, text: 0, ..*told } };
        self.hold("a step agrees with measuring", step == due && at == step.length, bytes, &step);
        for end in [bytes.len() as u64, bytes.len() as u64 + 1, u64::MAX] {
            let (step, at) = ours::step(Limit::HIGHEST, bytes, end);
            self.hold("at the end or beyond it is done", step == Told::success(0, 0, 0) && at == end, bytes, &step);
        }
    }

    /// Now and then, a walk through many runs end to end.
    fn walk(&mut self, bytes: &[u8]) {
        const MANY: usize = 2_000;
        self.stream.extend_from_slice(bytes);
        if self.stream.len() < MANY {
            return;
        }
        let stream = std::mem::take(&mut self.stream);
        // without a limit, as the Rust wrapper is called, or within one
        let limit = if self.damage.random().once_in(2) { Limit::Plain } else { Limit::in_force(self.damage.random(), 1) };
        let refused = Limit::refused(self.damage.random());
        let mut at = 0;
        while at < stream.len() {
            self.walked += 1;
            let told = ours::measure(limit, &stream[at..]);
            let (step, to) = ours::step(limit, &stream, at as u64);
            let due = Told { rows: 0, text: 0, ..told };
            self.hold("a walk measures at its own place", step == due && to == at as u64 + told.length, &stream[at..], &step);
            let (stays, to) = ours::step(refused, &stream, at as u64);
            self.hold(
                "a step with a limit that is refused",
                stays == Told::refusal(15, 0) && to == at as u64,
                &stream[at..],
                &stays,
            );
            if limit == Limit::Plain {
                self.step_of_wrapper(&stream, at, &step);
            }
            // behind a refusal the walk begins anew, one byte on
            at += told.length.max(1) as usize;
        }
        self.stream = stream;
        self.stream.clear();
    }

    fn step_of_wrapper(&mut self, stream: &[u8], at: usize, step: &Told) {
        let agrees = match afsungar::Walker::at(stream, at).step() {
            Some(Ok(value)) => step.is_success() && value == &stream[at..at + step.length as usize],
            Some(Err(refusal)) => *step == Told::refusal(refusal.number().into(), refusal.place()),
            None => false,
        };
        self.hold("the Rust wrapper's walker agrees", agrees, &stream[at..], step);
    }

    fn print(&self, plan: &Plan) {
        let of = |what: &str, count| vec![what.to_string(), report::number(count)];
        let refused = |n: usize| of(&format!("refused with {n}"), self.numbers[n]);
        let mut rows = vec![
            of("runs of bytes", plan.runs),
            of("accepted", self.numbers[0]),
            of("of these with an empty array that tells no kind, all refused by the writer (5 at its row)", self.untold),
            refused(3),
            refused(4),
            refused(9),
            refused(10),
            refused(11),
        ];
        rows.extend(self.bad.all().map(|(what, count)| of(&format!("of these {what}"), count)));
        rows.extend([
            refused(12),
            of("proper fronts of accepted values, all refused with 9", self.fronts),
            of("runs with bytes appended", self.appended),
            of("of these with another answer, all of them a 9 before", self.changed),
            of("steps of walks through runs end to end", self.walked),
            of("tables in forms chosen at random, read to the same tables", self.forms),
            of("of these with an empty array that tells no kind and has no element code", self.untold_forms),
        ]);
        report::table(1, &[&format!("random, damaged and truncated bytes, seed {}", plan.seed), "number"], &rows);
    }
}

/// What the Rust wrapper tells, as the functions in C tell it.
fn told_by<T>(answer: Result<T, afsungar::Refusal>, success: impl FnOnce(T) -> Told) -> Told {
    match answer {
        Ok(extent) => success(extent),
        Err(refusal) => Told::refusal(refusal.number().into(), refusal.place()),
    }
}
