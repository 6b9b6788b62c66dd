//! Our bytes against the ported crate's, inside the domain of equality; and of all tables against those of the judge's own writer.

use crate::{
    domain, faults,
    findings::Findings,
    forms::{self, AsWritten},
    generate::Generator,
    levels,
    limit::Limit,
    original::{self, Trouble},
    ours::{self, Told, PATTERN},
    report, small,
    table::{hex, Kind, Rows, Table},
};

pub struct Plan {
    pub seed: u64,
    pub random: u64,
    /// The most rows of the tables that are all tried.
    pub rows: usize,
}

/// The most rows of the tables whose empty arrays tell each of the 25 kinds.
const FEW: usize = 3;

pub fn run(plan: &Plan) -> Findings {
    report::heading("Our bytes and the ported crate's");
    let [mut random, mut small, mut all] = [1, 2, 3].map(|turn| Judge::new(plan.seed + turn));
    let (mut inside, mut any) = (Generator::equal(plan.seed), Generator::all(plan.seed));
    for _ in 0..plan.random {
        random.beside_crate(inside.table());
        all.beside_judge(any.table());
    }
    let mut outside = Outside::default();
    small::each(plan.rows, &small::ALPHABET, &small::EMPTY, &mut |table| {
        if domain::is_equal(table) {
            small.beside_crate(table);
        } else {
            outside.try_table(table);
        }
    });
    let mut empty = Outside::default();
    small::each(FEW, &small::ALPHABET, &Kind::ALL, &mut |table| {
        if table.has_empty_array() {
            empty.try_table(table);
        }
    });
    Judge::print(plan, &random, &small, &all);
    Outside::print(plan.rows, &outside, &empty);
    let mut faults = faults::Judge::new(plan.seed);
    for _ in 0..plan.random {
        faults.next();
    }
    faults.each_array();
    faults.conclude();

    let mut findings = random.findings;
    for others in [small.findings, small.levels.findings, all.findings, outside.findings, empty.findings, faults.findings] {
        findings.add(others);
    }
    let levels = [("inside the domain", random.levels), ("all that we accept", all.levels), ("with faults", faults.levels)];
    findings.add(levels::conclude(levels));
    findings.print();
    findings
}

/// What the tables held.
struct Counts {
    tables: u64,
    /// Of these with an array of lists, maps or arrays.
    nested: u64,
    /// Of these with an empty array.
    empty: u64,
    rows: u64,
    bytes: u64,
    deepest: u32,
    kinds: [u64; 256],
    forms: [u64; 256],
    /// Arrays that are not empty, and empty ones, by the kind that they tell.
    arrays: [u64; 256],
    empty_arrays: [u64; 256],
}

impl Default for Counts {
    fn default() -> Self {
        Counts {
            tables: 0,
            nested: 0,
            empty: 0,
            rows: 0,
            bytes: 0,
            deepest: 0,
            kinds: [0; 256],
            forms: [0; 256],
            arrays: [0; 256],
            empty_arrays: [0; 256],
        }
    }
}

impl Counts {
    fn add(&mut self, table: &Table, bytes: &[u8], deepest: u32) {
        self.tables += 1;
        self.nested += table.is_nested() as u64;
        self.empty += table.has_empty_array() as u64;
        for (kind, count) in table.arrays() {
            let counts = if count == 0 { &mut self.empty_arrays } else { &mut self.arrays };
            counts[kind as usize & 0xff] += 1;
        }
        self.rows += table.rows() as u64;
        self.bytes += bytes.len() as u64;
        self.deepest = self.deepest.max(deepest);
        table.words.chunks(2).for_each(|row| self.kinds[row[0] as usize & 0xff] += 1);
        self.forms[bytes[0] as usize] += 1;
    }

    fn print(&self) {
        println!("Rows of the random tables by kind: {}.\n", by_kind(&Kind::ALL, &self.kinds));
        let forms: Vec<_> = (0..256)
            .filter(|&code| self.forms[code] > 0)
            .map(|code| format!("{code:02x} {}", report::number(self.forms[code])))
            .collect();
        println!("Their first bytes: {}.\n", forms.join(", "));
    }

    fn print_arrays(&self) {
        let others = Kind::SCALARS.iter().map(|&kind| self.arrays[kind as usize]).sum();
        println!(
            "Their arrays that are not empty, by what they hold: {}, all others {}.\n",
            by_kind(&Kind::COMPOUNDS, &self.arrays),
            report::number(others)
        );
        println!("Their empty arrays, by what they tell: {}.\n", by_kind(&Kind::ELEMENTS, &self.empty_arrays));
    }
}

/// How many there are of each of these kinds.
pub fn by_kind(kinds: &[Kind], counts: &[u64; 256]) -> String {
    let all: Vec<_> = kinds.iter().map(|&kind| format!("{kind:?} {}", report::number(counts[kind as usize]))).collect();
    all.join(", ")
}

/// The level of the deepest value.
pub fn depth(table: &Table) -> u32 {
    fn below(rows: &mut Rows) -> u32 {
        let Some(row) = rows.next() else { return 0 };
        1 + (0..row.children()).map(|_| below(rows)).max().unwrap_or(0)
    }
    below(&mut Rows::of(table))
}

struct Judge {
    findings: Findings,
    failed: u64,
    counts: Counts,
    levels: levels::Judge,
    theirs: Vec<u8>,
    out: Vec<u8>,
}

impl Judge {
    fn new(seed: u64) -> Self {
        Judge {
            findings: Findings::default(),
            failed: 0,
            counts: Counts::default(),
            levels: levels::Judge::new(seed, levels::TABLES),
            theirs: Vec::new(),
            out: Vec::new(),
        }
    }

    fn beside_crate(&mut self, table: &Table) {
        self.theirs.clear();
        if let Err(trouble) = original::try_write(table, &mut self.theirs) {
            return self.fail("the crate does not write", table, trouble.to_string());
        }
        if !domain::is_equal(table) {
            return self.fail("outside the domain", table, String::new());
        }
        self.hold(table);
    }

    fn beside_judge(&mut self, table: &Table) {
        if !domain::is_table(table) {
            return self.fail("no table that we accept", table, String::new());
        }
        self.theirs.clear();
        forms::write(table, &mut AsWritten, &mut self.theirs);
        self.hold(table);
    }

    /// Holds all that we do with a table to the other's bytes.
    fn hold(&mut self, table: &Table) {
        let deepest = depth(table);
        self.counts.add(table, &self.theirs, deepest);
        self.levels.table(table, &self.theirs, deepest);
        let (theirs, length) = (&self.theirs, self.theirs.len());
        let due = Told::success(length, 0, 0);
        let told = ours::size(Limit::HIGHEST, table);
        if told != due {
            return self.fail("size", table, format!("{told}, the other writes {}", hex(theirs)));
        }
        const BEYOND: usize = 8;
        self.out.clear();
        self.out.resize(length + BEYOND, PATTERN);
        let told = ours::write(Limit::HIGHEST, table, &mut self.out);
        if told != due || self.out[..length] != theirs[..] {
            return self.fail("write", table, format!("{told}, {}, the other writes {}", hex(&self.out[..length]), hex(theirs)));
        }
        if self.out[length..] != [PATTERN; BEYOND] {
            return self.fail("write touches what stands behind", table, String::new());
        }
        let (told, back) = ours::read_whole(Limit::HIGHEST, theirs);
        if told != Told::success(length, table.rows(), table.text.len()) || back != *table {
            return self.fail("read", table, format!("{told}, {back}"));
        }
        self.out.clear();
        self.out.resize(length - 1, PATTERN);
        let told = ours::write(Limit::HIGHEST, table, &mut self.out);
        if told != Told::refusal(8, 0) || self.out.iter().any(|&byte| byte != PATTERN) {
            self.fail("write without room", table, told.to_string());
        }
    }

    fn fail(&mut self, what: &str, table: &Table, more: String) {
        self.failed += 1;
        self.findings.note(what, table.words.len() + table.text.len(), || format!("`{table}`: {more}"));
    }

    /// Prints what came inside the domain, at random and of few rows, and of all that we accept.
    fn print(plan: &Plan, random: &Judge, small: &Judge, all: &Judge) {
        let line = |name: String, judge: &Judge| {
            let c = &judge.counts;
            let [tables, nested, empty, rows, bytes] = [c.tables, c.nested, c.empty, c.rows, c.bytes].map(report::number);
            vec![name, tables, nested, empty, rows, bytes, c.deepest.to_string(), judge.failed.to_string()]
        };
        let table = |title: &'static str, lines: &[Vec<String>]| {
            let columns =
                ["tables", "with arrays of lists, maps or arrays", "with empty arrays", "rows", "bytes", "deepest", "unequal"];
            report::table(1, &[&[title], &columns[..]].concat(), lines);
        };
        let at_random = format!("random, seed {}", plan.seed);
        let of_few = format!("all of at most {} rows over {} leaves", plan.rows, small::ALPHABET.len());
        table("inside the domain, beside the crate", &[line(at_random.clone(), random), line(of_few, small)]);
        random.counts.print();
        table("all that we accept, beside the judge's own writer", &[line(at_random, all)]);
        all.counts.print_arrays();
        println!("For each table of both, with the limit 32: the other's bytes are those of `afsungar_write_within`, their number that of");
        println!(
            "`afsungar_size_within`; an output one byte shorter is refused (8 at 0) and not touched; behind the bytes nothing is"
        );
        println!("touched; reading them gives the table again.\n");
    }
}

/// Small tables outside the domain. What the crate does with them is counted; that we accept or refuse each as the format
/// says, write the bytes of the judge's own writer, and read again what we write, is checked.
#[derive(Default)]
struct Outside {
    refused: u64,
    equal: u64,
    differ: u64,
    panics: u64,
    /// How we read the crate's bytes where they are not ours: to that table, to that but for the kinds of its empty arrays, to another, or not at all.
    read_same: u64,
    read_untold: u64,
    read_other: u64,
    unread: u64,
    /// Tables for which the crate's bytes are the judge's, but that empty arrays have no element code.
    equal_but_empty: u64,
    findings: Findings,
}

impl Outside {
    fn try_table(&mut self, table: &Table) {
        let told = ours::size(Limit::HIGHEST, table);
        let due = domain::check(Limit::HIGHEST, table).refusal.unwrap_or(Told { number: 0, place: 0, ..told });
        if told != due || !told.is_fair() {
            self.findings.note("accepted or refused against the format", table.words.len(), || format!("`{table}`: {told}"));
        }
        if !told.is_success() {
            self.refused += 1;
            return;
        }
        let mut out = vec![PATTERN; told.length as usize];
        ours::write(Limit::HIGHEST, table, &mut out);
        let mut untold = table.clone();
        untold.untell(|| true);
        let mut theirs = Vec::new();
        match original::try_write(table, &mut theirs) {
            Ok(()) if theirs == out => self.equal += 1,
            Ok(()) | Err(Trouble::Error(_)) => {
                self.differ += 1;
                match ours::read_whole(Limit::HIGHEST, &theirs) {
                    (told, _) if !told.is_success() => self.unread += 1,
                    (_, back) if back == *table => self.read_same += 1,
                    (_, back) if back == untold => self.read_untold += 1,
                    _ => self.read_other += 1,
                }
            }
            Err(Trouble::Panic(_)) => self.panics += 1,
        }
        if domain::is_equal_but_empty(table) {
            self.equal_but_empty += 1;
            let mut due = Vec::new();
            forms::write(&untold, &mut AsWritten, &mut due);
            if theirs != due {
                self.findings.note("the crate's bytes, but for empty arrays", table.words.len(), || {
                    format!("`{table}`: {}, the judge writes {}", hex(&theirs), hex(&due))
                });
            }
        }
        let mut due = Vec::new();
        forms::write(table, &mut AsWritten, &mut due);
        if out != due {
            self.findings
                .note("write", table.words.len(), || format!("`{table}`: {}, the judge writes {}", hex(&out), hex(&due)));
        }
        let (_, back) = ours::read_whole(Limit::HIGHEST, &out);
        if back != *table {
            self.findings.note("read", table.words.len(), || format!("`{table}`: {back}"));
        }
    }

    /// Prints those of at most so many rows, and those of a few rows with empty arrays.
    fn print(rows: usize, all: &Outside, empty: &Outside) {
        println!("Of at most {rows} rows and outside the domain, differences 1 to 5 and 7; and of at most {FEW} rows, with empty arrays that tell each of the 25 kinds:\n");
        let of = |what: &str, count: fn(&Outside) -> u64| {
            vec![what.to_string(), report::number(count(all)), report::number(count(empty))]
        };
        report::table(
            1,
            &["outside the domain", &format!("at most {rows} rows"), &format!("at most {FEW} rows, empty arrays")],
            &[
                of("we refuse", |o| o.refused),
                of("both write the same", |o| o.equal),
                of("the crate writes other bytes", |o| o.differ),
                of("of these we read to that table", |o| o.read_same),
                of("to that table, but that its empty arrays tell no kind", |o| o.read_untold),
                of("to another", |o| o.read_other),
                of("and refuse", |o| o.unread),
                of("the crate panics", |o| o.panics),
                of(
                    "inside the domain but for empty arrays: the crate writes what the judge writes with `e0 01 00` for these",
                    |o| o.equal_but_empty,
                ),
            ],
        );
    }
}
