//! Times beside each other, in one run: ours, the ported crate's, Proton's.

use crate::{
    domain,
    equal::depth,
    limit::Limit,
    original, ours, picture,
    picture::{Line, Panel},
    proton::Data,
    report,
    shapes::{self, Shape},
    table::Table,
};
use std::hint::black_box;

pub struct Plan {
    pub rounds: usize,
    pub picture: Option<String>,
}

/// ns a row.
#[derive(Clone, Copy)]
struct Times {
    write: f64,
    size: f64,
    crate_write: f64,
    proton_write: f64,
    read: f64,
    measure: f64,
    proton_read: f64,
}

/// False where the three do not agree on a shape, or the picture cannot be written.
pub fn run(plan: &Plan) -> bool {
    report::heading("Times");
    println!(
        "ns of processor time a row, medians of {} rounds in which all take turns, and all tables too; {}.",
        plan.rounds,
        processor()
    );
    println!(
        "{} rows but for the message. Ours: `afsungar_write` (which sizes first), `afsungar_read`, `afsungar_measure`, with the limit 32 where there are more than 16 levels. The crate",
        report::number(shapes::ROWS as u64)
    );
    println!("writes the same rows to a `Vec` that is kept; for arrays of lists and arrays its bytes are others than ours (docs/DIFFERENCES.md, 7).");
    println!("Proton: `pn_data_encode` of a tree that stands, `pn_data_decode` of our bytes.");
    println!("Compiled: ours and the crate at -O3 for the processor's plainest form, Proton as Debian has it.\n");
    let mut agree = true;
    let mut writes = Vec::new();
    let mut reads = Vec::new();
    let shapes = shapes::all();
    let tables: Vec<_> = shapes.iter().map(|shape| &shape.table).collect();
    let all = times(&tables, plan.rounds);
    for (Shape { name, table }, t) in shapes.iter().zip(&all) {
        agree &= same(name, table);
        let depth = depth(table).to_string();
        let ratio = |other: f64, own: f64| format!("{:.2}", other / own);
        writes.push(vec![
            name.clone(),
            depth.clone(),
            ns(t.write),
            ns(t.size),
            ns(t.crate_write),
            ns(t.proton_write),
            ratio(t.crate_write, t.write),
            ratio(t.proton_write, t.write),
        ]);
        reads.push(vec![
            name.clone(),
            depth,
            ns(t.read),
            ns(t.measure),
            ns(t.proton_read),
            ratio(t.proton_read, t.read),
            ratio(t.proton_read, t.measure),
        ]);
    }
    report::table(
        1,
        &["writing", "depth", "ours", "ours, sizing alone", "the crate", "Proton", "crate / ours", "Proton / ours"],
        &writes,
    );
    report::table(
        1,
        &["reading", "depth", "ours, into rows", "ours, measuring", "Proton", "Proton / rows", "Proton / measuring"],
        &reads,
    );
    ratios(&all);
    let agree = agree & by_depth(plan);
    aims(&all);
    agree
}

/// The times of some shapes beside those of others.
fn ratios(all: &[Times]) {
    let rows: Vec<_> = shapes::RATIOS
        .iter()
        .map(|&(name, over, under)| {
            let of = |time: fn(&Times) -> f64| format!("{:.2}", time(&all[over]) / time(&all[under]));
            vec![name.to_string(), of(|t| t.write), of(|t| t.size), of(|t| t.read), of(|t| t.measure)]
        })
        .collect();
    report::table(1, &["our times a row, the one / the other", "writing", "sizing alone", "reading", "measuring"], &rows);
}

/// What the aims of docs/SPEED.md are held to.
fn aims(all: &[Times]) {
    let by_crate = |place: usize| all[place].write / all[place].crate_write;
    let doubled = |places: &[usize]| {
        let parts: Vec<_> = places.iter().map(|&i| shapes::RATIOS[i]).collect();
        let told = parts.iter().map(|(name, over, under)| {
            let name = name.split_once(": ").map_or(*name, |(_, name)| name);
            format!("{name} {:.2}", all[*over].write / all[*under].write)
        });
        told.collect::<Vec<_>>().join(", ")
    };
    let span = |ratios: Vec<f64>| {
        let least = ratios.iter().copied().fold(f64::MAX, f64::min);
        let most = ratios.iter().copied().fold(0.0, f64::max);
        format!("{least:.2} to {most:.2}")
    };
    let row = |aim: &str, reached: String| vec![aim.to_string(), reached];
    report::table(
        2,
        &["aim", "reached"],
        &[
            row(
                "writing at most the crate's time on flat tables",
                format!("{:.2} of it where the kinds come in turn, {:.2} where they come at random", by_crate(0), by_crate(1)),
            ),
            row(
                "at most half of the crate's time on balanced trees and chains of lists",
                span(shapes::TREES.into_iter().map(by_crate).collect()),
            ),
            row("writing, depth doubled at equal rows: below 1.5 times the time", doubled(&[1, 2])),
            row("the same inside arrays: below 1.5 times the time", doubled(&[3, 4])),
            row(
                "writing 20,000 pairs as an array of lists: at most 1.2 of the time of the same pairs as a list of lists",
                doubled(&[0]),
            ),
            row(
                "reading into rows at most Proton's time, measuring at most half of it",
                format!(
                    "reading {}, measuring {}",
                    span(all.iter().map(|t| t.read / t.proton_read).collect()),
                    span(all.iter().map(|t| t.measure / t.proton_read).collect())
                ),
            ),
        ],
    );
}

fn ns(time: f64) -> String {
    format!("{time:.1}")
}

/// Chains of ever more lists, as a table and as a picture.
fn by_depth(plan: &Plan) -> bool {
    const LISTS: [usize; 10] = [0, 2, 5, 9, 13, 17, 20, 24, 27, 30];
    let tables = LISTS.map(shapes::chains);
    let depths = tables.iter().map(|table| depth(table) as f64);
    let all: Vec<(f64, Times)> = depths.zip(times(&tables.each_ref(), plan.rounds)).collect();
    let rows: Vec<_> = all
        .iter()
        .map(|(depth, t)| {
            let figures = [t.write, t.crate_write, t.proton_write, t.read, t.measure, t.proton_read].map(ns);
            [vec![depth.to_string()], figures.to_vec()].concat()
        })
        .collect();
    report::table(
        0,
        &["depth of chains", "we write", "the crate writes", "Proton writes", "we read", "we measure", "Proton reads"],
        &rows,
    );
    let Some(path) = &plan.picture else { return true };
    let line = |name, colour, of: fn(&Times) -> f64| Line {
        name,
        colour,
        points: all.iter().map(|(depth, t)| (*depth, of(t))).collect(),
    };
    let svg = picture::draw(
        "ns a row against depth: chains of lists, 60,000 rows",
        &[
            Panel {
                title: "writing",
                lines: vec![
                    line("ours", picture::OURS, |t| t.write),
                    line("the crate", picture::CRATE, |t| t.crate_write),
                    line("Proton", picture::PROTON, |t| t.proton_write),
                ],
            },
            Panel {
                title: "reading",
                lines: vec![
                    line("ours, into rows", picture::OURS, |t| t.read),
                    line("ours, measuring", picture::MEASURE, |t| t.measure),
                    line("Proton", picture::PROTON, |t| t.proton_read),
                ],
            },
        ],
    );
    match std::fs::write(path, svg) {
        Ok(()) => true,
        Err(error) => {
            println!("- the picture was not written: {path}: {error}");
            false
        }
    }
}

/// Whether the crate writes what we write, inside the domain of equality, and Proton and we read that to the table.
fn same(name: &str, table: &Table) -> bool {
    let limit = Limit::for_depth(depth(table));
    let mut bytes = vec![0; ours::size(limit, table).length as usize];
    let mut theirs = Vec::new();
    let mut data = Data::new();
    let same = ours::write(limit, table, &mut bytes).is_success()
        && original::write(table, &mut theirs).is_ok()
        && (theirs == bytes || !domain::is_equal(table))
        && ours::read_whole(limit, &bytes).1 == *table
        && data.decode(&bytes) == Ok(bytes.len())
        && data.table().as_ref() == Some(table);
    if !same {
        println!("- **the three do not agree** on {name}\n");
    }
    same
}

/// The median times of each table. The tables take turns, so that a slow phase of the machine meets all.
fn times(tables: &[&Table], rounds: usize) -> Vec<Times> {
    const TURNS: usize = 10;
    let mut taken: Vec<[Vec<f64>; WORKS]> = tables.iter().map(|_| Default::default()).collect();
    for turn in 0..TURNS {
        let rounds = rounds * (turn + 1) / TURNS - rounds * turn / TURNS;
        for (table, taken) in tables.iter().zip(&mut taken) {
            sample(table, rounds, taken);
        }
    }
    let median = |table: &Table, mut times: Vec<f64>| {
        times.sort_by(f64::total_cmp);
        times[times.len() / 2] / table.rows() as f64
    };
    let all = tables.iter().zip(taken).map(|(table, taken)| {
        let [write, size, crate_write, proton_write, read, measure, proton_read] = taken.map(|times| median(table, times));
        Times { write, size, crate_write, proton_write, read, measure, proton_read }
    });
    all.collect()
}

const WORKS: usize = 7;

/// So many rounds of all that is done with a table, each work in its turn; the ns that each took go to `taken`.
fn sample(table: &Table, rounds: usize, taken: &mut [Vec<f64>; WORKS]) {
    let limit = Limit::for_depth(depth(table));
    let mut bytes = vec![0; ours::size(limit, table).length as usize];
    ours::write(limit, table, &mut bytes);
    let (mut out, mut theirs, mut proton_out) = (bytes.clone(), Vec::with_capacity(bytes.len()), vec![0; 10 * bytes.len() + 64]);
    let (mut row_room, mut text_room) = (vec![0; table.words.len()], vec![0; table.text.len()]);
    let (mut tree, mut read_tree) = (Data::new(), Data::new());
    tree.put(table).expect("Proton takes the table");

    let mut works: [Box<dyn FnMut() + '_>; WORKS] = [
        Box::new(|| keep(ours::write(limit, black_box(table), &mut out))),
        Box::new(|| keep(ours::size(limit, black_box(table)))),
        Box::new(|| {
            theirs.clear();
            keep(original::write(black_box(table), &mut theirs));
        }),
        Box::new(|| keep(tree.encode(&mut proton_out))),
        Box::new(|| keep(ours::read(limit, black_box(&bytes), &mut row_room, &mut text_room))),
        Box::new(|| keep(ours::measure(limit, black_box(&bytes)))),
        Box::new(|| keep(read_tree.decode(black_box(&bytes)))),
    ];
    const SHORTEST: f64 = 200_000.0; // of a turn, in ns
    let turns = works.each_mut().map(|work| {
        time(work, 3);
        (SHORTEST / time(work, 3)).ceil() as usize
    });
    for _ in 0..rounds {
        for ((work, turn), taken) in works.iter_mut().zip(turns).zip(taken.iter_mut()) {
            taken.push(time(work, turn));
        }
    }
}

/// ns for one of so many times.
fn time(work: &mut impl FnMut(), times: usize) -> f64 {
    let start = clock::spent();
    for _ in 0..times {
        work();
    }
    (clock::spent() - start) as f64 / times as f64
}

/// Makes the compiler believe that a result is used.
fn keep<T>(result: T) {
    black_box(result);
}

/// The time that this thread has had the processor: other programs on the machine do not count.
mod clock {
    use std::os::raw::{c_int, c_long};

    #[repr(C)]
    struct Timespec {
        seconds: c_long,
        nanoseconds: c_long,
    }

    extern "C" {
        fn clock_gettime(clock: c_int, time: *mut Timespec) -> c_int;
    }

    /// In ns.
    pub fn spent() -> u64 {
        const THREAD: c_int = 3; // CLOCK_THREAD_CPUTIME_ID of Linux
        let mut time = Timespec { seconds: 0, nanoseconds: 0 };
        // SAFETY: `time` is what the call asks for.
        let failed = unsafe { clock_gettime(THREAD, &mut time) };
        assert_eq!(failed, 0, "the thread's clock can be read");
        time.seconds as u64 * 1_000_000_000 + time.nanoseconds as u64
    }
}

fn processor() -> String {
    let info = std::fs::read_to_string("/proc/cpuinfo").unwrap_or_default();
    let name =
        info.lines().find_map(|line| line.strip_prefix("model name")).map(|rest| rest.trim_start_matches(['\t', ' ', ':']));
    format!("{}, {}", std::env::consts::ARCH, name.unwrap_or("processor not named"))
}
