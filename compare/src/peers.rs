//! Beside Qpid Proton: each reads what the other writes, and both read the same bytes, good and bad.

use crate::{
    damage::Damage,
    domain,
    equal::by_kind,
    findings::Findings,
    generate::Generator,
    limit::Limit,
    ours::{self, Told},
    proton::{Data, NODES},
    reader, report, small,
    table::{array, hex, Kind, Row, Rows, Table},
};

pub struct Plan {
    pub seed: u64,
    pub random: u64,
}

/// In which the two are known to part, and who is right by Part 1.
const KNOWN: [(&str, &str); 16] = [
    (NO_CODE, "Proton: an array has an element code even so. We read these and do not write them"),
    (DESCRIPTOR, "we: a descriptor may be any value"),
    (LAYERS, "we: behind the inner described value Proton loses its place"),
    ("accepts a boolean byte above 01", "we: only 00 and 01"),
    ("accepts a char that is none", "we: a char is a Unicode character"),
    ("accepts a string that is not UTF-8", "we: a string is UTF-8"),
    ("accepts a symbol that is not ASCII", "we: a symbol is ASCII"),
    ("accepts bad values in an array", "we, as with values outside arrays"),
    (ODD_MAP, "we: a map has keys and values"),
    ("accepts a list or map whose size or count is wrong", "we: size and count both hold"),
    ("accepts an array in which a size or a count is wrong", "we: both hold"),
    ("accepts a value that runs past its parent's body", "we: the parent's size holds"),
    ("accepts an array of values without payload", "Proton; that we refuse these is our own choice"),
    ("accepts an array of described values", "Proton; that we refuse these is our own choice"),
    (
        "accepts an array of described values or of values without payload, within an array",
        "Proton; that we refuse these is our own choice",
    ),
    ("accepts more than 32 levels", "Proton; the limit is our own choice"),
];
const ODD_MAP: &str = "accepts a map with an odd count";
const NO_CODE: &str = "refuses an empty array without element code";
const DESCRIPTOR: &str = "refuses a list, map, array or described value as descriptor";
const LAYERS: &str = "reads another value: described values in one another, and more behind them";

/// The bytes of which all short runs are tried: counts and sizes, and a code of each sort.
const ALPHABET: [u8; 16] = [0x00, 0x01, 0x02, 0x03, 0x04, 0x40, 0x45, 0x50, 0x56, 0x73, 0x80, 0xa1, 0xa3, 0xc0, 0xc1, 0xe0];
const SMALL_ALPHABET: [u8; 11] = [0x00, 0x01, 0x02, 0x04, 0x40, 0x45, 0x50, 0x56, 0xc0, 0xc1, 0xe0];

/// False where the two part in a way that is not known.
pub fn run(plan: &Plan) -> bool {
    report::heading("Beside Qpid Proton");
    let mut judge = Judge::new();
    let mut tables = Generator::all(plan.seed);
    for _ in 0..plan.random {
        judge.try_table(tables.table());
    }
    small::each(4, &small::ALPHABET, &small::EMPTY, &mut |table| judge.try_table(table));
    small::each(7, &small::ALPHABET[..1], &small::EMPTY[..1], &mut |table| judge.try_table(table));
    small::each(3, &small::ALPHABET, &Kind::ELEMENTS, &mut |table| {
        if table.has_empty_array() {
            judge.try_table(table);
        }
    });

    each_run(5, &ALPHABET, &mut |bytes| judge.try_bytes(bytes));
    each_run(6, &SMALL_ALPHABET, &mut |bytes| judge.try_bytes(bytes));
    for depth in [32, 33] {
        judge.try_bytes(&lists_in_lists(depth));
    }
    for bytes in SHOWN_BYTES {
        judge.try_bytes(bytes);
    }
    let mut damage = Damage::new(plan.seed);
    for _ in 0..plan.random {
        judge.try_bytes(damage.bytes());
    }
    judge.print(plan);
    show(&mut judge.data);
    judge.all_known()
}

/// Empty arrays, and arrays of lists, maps and arrays, to be seen both ways.
const SHOWN: [&[(Kind, u64)]; 11] = [
    &[array(Kind::Uint, 0)],
    &[array(Kind::List, 0)],
    &[array(Kind::List, 2), (Kind::List, 0), (Kind::List, 0)],
    &[array(Kind::List, 2), (Kind::List, 1), (Kind::Null, 0), (Kind::List, 0)],
    &[array(Kind::List, 1), (Kind::List, 1), (Kind::List, 1), (Kind::Null, 0)],
    &[array(Kind::Map, 2), (Kind::Map, 2), (Kind::Ubyte, 1), (Kind::Ubyte, 2), (Kind::Map, 0)],
    &[array(Kind::Array, 2), array(Kind::Ubyte, 1), (Kind::Ubyte, 7), array(Kind::Byte, 1), (Kind::Byte, 8)],
    &[array(Kind::Array, 1), array(Kind::Array, 1), array(Kind::Ushort, 1), (Kind::Ushort, 1)],
    &[array(Kind::Array, 1), array(Kind::Ubyte, 0)],
    &[array(Kind::Array, 2), array(Kind::Uint, 0), array(Kind::String, 0)],
    &[array(Kind::Array, 2), array(Kind::Ubyte, 1), (Kind::Ubyte, 7), array(Kind::Map, 0)],
];

/// Such arrays in forms that we do not write.
const SHOWN_BYTES: [&[u8]; 12] = [
    &[0xe0, 0x01, 0x00],
    &[0xe0, 0x02, 0x00, 0x52],
    &[0xe0, 0x02, 0x00, 0xc0],
    &[0xe0, 0x02, 0x00, 0x40],
    &[0xe0, 0x06, 0x02, 0xc0, 0x01, 0x00, 0x01, 0x00],
    &[0xe0, 0x08, 0x02, 0xc0, 0x02, 0x01, 0x40, 0x02, 0x01, 0x40],
    &[0xe0, 0x09, 0x01, 0xc1, 0x06, 0x02, 0xa3, 0x01, 0x76, 0x52, 0x02],
    &[0xe0, 0x0a, 0x02, 0xe0, 0x03, 0x01, 0x50, 0x07, 0x03, 0x01, 0x50, 0x08],
    &[0xe0, 0x08, 0x02, 0xe0, 0x02, 0x00, 0x50, 0x02, 0x00, 0x50],
    &[0xe0, 0x06, 0x02, 0xe0, 0x01, 0x00, 0x01, 0x00],
    &[0xe0, 0x02, 0x02, 0x45],
    &[0xe0, 0x05, 0x01, 0xe0, 0x02, 0x01, 0x45],
];

/// Prints what both do with them.
fn show(data: &mut Data) {
    println!(
        "Empty arrays, and arrays of lists, maps and arrays, as both write them, and as each reads what the other writes:\n"
    );
    let rows: Vec<_> = SHOWN
        .iter()
        .map(|rows| {
            let mut table = Table::default();
            for &(kind, number) in *rows {
                table.row(kind, number);
            }
            let mut ours = vec![0; ours::size(Limit::HIGHEST, &table).length as usize];
            ours::write(Limit::HIGHEST, &table, &mut ours);
            let mut theirs = vec![0; 256];
            let length = data.put(&table).and_then(|()| data.encode(&mut theirs)).unwrap_or(0);
            theirs.truncate(length);
            let (read, back) = (reads(data, &ours), we_read(&theirs));
            vec![report::code(&table), report::code(hex(&ours)), read, report::code(hex(&theirs)), back]
        })
        .collect();
    report::table(5, &["table", "we write", "Proton reads that to", "Proton writes", "we read that to"], &rows);
    println!("In forms that we do not write:\n");
    let rows: Vec<_> =
        SHOWN_BYTES.iter().map(|bytes| vec![report::code(hex(bytes)), we_read(bytes), reads(data, bytes)]).collect();
    report::table(3, &["bytes", "we read", "Proton reads"], &rows);
}

/// What Proton makes of bytes.
fn reads(data: &mut Data, bytes: &[u8]) -> String {
    match data.decode(bytes) {
        Ok(length) if length == bytes.len() => data.table().map_or("a value that no table holds".into(), report::code),
        Ok(length) => format!("{length} bytes of it"),
        Err(error) => format!("error {}", error.0),
    }
}

fn we_read(bytes: &[u8]) -> String {
    let (told, table) = ours::read_whole(Limit::HIGHEST, bytes);
    match told.number {
        0 => report::code(table),
        number => format!("{number} at {}", told.place),
    }
}

/// All runs of at most `most` bytes of the alphabet.
fn each_run(most: usize, alphabet: &[u8], visit: &mut impl FnMut(&[u8])) {
    fn extend(bytes: &mut Vec<u8>, most: usize, alphabet: &[u8], visit: &mut impl FnMut(&[u8])) {
        visit(bytes);
        if bytes.len() < most {
            for &byte in alphabet {
                bytes.push(byte);
                extend(bytes, most, alphabet, visit);
                bytes.pop();
            }
        }
    }
    extend(&mut Vec::new(), most, alphabet, visit);
}

/// So many lists, one in the other; the innermost is empty.
fn lists_in_lists(depth: usize) -> Vec<u8> {
    (1..depth).fold(vec![0x45], |inner, _| [&[0xc0, inner.len() as u8 + 1, 1], &inner[..]].concat())
}

struct Judge {
    data: Data,
    findings: Findings,
    tables: u64,
    /// Tables in which nothing is known that Proton does not read, and those of them that it does read.
    plain: u64,
    plain_read_by: u64,
    /// The same of those with an array of lists, maps or arrays.
    nested: u64,
    nested_read_by: u64,
    /// The same of those with an empty array, and all empty arrays of those, by what they tell.
    empty: u64,
    empty_read_by: u64,
    empty_arrays: [u64; 256],
    /// Of all tables: read by Proton, read from Proton, and with the same bytes.
    read_by: u64,
    read_from: u64,
    same_bytes: u64,
    runs: u64,
    agree: u64,
    ours: Vec<u8>,
    theirs: Vec<u8>,
}

impl Judge {
    fn new() -> Self {
        Judge {
            data: Data::new(),
            findings: Findings::default(),
            tables: 0,
            plain: 0,
            plain_read_by: 0,
            nested: 0,
            nested_read_by: 0,
            empty: 0,
            empty_read_by: 0,
            empty_arrays: [0; 256],
            read_by: 0,
            read_from: 0,
            same_bytes: 0,
            runs: 0,
            agree: 0,
            ours: Vec::new(),
            theirs: Vec::new(),
        }
    }

    fn try_table(&mut self, table: &Table) {
        let told = ours::size(Limit::HIGHEST, table);
        if table.rows() > NODES || !told.is_success() {
            return;
        }
        if !domain::is_table(table) {
            return self
                .findings
                .note("we accept what the format refuses", table.words.len(), || format!("`{table}` | {told} |"));
        }
        self.tables += 1;
        self.ours.resize(told.length as usize, 0);
        ours::write(Limit::HIGHEST, table, &mut self.ours);
        let bytes = std::mem::take(&mut self.ours);
        let same = self.same_value(&bytes, table);
        self.read_by += same as u64;
        if known_trouble(table, true).is_none() {
            self.plain += 1;
            self.plain_read_by += same as u64;
            self.nested += table.is_nested() as u64;
            self.nested_read_by += (same && table.is_nested()) as u64;
            self.empty += table.has_empty_array() as u64;
            self.empty_read_by += (same && table.has_empty_array()) as u64;
            let empty = table.arrays().filter(|(_, count)| *count == 0);
            empty.for_each(|(kind, _)| self.empty_arrays[kind as usize & 0xff] += 1);
        }
        self.try_theirs(&bytes, table);
        self.ours = bytes;
    }

    /// Whether Proton reads our bytes as the table that we wrote, with the same type of elements in each array.
    fn same_value(&mut self, bytes: &[u8], table: &Table) -> bool {
        let read = self.data.decode(bytes);
        let back = self.data.table();
        if read == Ok(bytes.len()) && back.as_ref() == Some(table) {
            return true;
        }
        let unknown = if read.is_ok() { "reads another value" } else { "refuses" };
        self.findings.note(known_trouble(table, read.is_err()).unwrap_or(unknown), bytes.len(), || {
            let theirs = match (read, back) {
                (Ok(_), Some(back)) => format!("`{back}`"),
                (Ok(_), None) => "no value".into(),
                (Err(error), _) => format!("error {}", error.0),
            };
            format!("`{}` | `{table}` | {theirs}", hex(bytes))
        });
        false
    }

    /// Proton writes the table's value, and we read that.
    fn try_theirs(&mut self, ours: &[u8], table: &Table) {
        self.theirs.resize(6 * ours.len() + 64, 0);
        let length = self.data.put(table).and_then(|()| self.data.encode(&mut self.theirs));
        let Ok(length) = length else {
            return self.findings.note("Proton cannot write", ours.len(), || format!("`{table}` | {length:?} |"));
        };
        let bytes = &self.theirs[..length];
        self.same_bytes += (bytes == ours) as u64;
        let (told, back) = ours::read_whole(Limit::HIGHEST, bytes);
        if told == Told::success(length, table.rows(), table.text.len()) && back == *table {
            self.read_from += 1;
        } else {
            self.findings.note("we do not read what Proton writes", length, || format!("`{}` | {told} | `{table}`", hex(bytes)));
        }
    }

    /// Both read the same bytes.
    fn try_bytes(&mut self, bytes: &[u8]) {
        self.runs += 1;
        let (told, table) = ours::read_whole(Limit::HIGHEST, bytes);
        if told.is_success() {
            self.agree += self.same_value(&bytes[..told.length as usize], &table) as u64;
            return;
        }
        match self.data.decode(bytes) {
            Err(_) => self.agree += 1,
            Ok(length) => {
                let theirs = self.data.table();
                self.findings.note(leniency(bytes, &told, length), bytes.len(), || {
                    let theirs = theirs.map_or("a value that no table holds".into(), report::code);
                    format!("`{}` | {} at {} | {theirs}", hex(bytes), told.number, told.place)
                });
            }
        }
    }

    fn all_known(&self) -> bool {
        self.findings.iter().all(|(what, _)| KNOWN.iter().any(|(known, _)| *known == what))
    }

    fn print(&self, plan: &Plan) {
        let of = |what: &str, count| vec![what.to_string(), report::number(count)];
        println!("Random ones of seed {}, and small ones.\n", plan.seed);
        report::table(
            1,
            &["what", "number"],
            &[
                of("tables that both write", self.tables),
                of("of these without the two that Proton does not read (below)", self.plain),
                of("our bytes of these read by Proton to the same values", self.plain_read_by),
                of("without the two and with arrays of lists, maps or arrays", self.nested),
                of("our bytes of these read by Proton to the same values", self.nested_read_by),
                of("without the two and with empty arrays", self.empty),
                of("our bytes of these read by Proton to the same values", self.empty_read_by),
                of("our bytes of all read by Proton to the same values", self.read_by),
                of("Proton's bytes read by us to the same values", self.read_from),
                of("the same bytes from both (Proton writes lists, maps and arrays in their wide forms)", self.same_bytes),
                of("runs of bytes, good and bad, that both read", self.runs),
                of("both refuse, or both read the same values", self.agree),
            ],
        );
        println!("The same values: arrays, empty or not, also with the same type of elements (`pn_data_get_array_type`).");
        println!(
            "The empty arrays of the tables without the two, by what they tell: {}.\n",
            by_kind(&Kind::ELEMENTS, &self.empty_arrays)
        );
        let rows: Vec<_> = self
            .findings
            .iter()
            .map(|(what, found)| {
                let right = KNOWN.iter().find(|(known, _)| *known == what).map_or("**not known**", |(_, right)| *right);
                vec![what.to_string(), report::number(found.count), found.example.clone(), right.to_string()]
            })
            .collect();
        report::table(6, &["what Proton does", "times", "smallest bytes", "we say", "Proton says", "right by Part 1"], &rows);
    }
}

/// The first thing in a table that Proton is known not to read; nothing where it has to read it. The first of them is in no table that we write, and with
/// it Proton refuses.
fn known_trouble(table: &Table, refused: bool) -> Option<&'static str> {
    let mut rows = Rows::of(table);
    let (mut descriptor, mut layers) = (false, false);
    while let Some(row) = rows.next() {
        if row.kind == Kind::Described {
            let mut value = rows;
            descriptor |= skip(&mut value).is_some_and(|row| row.kind.has_children());
            layers |= value.next().is_some_and(|row| row.kind == Kind::Described);
        }
    }
    let troubles = [(refused && table.untold().is_some(), NO_CODE), (descriptor, DESCRIPTOR), (layers, LAYERS)];
    troubles.into_iter().find(|(there, _)| *there).map(|(_, name)| name)
}

/// Passes over one value, and gives its first row.
fn skip<'a>(rows: &mut Rows<'a>) -> Option<Row<'a>> {
    let first = rows.next()?;
    for _ in 0..first.children() {
        skip(rows)?;
    }
    Some(first)
}

/// What Proton accepts where we refuse; `length` is what it takes.
fn leniency(bytes: &[u8], told: &Told, length: usize) -> &'static str {
    let at = told.place as usize;
    let code = bytes.get(at).copied().unwrap_or(0);
    // a first value that has a size, and Proton goes by another
    let elsewhere = at == 0 && announced(bytes).is_some_and(|due| due != length);
    let (array, short) = (matches!(code, 0xe0 | 0xf0), matches!(code, 0xc0 | 0xc1 | 0xe0));
    // the byte behind the size and what there is of the count
    let behind = |count: usize| bytes.get(at + if short { 2 + count } else { 5 + 4 * count });
    match (told.number, code) {
        (3, _) => "accepts more than 32 levels",
        // the place of a bad text is its byte
        (11, _) => match reader::read(Limit::HIGHEST, bytes).bad.map(|bad| (bad.kind, bad.arrays)) {
            Some((Kind::Boolean, 0)) => "accepts a boolean byte above 01",
            Some((Kind::Char, 0)) => "accepts a char that is none",
            Some((Kind::String, 0)) => "accepts a string that is not UTF-8",
            Some((Kind::Symbol, 0)) => "accepts a symbol that is not ASCII",
            _ => "accepts bad values in an array",
        },
        (4 | 12, _) if array && (elsewhere || told.number == 12) => "accepts an array in which a size or a count is wrong",
        (4, _) => match behind(1) {
            Some(0x40..=0x45) => "accepts an array of values without payload",
            Some(0x00) => "accepts an array of described values",
            _ => "accepts an array of described values or of values without payload, within an array",
        },
        (12, 0xc1) if !elsewhere && behind(0).is_some_and(|count| count % 2 == 1) => ODD_MAP,
        (12, _) => "accepts a list or map whose size or count is wrong",
        (9, _) => "accepts a value that runs past its parent's body",
        _ => "accepts what we refuse",
    }
}

/// The length that the first value's own size gives it, if it has a size.
fn announced(bytes: &[u8]) -> Option<usize> {
    match bytes {
        [0xc0 | 0xc1 | 0xe0, size, ..] => Some(2 + *size as usize),
        [0xd0 | 0xd1 | 0xf0, a, b, c, d, ..] => Some(5 + u32::from_be_bytes([*a, *b, *c, *d]) as usize),
        _ => None,
    }
}
