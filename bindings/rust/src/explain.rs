use alloc::format;
use alloc::string::{String, ToString};
use alloc::vec::Vec;
use core::error::Error;
use core::fmt;

use crate::kind::{element_code, text_length};
use crate::{Kind, Reason, Refusal, Row, Table, Value, LEVELS_LEAST, LEVELS_MOST, MAX_LENGTH};

/// What is wrong with a table, and where, in the terms of whoever put it together; see [`Table::explain`].
///
/// `Display` prints the path, if there is one, and the words.
#[derive(Clone, Debug, PartialEq, Eq, Hash)]
pub struct Explanation {
    path: Option<String>,
    words: String,
}

impl Explanation {
    /// The value that is meant, as [`Table::path`] names it. None where it is the whole table, or the call.
    #[must_use]
    pub fn path(&self) -> Option<&str> {
        self.path.as_deref()
    }

    /// What is wrong there.
    #[must_use]
    pub fn words(&self) -> &str {
        &self.words
    }
}

impl fmt::Display for Explanation {
    fn fmt(&self, f: &mut fmt::Formatter<'_>) -> fmt::Result {
        match &self.path {
            Some(path) => write!(f, "{path}: {}", self.words),
            None => f.write_str(&self.words),
        }
    }
}

impl Error for Explanation {}

impl Table {
    /// Where a row stands, from the root, `$`, down: `$.vents[2]`.
    ///
    /// What a map holds is named by its key, `.vents`, or in brackets where the key is no plain name, `["Ø1.2"]`, `[4711]`; a key
    /// itself by its number, `<key 0>`. Children of lists and arrays are counted from 0, `[2]`. The two parts of a described
    /// value are `<descriptor>` and `<value>`. None if the table has no such row, or it stands behind the value.
    ///
    /// ```
    /// use afsungar::Table;
    ///
    /// let order = Table::build(|t| t.map(|t| t.symbol("vents").list_of(["Ø1.2", "Ø1.3", "M4"])));
    /// assert_eq!(order.path(0).unwrap(), "$");
    /// assert_eq!(order.path(5).unwrap(), "$.vents[2]");
    /// ```
    #[must_use]
    pub fn path(&self, row: usize) -> Option<String> {
        let mut way = Way::new(self);
        while way.step()?.index < row {}
        Some(way.to_string())
    }

    /// What a refusal of this table means, and at which value: of [`size`](Table::size), [`to_bytes`](Table::to_bytes) and the
    /// others that write.
    ///
    /// ```
    /// use afsungar::{Kind, Table};
    ///
    /// let order = Table::build(|t| {
    ///     t.map(|t| t.symbol("vents").array(Kind::Int, |t| t.int(35).int(-12).string("M4")))
    /// });
    /// let refusal = order.to_bytes().unwrap_err();
    /// assert_eq!(order.explain(refusal).to_string(), "$.vents[2]: a string in an array of int");
    /// ```
    ///
    /// Of a refusal that is not this table's, as one of reading, it has the words of the refusal itself.
    #[must_use]
    pub fn explain(&self, refusal: Refusal) -> Explanation {
        let place = refusal.row().and_then(|row| usize::try_from(row).ok());
        let found = match refusal.text_byte() {
            Some(byte) => self.row_of_text_byte(byte).map(|row| self.at(row.index, |_, row| bad_text(row, byte))),
            None => place.map(|row| self.at_row(refusal.reason(), row)),
        };
        found.flatten().unwrap_or_else(|| Explanation { path: None, words: self.of_no_row(refusal) })
    }

    /// What is wrong at a row, or where one is missing.
    fn at_row(&self, reason: Reason, row: usize) -> Option<Explanation> {
        match reason {
            Reason::RowsAmiss if self.words().len() % 2 == 1 => None,
            Reason::RowsAmiss if row == self.len() => self.unfinished(),
            _ => self.at(row, |way, row| wrong(reason, way, row, self)),
        }
    }

    fn at(&self, index: usize, words: impl FnOnce(&Way<'_>, &Row<'_>) -> String) -> Option<Explanation> {
        let mut way = Way::new(self);
        loop {
            let row = way.step()?;
            if row.index == index {
                return Some(Explanation { path: Some(way.to_string()), words: words(&way, &row) });
            }
        }
    }

    /// The value that misses a child, where the rows have come to an end.
    fn unfinished(&self) -> Option<Explanation> {
        let mut way = Way::new(self);
        while way.step().is_some() {}
        let open = way.close()?;
        let words =
            format!("{} of {} values, and the table ends behind {}", open.row.name(), open.row.count(), open.passed);
        Some(Explanation { path: Some(way.to_string()), words })
    }

    fn of_no_row(&self, refusal: Refusal) -> String {
        let rows = self.len() as u64;
        match refusal.reason() {
            Reason::RowsAmiss if self.words().len() % 2 == 1 => "the words are odd in number; a row is two".to_string(),
            Reason::RowsAmiss if self.is_empty() => "the table is empty".to_string(),
            Reason::RowsAmiss => format!("row {} stands behind the value; a table holds one", refusal.place()),
            Reason::TextAmiss if refusal.row() == Some(rows) => {
                let (_, left) = self.rows_to_end();
                format!("{left} bytes of text are left behind that of the last row")
            }
            Reason::TooLong => format!("the value would take more than {MAX_LENGTH} bytes"),
            Reason::LimitOutside => format!("the level limit has to be from {LEVELS_LEAST} to {LEVELS_MOST}"),
            _ => refusal.to_string(),
        }
    }

    /// The last row, and how much text is left behind its own.
    fn rows_to_end(&self) -> (Option<Row<'_>>, usize) {
        let last = self.rows().last();
        let used = last.map_or(0, |row| row.text_start + row.text.len());
        (last, self.text().len() - used)
    }
}

/// The way from the root to a row.
struct Way<'a> {
    rows: crate::Rows<'a>,
    /// The values that the row stands in, from the root on, and last the row itself.
    open: Vec<Open<'a>>,
}

/// A value on the way.
struct Open<'a> {
    row: Row<'a>,
    /// How many of its children have been passed, with the one that is under way.
    passed: usize,
    /// The last key that was passed, in a map.
    key: Option<Row<'a>>,
}

impl<'a> Way<'a> {
    fn new(table: &'a Table) -> Self {
        Way { rows: table.rows(), open: Vec::new() }
    }

    /// Goes on to the next row. None at the end of the value, or of the rows.
    fn step(&mut self) -> Option<Row<'a>> {
        let begun = !self.open.is_empty();
        while self.open.last().is_some_and(|last| last.passed == last.row.count()) {
            self.open.pop();
        }
        if begun && self.open.is_empty() {
            return None;
        }
        let row = self.rows.next()?;
        if let Some(parent) = self.open.last_mut() {
            let is_key = parent.row.kind() == Some(Kind::Map) && parent.passed % 2 == 0;
            parent.key = if is_key { Some(row) } else { parent.key };
            parent.passed += 1;
        }
        self.open.push(Open { row, passed: 0, key: None });
        Some(row)
    }

    /// At the end of the rows: the innermost value that is not whole.
    fn close(&self) -> Option<&Open<'a>> {
        self.open.last().filter(|last| last.passed < last.row.count())
    }

    /// The row that the last one is a child of.
    fn parent(&self) -> Option<&Row<'a>> {
        self.open.iter().rev().nth(1).map(|open| &open.row)
    }
}

impl fmt::Display for Way<'_> {
    fn fmt(&self, f: &mut fmt::Formatter<'_>) -> fmt::Result {
        f.write_str("$")?;
        let above = self.open.len().saturating_sub(1);
        for open in &self.open[..above] {
            let which = open.passed - 1;
            match open.row.kind() {
                Some(Kind::Described) => f.write_str(if which == 0 { "<descriptor>" } else { "<value>" })?,
                Some(Kind::Map) if which % 2 == 0 => write!(f, "<key {}>", which / 2)?,
                Some(Kind::Map) => write_key(f, open.key, which / 2)?,
                _ => write!(f, "[{which}]")?,
            }
        }
        Ok(())
    }
}

/// What a map has for this key, which is that of its n-th entry.
fn write_key(f: &mut fmt::Formatter<'_>, key: Option<Row<'_>>, entry: usize) -> fmt::Result {
    let value = key.and_then(|key| key.value().ok());
    match value {
        Some(Value::String(name) | Value::Symbol(name)) if is_plain(name) => write!(f, ".{name}"),
        Some(Value::String(name) | Value::Symbol(name)) => write!(f, "[{name:?}]"),
        Some(Value::Uuid(uuid)) => write!(f, "[{uuid}]"),
        _ => match value.and_then(|value| value.whole()) {
            Some(number) => write!(f, "[{number}]"),
            None => write!(f, "<value {entry}>"),
        },
    }
}

/// Whether a key can stand behind a dot.
fn is_plain(name: &str) -> bool {
    let mut letters = name.chars();
    letters.next().is_some_and(|first| first.is_alphabetic() || first == '_')
        && letters.all(|letter| letter.is_alphanumeric() || letter == '_' || letter == '-')
}

impl Row<'_> {
    /// Its kind with the article before it.
    fn name(&self) -> String {
        self.kind().map_or_else(|| format!("{:#04x}", self.code), |kind| kind.with_article().to_string())
    }
}

/// Why a text is bad at this byte of the table's text.
fn bad_text(row: &Row<'_>, byte: u64) -> String {
    let within = byte as usize - row.text_start;
    let rule = if row.kind() == Some(Kind::Symbol) { "ASCII" } else { "UTF-8" };
    let found = row.text.get(within).copied().unwrap_or_default();
    format!("{} that is not {rule} at its byte {within}, {found:#04x}", row.name())
}

/// What is wrong at a row that is there.
fn wrong(reason: Reason, way: &Way<'_>, row: &Row<'_>, table: &Table) -> String {
    match reason {
        Reason::KindUnknown => format!("{:#04x} is not one of the 25 kinds", row.code),
        Reason::TooDeep => format!("{} at level {}, beyond the limit of the call", row.name(), way.open.len()),
        Reason::ElementUnfit => unfit(way, row),
        Reason::NumberOutside => outside(row),
        Reason::TextAmiss => {
            let wanted = text_length(row.code, row.number);
            let left = table.text().len() - row.text_start;
            format!("{} of {wanted} bytes of text, and {left} are left", row.name())
        }
        _ => format!("{} that is refused", row.name()),
    }
}

/// An element of another kind than its array tells, or an array that tells what it cannot hold.
fn unfit(way: &Way<'_>, row: &Row<'_>) -> String {
    let told = way.parent().filter(|parent| parent.kind() == Some(Kind::Array));
    match told.and_then(|array| Kind::from_code(element_code(array.number))) {
        Some(kind) if Some(kind) != row.kind() => format!("{} in an array of {kind}", row.name()),
        _ => "an array of null, which arrays cannot hold".to_string(),
    }
}

/// A number that its kind does not allow.
fn outside(row: &Row<'_>) -> String {
    let (name, number) = (row.name(), row.number);
    let most = MAX_LENGTH as u64;
    match row.kind() {
        Some(Kind::Map) if number % 2 == 1 => format!("a map of {number} keys and values; they have to come in pairs"),
        Some(Kind::List | Kind::Map) => format!("{name} of {number} values; {most} is the most"),
        Some(Kind::Array) if element_code(number) == 0 => {
            "an array that does not tell the kind of its elements".to_string()
        }
        Some(Kind::Array) if Kind::from_code(element_code(number)).is_none() => {
            format!("an array of {:#04x}, which is not one of the 25 kinds", element_code(number))
        }
        Some(Kind::Array) => format!("an array of {} elements; {most} is the most", row.count()),
        Some(Kind::Binary | Kind::String | Kind::Symbol) => format!("{name} of {number} bytes; {most} is the most"),
        Some(Kind::Described) => format!("a described value has two parts, not {number}"),
        Some(Kind::Char) => format!("{number:#x} is no Unicode scalar value"),
        _ => format!("{number} is no {}", row.kind().map_or("kind", Kind::name)),
    }
}
