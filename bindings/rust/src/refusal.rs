use core::error::Error;
use core::fmt;
#[cfg(feature = "std")]
use std::io;

/// Why nothing was done: a reason, and where.
///
/// The place is counted from 0. In writing it is a row, but where a text is bad it is a byte of the text; in reading it is an
/// offset. [`row`](Refusal::row), [`text_byte`](Refusal::text_byte) and [`offset`](Refusal::offset) each give it only where
/// it is that. All lent memory is as it was before the call.
///
/// ```
/// use afsungar::{measure, size, Reason, Refusal};
///
/// let refusal = size(&[0xd0, 1, 0x56, 2], &[]).unwrap_err(); // a list of one boolean, which is neither 0 nor 1
/// assert_eq!(refusal, Refusal::writing(Reason::NumberOutside, 1));
/// assert_eq!((refusal.number(), refusal.row()), (5, Some(1)));
/// assert_eq!(refusal.to_string(), "the number is not one that the row's kind allows (5) at row 1");
///
/// let refusal = size(&[0xd0, 2, 0xb1, 2, 0xb1, 2], b"M4M\xc3").unwrap_err(); // a list of two strings, the last cut off
/// assert_eq!(refusal, Refusal::bad_text(3));
/// assert_eq!((refusal.number(), refusal.row(), refusal.text_byte()), (6, None, Some(3)));
/// assert_eq!(refusal.to_string(), "a string is not UTF-8 or a symbol not ASCII (6) at byte 3 of the text");
///
/// let refusal = measure(&[0xc0, 0x01, 0x01]).unwrap_err(); // a list that says it has a child, and has none
/// assert_eq!(refusal, Refusal::reading(Reason::InputShort, 3));
/// assert_eq!(refusal.to_string(), "a value goes on beyond its bytes (9) at byte 3");
/// ```
#[derive(Clone, Copy, Debug, PartialEq, Eq, Hash)]
pub struct Refusal {
    reason: Reason,
    place: u64,
    task: Task,
    /// Whether the place is a byte of the text.
    in_text: bool,
}

/// What was asked for when a refusal was given.
#[derive(Clone, Copy, Debug, PartialEq, Eq, Hash)]
pub enum Task {
    /// Sizing or writing a table: the place is a row, or a byte of the text.
    Writing,
    /// Measuring, reading or walking: the place is an offset.
    Reading,
}

/// The reasons of a refusal: the library's fifteen, by the names and numbers of docs/FORMAT.md, 5.1, and one of this crate.
///
/// ```
/// use afsungar::Reason;
///
/// assert_eq!(Reason::OutputShort.number(), 8);
/// assert_eq!(Reason::from_number(8), Some(Reason::OutputShort));
/// assert_eq!(Reason::ALL.len(), 15);
/// assert_eq!(Reason::BytesLeft.number(), 0);
/// ```
#[derive(Clone, Copy, Debug, PartialEq, Eq, PartialOrd, Ord, Hash)]
#[repr(u8)]
pub enum Reason {
    /// 0, since to the library it is no refusal: bytes stand behind a value that was to be all there is, as in
    /// [`Table::from_bytes`](crate::Table::from_bytes). The offset is the first of them, so the length of the value.
    BytesLeft = 0,
    /// 1: the words are odd in number; a row is needed and none is left; rows are left at the end.
    RowsAmiss = 1,
    /// 2: the kind is not one of the 25.
    KindUnknown = 2,
    /// 3: a value would be one level beyond the limit of the call: 16, or the one that it names.
    TooDeep = 3,
    /// 4: in writing, an array tells a kind that arrays cannot hold, or an element has another kind than its array tells; in
    /// reading, an array's element code is not allowed.
    ElementUnfit = 4,
    /// 5: the number is not one that its kind allows. For an array's also: it tells no kind, or none of the 25.
    NumberOutside = 5,
    /// 6: the text left is too short for the row; the row's text is bad, a string not UTF-8 or a symbol not ASCII; text is
    /// left at the end.
    ///
    /// Where the text is bad, the place is the faulty byte ([`text_byte`](Refusal::text_byte)), else it is a
    /// [`row`](Refusal::row). Too short comes before bad.
    TextAmiss = 6,
    /// 7: more than 1,048,576 bytes would be written.
    TooLong = 7,
    /// 8: the output is shorter than the size.
    OutputShort = 8,
    /// 9: a byte is needed beyond the input, or beyond the list, map or array that the value stands in.
    ///
    /// Every front part of a value is refused so, but more bytes do not always help: the size of a compound that is
    /// too small for its children gives 9 as well.
    InputShort = 9,
    /// 10: the format code is not one of the 40.
    CodeUnknown = 10,
    /// 11: the payload of a boolean, char, string or symbol is bad.
    ///
    /// The place of a string or symbol is its faulty byte, in arrays too. That of a boolean or char is its format code, and
    /// in an array the code of the outermost one. The byte there does not always tell which it is: 0xe0 and 0xf0 are codes
    /// of arrays, and begin sequences of UTF-8 as well.
    PayloadBad = 11,
    /// 12: a size is below its count field; bytes are left in a body; a map's count is odd.
    SizeAmiss = 12,
    /// 13: the lent rows are too few for the result.
    RowsShort = 13,
    /// 14: the lent text is too short for the result.
    TextShort = 14,
    /// 15: the level limit that the call names is 0 or above 32. It comes before every other reason.
    LimitOutside = 15,
}

impl Reason {
    /// The library's fifteen, by number.
    pub const ALL: [Reason; 15] = [
        Reason::RowsAmiss,
        Reason::KindUnknown,
        Reason::TooDeep,
        Reason::ElementUnfit,
        Reason::NumberOutside,
        Reason::TextAmiss,
        Reason::TooLong,
        Reason::OutputShort,
        Reason::InputShort,
        Reason::CodeUnknown,
        Reason::PayloadBad,
        Reason::SizeAmiss,
        Reason::RowsShort,
        Reason::TextShort,
        Reason::LimitOutside,
    ];

    /// Its number in the library, 1 to 15; 0 for [`BytesLeft`](Reason::BytesLeft), where the library refuses nothing.
    #[must_use]
    pub const fn number(self) -> u8 {
        self as u8
    }

    /// The library's reason of a number.
    #[must_use]
    pub fn from_number(number: u8) -> Option<Reason> {
        Reason::ALL.into_iter().find(|reason| reason.number() == number)
    }

    /// Whether a refusal with this reason has a place.
    const fn has_place(self) -> bool {
        !matches!(
            self,
            Reason::TooLong | Reason::OutputShort | Reason::RowsShort | Reason::TextShort | Reason::LimitOutside
        )
    }
}

impl From<Reason> for u8 {
    fn from(reason: Reason) -> u8 {
        reason.number()
    }
}

impl Refusal {
    /// A refusal of sizing or writing. Where the reason is of no one row, the place is 0.
    #[must_use]
    pub const fn writing(reason: Reason, row: u64) -> Self {
        Refusal { reason, place: row, task: Task::Writing, in_text: false }
    }

    /// A refusal of sizing or writing with [`TextAmiss`](Reason::TextAmiss), because this byte of the text is bad.
    #[must_use]
    pub const fn bad_text(byte: u64) -> Self {
        Refusal { in_text: true, ..Refusal::writing(Reason::TextAmiss, byte) }
    }

    /// A refusal of measuring, reading or walking. Where the reason is of no one offset, the place is 0.
    #[must_use]
    pub const fn reading(reason: Reason, offset: u64) -> Self {
        Refusal { reason, place: offset, task: Task::Reading, in_text: false }
    }

    /// The same of bytes that stand this much further behind.
    pub(crate) const fn behind(self, passed: usize) -> Self {
        match self.task {
            Task::Reading if self.reason.has_place() => Refusal { place: self.place + passed as u64, ..self },
            _ => self,
        }
    }

    /// Why.
    #[must_use]
    pub const fn reason(&self) -> Reason {
        self.reason
    }

    /// The number of the reason, as [`Reason::number`] gives it.
    #[must_use]
    pub const fn number(&self) -> u8 {
        self.reason.number()
    }

    /// A row, a byte of the text or an offset, from 0: [`row`](Refusal::row), [`text_byte`](Refusal::text_byte) and
    /// [`offset`](Refusal::offset) tell which. For reasons that are of no one place (7, 8, 13, 14, 15) it is 0.
    #[must_use]
    pub const fn place(&self) -> u64 {
        self.place
    }

    /// Whether it was in writing or in reading.
    #[must_use]
    pub const fn task(&self) -> Task {
        self.task
    }

    /// What is wrong, in words, without number and place. `Display` has these too.
    #[must_use]
    pub const fn words(&self) -> &'static str {
        match (self.reason, self.task) {
            (Reason::BytesLeft, _) => "bytes are left behind the value",
            (Reason::RowsAmiss, _) => "a row is missing or left over",
            (Reason::KindUnknown, _) => "the kind is not one of the 25",
            (Reason::TooDeep, _) => "a value stands deeper than the level limit of the call",
            (Reason::ElementUnfit, Task::Writing) => {
                "an array tells a kind that it cannot hold, or an element has another one"
            }
            (Reason::ElementUnfit, Task::Reading) => "an array's element code is not allowed",
            (Reason::NumberOutside, _) => "the number is not one that the row's kind allows",
            (Reason::TextAmiss, _) if self.in_text => "a string is not UTF-8 or a symbol not ASCII",
            (Reason::TextAmiss, _) => "text is missing or left over",
            (Reason::TooLong, _) => "more than 1,048,576 bytes would be written",
            (Reason::OutputShort, _) => "the output is too short",
            (Reason::InputShort, _) => "a value goes on beyond its bytes",
            (Reason::CodeUnknown, _) => "the format code is not one of the 40",
            (Reason::PayloadBad, _) => "a boolean, char, string or symbol is not valid",
            (Reason::SizeAmiss, _) => "a size or count does not fit its body",
            (Reason::RowsShort, _) => "the room for rows is too small",
            (Reason::TextShort, _) => "the room for text is too small",
            (Reason::LimitOutside, _) => "the level limit has to be from 1 to 32",
        }
    }

    /// The row where writing ended, from 0. It is the number of rows where a row is missing or text is left at the end.
    ///
    /// It is none where a text is bad: then [`text_byte`](Refusal::text_byte) has the place.
    #[must_use]
    pub fn row(&self) -> Option<u64> {
        (self.task == Task::Writing && !self.in_text && self.reason.has_place()).then_some(self.place)
    }

    /// The byte of the text where writing ended, because a string is not UTF-8 or a symbol not ASCII; from 0, in the text of
    /// the whole table. [`Table::row_of_text_byte`](crate::Table::row_of_text_byte) and
    /// [`row_of_text_byte`](crate::row_of_text_byte()) tell its row.
    ///
    /// It is the first byte at which, after correct sequences from the start of the string, none begins: of a sequence that
    /// is broken or cut off, its first byte. Of a symbol it is the first byte that is not ASCII.
    #[must_use]
    pub fn text_byte(&self) -> Option<u64> {
        self.in_text.then_some(self.place)
    }

    /// The offset of the value where reading ended, from 0: of its format code, or of where that would be. For all that
    /// stands in an array, at any depth, it is the array's own, and where arrays stand in arrays the outermost one's.
    ///
    /// Where a string or symbol is bad ([`PayloadBad`](Reason::PayloadBad)) it is the offset of the faulty byte, in arrays
    /// too. Which byte that is, [`text_byte`](Refusal::text_byte) says.
    #[must_use]
    pub fn offset(&self) -> Option<u64> {
        (self.task == Task::Reading && self.reason.has_place()).then_some(self.place)
    }
}

impl fmt::Display for Refusal {
    fn fmt(&self, f: &mut fmt::Formatter<'_>) -> fmt::Result {
        f.write_str(self.words())?;
        if self.reason != Reason::BytesLeft {
            write!(f, " ({})", self.number())?;
        }
        match (self.row(), self.text_byte(), self.offset()) {
            (Some(row), ..) => write!(f, " at row {row}"),
            (_, Some(byte), _) => write!(f, " at byte {byte} of the text"),
            (.., Some(offset)) => write!(f, " at byte {offset}"),
            _ => Ok(()),
        }
    }
}

impl Error for Refusal {}

/// Of the kind `InvalidInput` in writing and `InvalidData` in reading. A level limit is input in both.
#[cfg(feature = "std")]
impl From<Refusal> for io::Error {
    fn from(refusal: Refusal) -> io::Error {
        let kind = match (refusal.reason, refusal.task) {
            (Reason::LimitOutside, _) | (_, Task::Writing) => io::ErrorKind::InvalidInput,
            (_, Task::Reading) => io::ErrorKind::InvalidData,
        };
        io::Error::new(kind, refusal)
    }
}
