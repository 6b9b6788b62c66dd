//! The level limit: what each lets through, and what it does not change.
mod forms;

use afsungar::{Kind, Reason, Refusal, Table, Value, LEVELS_DEFAULT, LEVELS_LEAST, LEVELS_MOST};
use forms::{forms, within_each, Form, OUTSIDE};

/// Values of one kind, one in the other. In a map and in a described value a null stands before the inner one. The innermost
/// holds nothing; it is a null among described values, which cannot be empty.
#[derive(Clone, Copy, Debug)]
struct Nest(Kind);

const NESTS: [Nest; 4] = [Nest(Kind::List), Nest(Kind::Map), Nest(Kind::Array), Nest(Kind::Described)];

impl Nest {
    /// The rows of one level.
    fn outer(self) -> Vec<u64> {
        match self.0 {
            Kind::Array => vec![0xf0, Kind::Array.array_number(1)],
            Kind::List => vec![0xd0, 1],
            kind => vec![kind.code(), 2, 0x40, 0],
        }
    }

    fn table(self, levels: u64) -> Table {
        let last = match self.0 {
            Kind::Array => [0xf0, Kind::Uint.array_number(0)],
            Kind::Described => [0x40, 0],
            kind => [kind.code(), 0],
        };
        let outer = self.outer().repeat(levels as usize - 1);
        Table::from_parts([outer, last.to_vec()].concat(), vec![])
    }

    /// Bytes with sizes and counts of four bytes throughout. What is the child's code in a list is the element code in an array.
    fn bytes(self, levels: u64) -> Vec<u8> {
        let code = self.0.code() as u8;
        let compound = |count: u8, body: &[u8]| {
            let size = (body.len() as u32 + 4).to_be_bytes();
            [&[code], &size[..], &[0, 0, 0, count], body].concat()
        };
        let last = match self.0 {
            Kind::Array => compound(0, &[0x70]),
            Kind::Described => vec![0x40],
            _ => compound(0, &[]),
        };
        (1..levels).fold(last, |inner, _| match self.0 {
            Kind::Described => [&[0x00, 0x40], &inner[..]].concat(),
            Kind::Map => compound(2, &[&[0x40], &inner[..]].concat()),
            _ => compound(1, &inner),
        })
    }

    /// The first row below this level.
    fn row_below(self, level: u64) -> u64 {
        (level - 1) * self.outer().len() as u64 / 2 + 1
    }

    /// The offset that is told for the first value below this level.
    fn offset_below(self, level: u64) -> u64 {
        match self.0 {
            Kind::Array => 0,
            Kind::Described => 2 * (level - 1) + 1,
            Kind::Map => 10 * (level - 1) + 9,
            _ => 9 * level,
        }
    }
}

#[test]
fn the_three_limits() {
    assert_eq!((LEVELS_LEAST, LEVELS_MOST, LEVELS_DEFAULT), (1, 32, 16));
}

#[test]
fn as_many_levels_as_the_limit() {
    for (nest, levels) in NESTS.into_iter().flat_map(|nest| (1..=34).map(move |levels| (nest, levels))) {
        let (table, bytes) = (nest.table(levels), nest.bytes(levels));
        let due = Some(levels).filter(|&levels| levels <= 32);
        let (written, enough) = within_each(|form| form.bytes_of(&table));
        assert_eq!(enough, due, "{nest:?} {levels}");
        // In the form in which it is written, and in another.
        for bytes in written.into_iter().chain([bytes]) {
            let (again, enough) = within_each(|form| form.table_of(&bytes));
            assert_eq!(enough, due, "{nest:?} {levels}");
            assert!(enough.is_none() || again == Ok((table.clone(), bytes.len())), "{nest:?} {levels}");
        }
    }
}

#[test]
fn the_place_of_one_level_more() {
    for (nest, form) in NESTS.into_iter().flat_map(|nest| (1..=32).flat_map(forms).map(move |form| (nest, form))) {
        let row = Refusal::writing(Reason::TooDeep, nest.row_below(form.limit()));
        assert_eq!(form.bytes_of(&nest.table(form.limit() + 1)), Err(row), "{nest:?} {form:?}");
        let offset = Refusal::reading(Reason::TooDeep, nest.offset_below(form.limit()));
        assert_eq!(form.table_of(&nest.bytes(form.limit() + 1)), Err(offset), "{nest:?} {form:?}");
    }
}

#[test]
fn an_array_at_the_last_level() {
    let within = |limit, bytes: &[u8]| Form::Within(limit).table_of(bytes).map(|(table, _)| table.len());
    let refused = |reason| Err(Refusal::reading(reason, 0));
    // Empty, it is good at level 1. With an element it is too deep, whatever the element is, but for a size that is amiss.
    assert_eq!(within(1, &[0xe0, 0x01, 0x00]), Ok(1));
    assert_eq!(within(1, &[0xe0, 0x02, 0x00, 0x70]), Ok(1));
    assert_eq!(within(1, &[0xe0, 0x02, 0x00, 0x46]), refused(Reason::CodeUnknown));
    let elements: [(&[u8], Reason); 5] = [
        (&[0xe0, 0x01, 0x01], Reason::InputShort),
        (&[0xe0, 0x02, 0x01, 0x46], Reason::CodeUnknown),
        (&[0xe0, 0x02, 0x01, 0x40], Reason::ElementUnfit),
        (&[0xe0, 0x03, 0x01, 0x56, 0x02], Reason::PayloadBad),
        (&[0xe0, 0x04, 0x01, 0x56, 0x01, 0x00], Reason::SizeAmiss),
    ];
    for (bytes, reason) in elements {
        assert_eq!(within(1, bytes), refused(Reason::TooDeep), "{bytes:x?}");
        assert_eq!(within(2, bytes), refused(reason), "{bytes:x?}");
    }
    assert_eq!(within(1, &[0xe0, 0x00, 0x01]), refused(Reason::SizeAmiss));
    assert_eq!(within(1, &[0xe0, 0x03, 0x01, 0x50]), refused(Reason::InputShort));
    assert_eq!(within(2, &[0xe0, 0x03, 0x01, 0x50, 0x07]), Ok(2));
}

#[test]
fn the_order_of_the_writer_at_the_last_level() {
    let within = |limit, words: &[u64]| {
        Form::Within(limit).bytes_of(&Table::from_parts(words.to_vec(), vec![])).map_err(|r| (r.number(), r.place()))
    };
    // Odd words, a missing row and an unknown kind come before the level; all else of the row comes behind it.
    assert_eq!(within(1, &[0xd0, 1, 0x40]), Err((1, 0)));
    assert_eq!(within(1, &[0xd0, 1]), Err((1, 1)));
    assert_eq!(within(1, &[0xd0, 1, 0x41, 0]), Err((2, 1)));
    let array = Kind::Uint.array_number(1);
    for words in
        [[0xf0, array, 0x71, 0], [0xd0, 1, 0xf0, Kind::Null.array_number(0)], [0xd0, 1, 0x40, 1], [0xd0, 1, 0xb1, 1]]
    {
        assert_eq!(within(1, &words), Err((3, 1)), "{words:x?}");
        assert!(matches!(within(2, &words), Err((4..=6, 1))), "{words:x?}");
    }
    // A fault of an earlier row comes first, and that of a later one does not.
    assert_eq!(within(1, &[0xf0, 1, 0x40, 0]), Err((5, 0)));
    assert_eq!(within(1, &[0xd0, 1, 0x40, 0, 0x40, 0]), Err((3, 1)));
}

#[test]
fn steps_of_the_walker() {
    // Null, a list of a null, null.
    let bytes = [0x40, 0xc0, 0x02, 0x01, 0x40, 0x40];
    let mut walker = Form::Within(2).walker(&bytes, 0);
    let lengths: Vec<usize> = std::iter::from_fn(|| walker.step()).map(|step| step.unwrap().len()).collect();
    assert_eq!(lengths, [1, 4, 1]);
    // With 1 it stays before the list, and the place is counted from there.
    let mut walker = Form::Within(1).walker(&bytes, 0);
    assert_eq!(walker.step(), Some(Ok(&bytes[..1])));
    for _ in 0..3 {
        assert_eq!(walker.step(), Some(Err(Refusal::reading(Reason::TooDeep, 3))));
        assert_eq!((walker.offset(), walker.rest()), (1, &bytes[1..]));
    }
    // A limit that may not be named: in every step, wherever the walker stands, and where there are no bytes.
    let due = Refusal::reading(Reason::LimitOutside, 0);
    for (limit, bytes) in OUTSIDE.into_iter().flat_map(|limit| [(limit, &bytes[..]), (limit, &[][..])]) {
        for at in [0, 1, bytes.len(), usize::MAX] {
            let mut walker = Form::Within(limit).walker(bytes, at);
            for _ in 0..3 {
                assert_eq!(walker.step(), Some(Err(due)), "{limit} {at}");
                assert_eq!(walker.offset(), at.min(bytes.len()), "{limit} {at}");
            }
        }
        let mut values = Form::Within(limit).values(bytes);
        assert!(values.size_hint().0 <= 1 && values.size_hint().1 >= Some(1), "{limit}");
        let refused = values.next().unwrap().unwrap_err();
        assert_eq!((refused.refusal(), refused.index(), refused.start()), (due, 0, 0), "{limit}");
        assert_eq!((values.next(), values.size_hint()), (None, (0, Some(0))), "{limit}");
    }
}

#[test]
fn what_a_user_is_told() {
    let deep = Table::from_iter([Value::List(1), Value::Null]);
    let too_deep = deep.to_bytes_within(1).unwrap_err();
    assert_eq!(too_deep.to_string(), "a value stands deeper than the level limit of the call (3) at row 1");
    // A limit is the caller's own, so it is no fault of the bytes that are read.
    for refusal in [deep.to_bytes_within(33).unwrap_err(), Table::from_bytes_within(0, &[0x40]).unwrap_err()] {
        assert_eq!(refusal.to_string(), "the level limit has to be from 1 to 32 (15)");
        assert_eq!((refusal.row(), refusal.offset(), refusal.place()), (None, None, 0));
        assert_eq!(std::io::Error::from(refusal).kind(), std::io::ErrorKind::InvalidInput);
    }
}
