//! Tables: put together, looked into, printed; and the walker.
use std::fs;
use std::path::Path;

use afsungar::{
    read, values, Builder, Element, Extent, Kind, Mismatch, Reason, Refusal, Row, Table, Timestamp, Uuid, Value, Walker,
};

fn all_kinds() -> Table {
    Table::build(|t| {
        t.list(|t| {
            t.null().boolean(true).boolean(false);
            t.ubyte(u8::MAX).ushort(u16::MAX).uint(u32::MAX).ulong(u64::MAX);
            t.byte(-1).short(i16::MIN).int(-2).long(i64::MIN);
            t.float(-1.5).double(f64::MIN_POSITIVE);
            t.decimal32(0xf000_0001).decimal64(u64::MAX - 1).decimal128([9; 16]);
            t.char('Ø').timestamp(-1).uuid(*b"0123456789abcdef");
            t.binary([0xff, 0x00]).string("Ø1.2").symbol("ear-shell");
            t.list(|_| {}).map(|_| {}).empty_array(Kind::Timestamp);
            t.map(|t| {
                t.symbol("left").list(|t| {
                    t.null().null();
                });
                t.null().described(|t| {
                    t.symbol("d").array_of(["Ø1.2", "", "M4"]);
                });
            });
        });
    })
}

fn all_values() -> Vec<Value<'static>> {
    use Value::*;
    vec![
        List(26),
        Null,
        Boolean(true),
        Boolean(false),
        Ubyte(255),
        Ushort(65_535),
        Uint(u32::MAX),
        Ulong(u64::MAX),
        Byte(-1),
        Short(i16::MIN),
        Int(-2),
        Long(i64::MIN),
        Float(-1.5),
        Double(f64::MIN_POSITIVE),
        Decimal32(0xf000_0001),
        Decimal64(u64::MAX - 1),
        Decimal128([9; 16]),
        Char('Ø'),
        Value::Timestamp(afsungar::Timestamp(-1)),
        Value::Uuid(afsungar::Uuid::from_bytes(*b"0123456789abcdef")),
        Binary(&[0xff, 0x00]),
        String("Ø1.2"),
        Symbol("ear-shell"),
        List(0),
        Map(0),
        Array { count: 0, element: Some(Kind::Timestamp) },
        Map(4),
        Symbol("left"),
        List(2),
        Null,
        Null,
        Null,
        Described,
        Symbol("d"),
        Array { count: 3, element: Some(Kind::String) },
        String("Ø1.2"),
        String(""),
        String("M4"),
    ]
}

#[test]
fn all_kinds_there_and_back() {
    let table = all_kinds();
    assert_eq!(table.values(), Ok(all_values()));
    let bytes = table.to_bytes().unwrap();
    assert_eq!(table.size(), Ok(bytes.len()));
    let again = Table::try_from(&bytes[..]).unwrap();
    assert_eq!(again, table);
    assert_eq!(again.values(), Ok(all_values()));
    assert_eq!(Vec::try_from(&again), Ok(bytes));

    let mut kinds: Vec<Kind> = all_values().iter().map(Value::kind).collect();
    kinds.sort();
    kinds.dedup();
    assert_eq!(kinds, Kind::ALL);
}

#[test]
fn rows_from_values() {
    assert_eq!(all_values().into_iter().collect::<Table>(), all_kinds());
    // Pushed within a closure they count as one value, with what is below them.
    let outer = Table::build(|t| {
        t.list(|t| {
            t.extend(all_values());
            t.table(&all_kinds()).uint(1);
        });
    });
    assert_eq!(outer.root().map(|root| root.count()), Some(3));
    let root = outer.root().unwrap();
    let counts: Vec<usize> = root.children().map(|child| child.count()).collect();
    assert_eq!(counts, [26, 26, 0]);
    assert_eq!(Table::from_bytes(&outer.to_bytes().unwrap()), Ok(outer));
}

#[test]
fn children() {
    fn count(row: Row<'_>) -> usize {
        1 + row.children().map(count).sum::<usize>()
    }
    let table = all_kinds();
    assert_eq!(table.root().map(count), Some(table.len()));
    let root = table.root().unwrap();
    assert_eq!(root.children().count(), 26);
    let map = root.children().last().unwrap();
    let within: Vec<_> = map.children().map(|row| row.value().unwrap()).collect();
    assert_eq!(within, [Value::Symbol("left"), Value::List(2), Value::Null, Value::Described]);
    assert_eq!(map.children().last().unwrap().children().last().unwrap().count(), 3);
}

/// An array of lists, one of maps and one of arrays, put together item by item.
fn item_by_item() -> Table {
    Table::build(|t| {
        t.list(|t| {
            t.array(Kind::List, |t| {
                for (size, across) in [("Ø1.2", 35), ("M4", -12)] {
                    t.list(|t| {
                        t.string(size).int(across);
                    });
                }
            });
            t.array(Kind::Map, |t| {
                t.map(|t| {
                    t.symbol("left").uint(2).symbol("right").uint(1);
                });
                t.map(|_| {});
            });
            t.array(Kind::Array, |t| {
                t.array_of([1u8, 2]).empty_array(Kind::Ubyte).array_of([3u8]);
            });
        });
    })
}

/// What the children of each child hold.
fn held(row: Row<'_>) -> Vec<Vec<Value<'_>>> {
    row.children().map(|child| child.child_values().unwrap()).collect()
}

#[test]
fn arrays_of_lists_maps_and_arrays() {
    let table = Table::build(|t| {
        t.list(|t| {
            t.array_of_lists([("Ø1.2", 35), ("M4", -12)].map(|(size, across)| [Value::from(size), across.into()]));
            t.array_of_maps([vec![(Value::Symbol("left"), 2u32), (Value::Symbol("right"), 1)], vec![]]);
            t.array_of_arrays([vec![1u8, 2], vec![], vec![3]]);
        });
    });
    assert_eq!(table, item_by_item());
    let bytes = table.to_bytes().unwrap();
    let again = Table::from_bytes(&bytes).unwrap();
    assert_eq!(again, table);
    assert_eq!(again.to_bytes(), Ok(bytes));

    let counts = |row: Row<'_>| row.children().map(|child| child.count()).collect::<Vec<_>>();
    let arrays: Vec<Row<'_>> = again.root().unwrap().children().collect();
    let [lists, maps, arrays] = arrays[..] else { panic!("{arrays:?}") };
    assert_eq!((counts(lists), counts(maps), counts(arrays)), (vec![2, 2], vec![4, 0], vec![2, 0, 1]));
    assert_eq!(
        held(lists),
        [[Value::String("Ø1.2"), Value::Int(35)], [Value::String("M4"), Value::Int(-12)]].map(Vec::from)
    );
    assert_eq!(
        held(maps),
        [vec![Value::Symbol("left"), Value::Uint(2), Value::Symbol("right"), Value::Uint(1)], vec![]]
    );
    assert_eq!(held(arrays), [vec![Value::Ubyte(1), Value::Ubyte(2)], vec![], vec![Value::Ubyte(3)]]);
}

#[test]
fn tables_as_elements() {
    // A table that is a list counts as one element, as does a list that says how many values come next.
    let part = all_kinds();
    let array = Table::build(|t| {
        t.array(Kind::List, |t| {
            t.table(&part).list(|_| {}).table(&part);
            t.push(Value::List(1)).array_of_lists([[part.len() as u64]]);
        });
    });
    assert_eq!(array.root().map(|root| root.count()), Some(4));
    assert_eq!(Table::from_bytes(&array.to_bytes().unwrap()), Ok(array));
}

/// Why no array can tell this kind: null is none of its kinds, and described has the number of what is not told.
fn untellable(kind: Kind) -> Option<Reason> {
    match kind {
        Kind::Null => Some(Reason::ElementUnfit),
        Kind::Described => Some(Reason::NumberOutside),
        _ => None,
    }
}

#[test]
fn elements() {
    for kind in Kind::ALL {
        let text = vec![0; if matches!(kind, Kind::Decimal128 | Kind::Uuid) { 16 } else { 0 }];
        // As an array within it tells a kind.
        let number = if kind == Kind::Array { Kind::Long.array_number(0) } else { 0 };
        let array = Table::build(|t| {
            t.array(kind, |t| {
                t.row(kind.code(), number, &text);
            });
        });
        assert_eq!(untellable(kind).is_none(), kind.is_element());
        let due = untellable(kind).map(|reason| Refusal::writing(reason, 0));
        assert_eq!(array.size().err(), due, "{kind}");
        if due.is_none() {
            assert_eq!(Table::from_bytes(&array.to_bytes().unwrap()), Ok(array));
        }
    }
}

#[test]
fn empty_arrays_of_each_kind() {
    for kind in Kind::ALL {
        let code = kind.code() as u8;
        let array = Table::build(|t| {
            t.empty_array(kind);
        });
        let arrays = Table::build(|t| {
            t.array(Kind::Array, |t| {
                t.array(kind, |_| {}).table(&array);
            });
        });
        assert_eq!(array.words(), [0xf0, 4_294_967_296 * u64::from(code)]);
        if let Some(reason) = untellable(kind) {
            assert_eq!(array.to_bytes(), Err(Refusal::writing(reason, 0)));
            assert_eq!(arrays.to_bytes(), Err(Refusal::writing(reason, 1)));
            continue;
        }
        let bytes = array.to_bytes().unwrap();
        assert_eq!(bytes, [0xe0, 0x02, 0x00, code]);
        let again = Table::from_bytes(&bytes).unwrap();
        assert_eq!(again.values(), Ok(vec![Value::Array { count: 0, element: Some(kind) }]));
        assert_eq!(again, array);

        let inner = [0, 0, 0, 5, 0, 0, 0, 0, code];
        let bytes = arrays.to_bytes().unwrap();
        assert_eq!(bytes, [&[0xe0, 0x14, 0x02, 0xf0], &inner[..], &inner[..]].concat());
        let again = Table::from_bytes(&bytes).unwrap();
        assert!(again.rows().map(|row| row.element_kind()).eq([Some(Kind::Array), Some(kind), Some(kind)]));
        assert_eq!(again, arrays);
    }
}

/// The 33 element codes, each with the kind that it tells.
fn element_codes() -> impl Iterator<Item = (u8, Kind)> {
    let short = [
        (0x52, Kind::Uint),
        (0x53, Kind::Ulong),
        (0x54, Kind::Int),
        (0x55, Kind::Long),
        (0xa0, Kind::Binary),
        (0xa1, Kind::String),
        (0xa3, Kind::Symbol),
        (0xc0, Kind::List),
        (0xc1, Kind::Map),
        (0xe0, Kind::Array),
    ];
    let own = Kind::ALL.into_iter().filter(|kind| kind.is_element()).map(|kind| (kind.code() as u8, kind));
    short.into_iter().chain(own)
}

#[test]
fn each_element_code_tells_its_kind() {
    assert_eq!(element_codes().count(), 33);
    for (code, kind) in element_codes() {
        let empty: [&[u8]; 2] = [&[0xe0, 0x02, 0x00, code], &[0xf0, 0, 0, 0, 5, 0, 0, 0, 0, code]];
        for bytes in empty {
            let array = Table::from_bytes(bytes).unwrap();
            assert_eq!(array.words(), [0xf0, kind.array_number(0)], "{code:x}");
            assert_eq!(array.to_bytes(), Ok(vec![0xe0, 0x02, 0x00, kind.code() as u8]), "{code:x}");
        }
        // With one element: as much of zero bytes as its code asks for, and for a compound a size that counts its count.
        let payload: &[u8] = match code {
            0xc0 | 0xc1 | 0xe0 => &[1, 0],
            0xd0 | 0xd1 | 0xf0 => &[0, 0, 0, 4, 0, 0, 0, 0],
            _ => &[0; 16][..[1, 2, 4, 8, 16, 1, 4][usize::from((code >> 4) - 5)]],
        };
        let bytes = [&[0xe0, payload.len() as u8 + 2, 0x01, code], payload].concat();
        let array = Table::from_bytes(&bytes).unwrap();
        assert_eq!(array.root().map(|root| (root.count(), root.element_kind())), Some((1, Some(kind))), "{code:x}");
        assert_eq!(array.words()[..3], [0xf0, kind.array_number(1), kind.code()], "{code:x}");
        // An array within it does not tell its kind, and is at row 1.
        match array.to_bytes() {
            Ok(bytes) => assert_eq!(Table::from_bytes(&bytes), Ok(array), "{code:x}"),
            Err(refusal) => {
                assert_eq!((refusal, kind), (Refusal::writing(Reason::NumberOutside, 1), Kind::Array), "{code:x}");
            }
        }
    }
}

#[test]
fn arrays_that_do_not_tell_their_kind() {
    // Alone in both forms, in a list between other values, and in an array beside one that tells it.
    let bytes: [(&[u8], usize); 4] = [
        (&[0xe0, 0x01, 0x00], 0),
        (&[0xf0, 0, 0, 0, 4, 0, 0, 0, 0], 0),
        (&[0xc0, 0x06, 0x03, 0x40, 0xe0, 0x01, 0x00, 0x40], 2),
        (&[0xe0, 0x07, 0x02, 0xe0, 0x02, 0x00, 0x70, 0x01, 0x00], 2),
    ];
    for (bytes, at) in bytes {
        let table = Table::from_bytes(bytes).unwrap();
        let not_told = Value::Array { count: 0, element: None };
        let mut values = table.values().unwrap();
        assert_eq!((not_told.number(), values[at]), (0, not_told));
        assert_eq!(table.rows().nth(at).and_then(|row| row.element_kind()), None);
        assert_eq!(values.iter().copied().collect::<Table>(), table);
        let refusal = Refusal::writing(Reason::NumberOutside, at as u64);
        assert_eq!((table.size(), table.to_bytes()), (Err(refusal), Err(refusal)));

        // With the kind put in it is written.
        values[at] = Value::Array { count: 0, element: Some(Kind::Decimal32) };
        let told: Table = values.into_iter().collect();
        assert_eq!(Table::from_bytes(&told.to_bytes().unwrap()), Ok(told));
    }
}

#[test]
fn the_type_tells_the_kind() {
    fn told<E: Element>(kind: Kind) {
        let none = Table::build(|t| {
            t.array_of::<E>([]);
        });
        assert_eq!((E::KIND, none), (kind, Table::from(Value::Array { count: 0, element: Some(kind) })));
        let arrays = Table::build(|t| {
            t.array_of_arrays::<E>([[], []]).array_of_arrays::<E>([[]; 0]);
        });
        let [array, of, none] = [Kind::Array.array_number(2), kind.array_number(0), Kind::Array.array_number(0)];
        assert_eq!(arrays.words(), [0xf0, array, 0xf0, of, 0xf0, of, 0xf0, none]);
    }
    told::<bool>(Kind::Boolean);
    told::<u8>(Kind::Ubyte);
    told::<u16>(Kind::Ushort);
    told::<u32>(Kind::Uint);
    told::<u64>(Kind::Ulong);
    told::<i8>(Kind::Byte);
    told::<i16>(Kind::Short);
    told::<i32>(Kind::Int);
    told::<i64>(Kind::Long);
    told::<f32>(Kind::Float);
    told::<f64>(Kind::Double);
    told::<char>(Kind::Char);
    told::<&str>(Kind::String);
    told::<&String>(Kind::String);
    told::<&[u8]>(Kind::Binary);
    told::<&Vec<u8>>(Kind::Binary);
    told::<String>(Kind::String);
    told::<std::borrow::Cow<'_, str>>(Kind::String);
    told::<Vec<u8>>(Kind::Binary);
    told::<Timestamp>(Kind::Timestamp);
    told::<Uuid>(Kind::Uuid);

    // The values of a type have the kind that it tells.
    let (string, bytes) = (String::from("M4"), vec![7]);
    let arrays = Table::build(|t| {
        t.list(|t| {
            t.array_of([true]).array_of([1u8]).array_of([1u16]).array_of([1u32]).array_of([1u64]);
            t.array_of([1i8]).array_of([1i16]).array_of([1i32]).array_of([1i64]).array_of([1f32]).array_of([1f64]);
            t.array_of(['Ø']).array_of(["M4"]).array_of([&string]);
            t.array_of([&bytes[..]]).array_of([&bytes]).array_of([bytes.clone()]).array_of([string.clone()]);
            t.array_of([Timestamp(-1)]).array_of([Uuid::default()]);
        });
    });
    assert_eq!(arrays.root().map(|list| list.count()), Some(20));
    assert_eq!(Table::from_bytes(&arrays.to_bytes().unwrap()), Ok(arrays));
}

#[test]
fn arrays_of_no_lists_maps_and_arrays() {
    let table = Table::build(|t| {
        t.list(|t| {
            t.array_of_lists::<u32>([[]; 0]).array_of_maps::<u32, &str>([[]; 0]).array_of_arrays::<u32>([[]; 0]);
        });
    });
    let none = |element| Value::Array { count: 0, element: Some(element) };
    let arrays = [Kind::List, Kind::Map, Kind::Array].map(none);
    assert_eq!(table.root().unwrap().child_values(), Ok(arrays.to_vec()));
    let bytes = table.to_bytes().unwrap();
    assert_eq!(bytes[3..], [0xe0, 0x02, 0x00, 0xd0, 0xe0, 0x02, 0x00, 0xd1, 0xe0, 0x02, 0x00, 0xf0]);
    assert_eq!(Table::from_bytes(&bytes), Ok(table));
}

#[test]
fn a_count_does_not_change_the_kind() {
    // What is too much for the row stays too much, and is refused.
    for count in [1_048_577, u32::MAX as usize, 1 << 32, usize::MAX] {
        let array = Value::Array { count, element: Some(Kind::Uint) };
        let number = Kind::Uint.array_number(count.min(u32::MAX as usize) as u32);
        assert_eq!((array.number(), array.count()), (number, count));
        let table = Table::from(array);
        assert_eq!(table.to_bytes(), Err(Refusal::writing(Reason::NumberOutside, 0)));
        assert_eq!(table.root().and_then(|root| root.element_kind()), Some(Kind::Uint));
    }
    assert_eq!(Value::Array { count: 1_048_576, element: Some(Kind::Uint) }.number(), 0x70_0010_0000);
}

#[test]
fn negative_numbers_have_their_own_width() {
    let number = |value: Value<'_>| Table::from(value).words()[1];
    assert_eq!(number(Value::Byte(-1)), 0xff);
    assert_eq!(number(Value::Short(-1)), 0xffff);
    assert_eq!(number(Value::Int(-1)), 0xffff_ffff);
    assert_eq!(number(Value::Long(-1)), u64::MAX);
    assert_eq!(number(Value::Timestamp(Timestamp(-1))), u64::MAX);
    for n in [i64::MIN, -129, -128, -1, 0, 127, 128, i64::MAX] {
        for value in [
            Value::Long(n),
            Value::Timestamp(Timestamp(n)),
            Value::Int(n as i32),
            Value::Short(n as i16),
            Value::Byte(n as i8),
        ] {
            let bytes = Table::from(value).to_bytes().unwrap();
            assert_eq!(Table::from_bytes(&bytes).unwrap().values(), Ok(vec![value]));
        }
    }
}

#[test]
fn floats_keep_their_bits() {
    for bits in [0, 0x8000_0000, 0x7f80_0000, 0xff80_0000, 0x7fc0_0001, 0x7fa0_0000, 1, 0x3fc0_0000] {
        let bytes = Table::build(|t| {
            t.float(f32::from_bits(bits));
        })
        .to_bytes()
        .unwrap();
        let [Value::Float(x)] = Table::from_bytes(&bytes).unwrap().values().unwrap()[..] else { panic!() };
        assert_eq!((bytes[0], x.to_bits()), (0x72, bits));
    }
    for bits in [0, 1 << 63, 0x7ff0 << 48, 0xfff8 << 48, 0x7ff4 << 48, 1, 1.5f64.to_bits()] {
        let bytes = Table::build(|t| {
            t.double(f64::from_bits(bits));
        })
        .to_bytes()
        .unwrap();
        let [Value::Double(x)] = Table::from_bytes(&bytes).unwrap().values().unwrap()[..] else { panic!() };
        assert_eq!((bytes[0], x.to_bits()), (0x82, bits));
    }
}

#[test]
fn conversions() {
    let table = Table::build(|t| {
        t.list(|t| {
            t.push(true).push(1u8).push(2u16).push(3u32).push(4u64).push(-1i8).push(-2i16).push(-3i32).push(-4i64);
            t.push(0.5f32).push(0.25f64).push('x').push("text").push(String::from("owned")).push(&b"bytes"[..]);
            t.push(&[1u8, 2][..]).push(vec![3u8]).push(()).push(None::<u32>).push(Some("some"));
        });
    });
    let table = Table::from_bytes(&table.to_bytes().unwrap()).unwrap();
    let values = table.values().unwrap();
    let [_, a, b, c, d, e, f, g, h, i, j, k, l, m, n, o, p, q, Value::Null, Value::Null, r] = values[..] else {
        panic!("{values:?}")
    };
    assert_eq!(bool::try_from(a), Ok(true));
    assert_eq!((u8::try_from(b), u16::try_from(c)), (Ok(1), Ok(2)));
    assert_eq!((u32::try_from(d), u64::try_from(e)), (Ok(3), Ok(4)));
    assert_eq!((i8::try_from(f), i16::try_from(g)), (Ok(-1), Ok(-2)));
    assert_eq!((i32::try_from(h), i64::try_from(i)), (Ok(-3), Ok(-4)));
    assert_eq!((f32::try_from(j), f64::try_from(k), char::try_from(l)), (Ok(0.5), Ok(0.25), Ok('x')));
    assert_eq!((<&str>::try_from(m), <&str>::try_from(n)), (Ok("text"), Ok("owned")));
    assert_eq!(<&[u8]>::try_from(o), Ok(&b"bytes"[..]));
    assert_eq!((p, q, r), (Value::Binary(&[1, 2]), Value::Binary(&[3]), Value::String("some")));
    assert_eq!(<&str>::try_from(Value::Symbol("s")), Ok("s"));
    assert_eq!(String::try_from(m), Ok("text".to_owned()));
    assert_eq!(Vec::try_from(o), Ok(b"bytes".to_vec()));
    let uuid = Uuid::from_bytes([7; 16]);
    assert_eq!(Uuid::try_from(Value::from(uuid)), Ok(uuid));
    assert_eq!(<[u8; 16]>::try_from(Value::Decimal128([7; 16])), Ok([7; 16]));
    // 16 bytes are none of the others.
    for (value, found) in [(Value::Binary(&[7; 16]), Kind::Binary), (Value::Uuid(uuid), Kind::Uuid)] {
        assert_eq!(<[u8; 16]>::try_from(value), Err(Mismatch { wanted: Kind::Decimal128, found }));
    }
    assert_eq!(<&[u8]>::try_from(Value::Null), Err(Mismatch { wanted: Kind::Binary, found: Kind::Null }));
    assert_eq!(<&str>::try_from(Value::Null), Err(Mismatch { wanted: Kind::String, found: Kind::Null }));
}

#[test]
fn the_writer_says_which_row() {
    let refused = |build: fn(&Builder), reason, row| {
        assert_eq!(Table::build(build).to_bytes(), Err(Refusal::writing(reason, row)));
    };
    refused(|_| {}, Reason::RowsAmiss, 0);
    refused(
        |t| {
            t.null().null();
        },
        Reason::RowsAmiss,
        1,
    );
    refused(
        |t| {
            t.list(|t| {
                t.null().row(Kind::String.code(), 3, "M4");
            });
        },
        Reason::TextAmiss,
        2,
    );
    refused(
        |t| {
            t.map(|t| {
                t.null();
            });
        },
        Reason::NumberOutside,
        0,
    );
    refused(
        |t| {
            t.described(|t| {
                t.null();
            });
        },
        Reason::NumberOutside,
        0,
    );
    refused(
        |t| {
            t.array(Kind::Uint, |t| {
                t.uint(1).int(1);
            });
        },
        Reason::ElementUnfit,
        2,
    );
    refused(
        |t| {
            t.array(Kind::Int, |t| {
                t.uint(1);
            });
        },
        Reason::ElementUnfit,
        1,
    );
    refused(
        |t| {
            t.array(Kind::Null, |t| {
                t.null();
            });
        },
        Reason::ElementUnfit,
        0,
    );
    refused(
        |t| {
            t.array(Kind::Described, |t| {
                t.described(|t| {
                    t.null().null();
                });
            });
        },
        Reason::NumberOutside,
        0,
    );
    refused(
        |t| {
            t.push(Value::List(2)).null();
        },
        Reason::RowsAmiss,
        2,
    );
    refused(
        |t| {
            t.row(0x41, 0, []);
        },
        Reason::KindUnknown,
        0,
    );
    // A builder that is finished before its time is no fault of this crate's, and no panic.
    refused(
        |t| {
            t.list(|t| t.null().finish());
        },
        Reason::RowsAmiss,
        0,
    );
}

#[test]
fn the_writer_says_which_byte_of_the_text() {
    let table = Table::build(|t| {
        t.list(|t| {
            t.uuid([0xff; 16]).binary([0xff]).string("Ø1.2").array_of(["M4", ""]).null();
            t.symbol("").symbol("ear-größe").symbol("Ø");
        });
    });
    let byte = 16 + 1 + 5 + 2 + 6;
    let refusal = table.to_bytes().unwrap_err();
    assert_eq!(refusal, Refusal::bad_text(byte));
    assert_eq!((table.size(), table.write_to(&mut [])), (Err(refusal), Err(refusal)));
    assert_eq!((refusal.row(), refusal.offset(), refusal.text_byte()), (None, None, Some(byte)));
    assert_eq!(table.values(), Err(refusal));

    let row = table.row_of_text_byte(byte).unwrap();
    assert_eq!((row.index, row.text, row.text_start), (9, "ear-größe".as_bytes(), 24));
    assert_eq!(row.value(), Err(refusal));
    assert_eq!(table.text()[byte as usize..][..2], *"ö".as_bytes());
    assert_eq!(row.index, afsungar::row_of_text_byte(table.words(), table.text(), byte).unwrap().index);
    // The children of a row say the same.
    assert_eq!(table.root().unwrap().child_values(), Err(refusal));
    let last = table.root().unwrap().children().last().unwrap();
    assert_eq!((last.text_start, last.value()), (35, Err(Refusal::bad_text(35))));
}

/// Every byte, by hand: which row has it.
fn rows_of_bytes(table: &Table) -> Vec<Option<usize>> {
    let bytes = 0..table.text().len() as u64 + 2;
    bytes.map(|byte| table.row_of_text_byte(byte).map(|row| row.index)).collect()
}

#[test]
fn the_row_of_a_byte() {
    let table = Table::build(|t| {
        t.list(|t| {
            t.string("").string("Ø").string("").symbol("").symbol("v").uint(7).binary([0xff, 0xff]).string("");
        });
    });
    assert_eq!(rows_of_bytes(&table), [Some(2), Some(2), Some(5), Some(7), Some(7), None, None]);
    assert_eq!(table.row_of_text_byte(u64::MAX).map(|row| row.index), None);

    let sixteen = Table::build(|t| {
        t.list(|t| {
            t.uuid([7; 16]).decimal128([7; 16]).string("x");
        });
    });
    let due: Vec<_> = [vec![Some(1); 16], vec![Some(2); 16], vec![Some(3), None, None]].concat();
    assert_eq!(rows_of_bytes(&sixteen), due);
    for row in sixteen.rows() {
        assert_eq!(sixteen.text()[row.text_start..][..row.text.len()], *row.text);
    }

    // No text, no rows, or neither; numbers of rows that have no text; a lone word; an unknown kind.
    assert_eq!(rows_of_bytes(&Table::from(Value::Ulong(u64::MAX))), [None, None]);
    assert_eq!(rows_of_bytes(&Table::default()), [None, None]);
    assert_eq!(rows_of_bytes(&Table::from_parts(vec![], vec![1])), [None, None, None]);
    assert_eq!(
        rows_of_bytes(&Table::from_parts(vec![0xff, 9, 0xb0, 1, 0xb0], vec![1, 2])),
        [Some(1), None, None, None]
    );
    // Too little text: the row has what is there, and the rows behind it have none.
    let short = Table::from_parts(vec![0xb1, u64::MAX, 0xb1, u64::MAX, 0x98, 0], vec![1, 2]);
    assert_eq!(rows_of_bytes(&short), [Some(0), Some(0), None, None]);
}

#[test]
fn bad_tables_can_be_looked_at() {
    let words = vec![0xd0, u64::MAX, 0xff, 0, 0x56, 2, 0xd0, u64::MAX, 0xb1, 9, 0x98, 0, 0x40];
    let table = Table::from_parts(words.clone(), vec![0xc3, b'a']);
    assert_eq!((table.words(), table.text(), table.len()), (&words[..], &[0xc3, b'a'][..], 6));
    let rows: Vec<_> = table.rows().map(|row| row.value()).collect();
    let bad = |reason, row| Err(Refusal::writing(reason, row));
    assert_eq!(
        rows,
        [
            Ok(Value::List(usize::MAX)),
            bad(Reason::KindUnknown, 1),
            bad(Reason::NumberOutside, 2),
            Ok(Value::List(usize::MAX)),
            bad(Reason::TextAmiss, 4),
            bad(Reason::TextAmiss, 5),
        ]
    );
    assert_eq!(table.values(), Err(Refusal::writing(Reason::KindUnknown, 1)));
    assert_eq!(table.root().unwrap().children().count(), 3);
    assert_eq!(table.to_string().lines().nth(1), Some("1 ff 0"));
    assert!(format!("{table:?}").ends_with("lone word 64]"), "{table:?}");
    assert!(format!("{:?}", Table::from_parts(vec![], vec![1])).contains("text left [1]"));
    assert_eq!(table.clone().into_parts(), (words, vec![0xc3, b'a']));
}

#[test]
fn bad_arrays_can_be_looked_at() {
    // What the row tells is refused as the writer does it; its children are there all the same.
    let rows = [
        (Kind::Null.array_number(2), Reason::ElementUnfit, 0),
        (2, Reason::NumberOutside, 0),
        (Kind::Described.array_number(2), Reason::NumberOutside, 0),
        (0x52 << 32 | 2, Reason::NumberOutside, 0),
        (0x170 << 32 | 2, Reason::NumberOutside, 0),
    ];
    for (number, reason, row) in rows {
        let table = Table::from_parts(vec![0xf0, number, 0x40, 0, 0x40, 0], vec![]);
        let root = table.root().unwrap();
        assert_eq!(root.value(), Err(Refusal::writing(reason, row)), "{number:x}");
        assert_eq!(table.to_bytes(), Err(Refusal::writing(reason, row)), "{number:x}");
        assert_eq!((root.count(), root.children().count(), root.element_kind()), (2, 2, None), "{number:x}");
        assert_eq!(format!("{root:?}"), format!("bad row f0:{number} []"));
    }
    // An element of another kind than told is no fault of its own row, nor is a count above the writer's limit.
    let table = Table::from_parts(vec![0xf0, Kind::Uint.array_number(u32::MAX), 0x40, 0], vec![]);
    let array = Value::Array { count: u32::MAX as usize, element: Some(Kind::Uint) };
    assert_eq!(table.values(), Ok(vec![array, Value::Null]));
    assert_eq!(format!("{table:?}"), "Table [Array { count: 4294967295, element: Some(Uint) }, Null]");
    assert_eq!(table.root().unwrap().children().count(), 1);
    // No other row has a kind of elements, whatever its number.
    let list = Table::from_parts(vec![0xd0, Kind::Uint.array_number(1), 0x80, Kind::Uint.array_number(1)], vec![]);
    assert!(list.rows().all(|row| row.element_kind().is_none()));
}

#[test]
fn rows_as_they_stand() {
    // An array that `row` puts in counts as one value, with as many as it says of those that come next.
    let table = Table::build(|t| {
        t.list(|t| {
            t.row(0xf0, Kind::Ubyte.array_number(2), []).ubyte(1).ubyte(2);
            t.push(Value::Array { count: 1, element: Some(Kind::Array) }).empty_array(Kind::Map);
            t.row(0xf0, 1, []).null().null();
        });
    });
    assert_eq!(table.root().map(|root| root.count()), Some(4));
    let counts: Vec<usize> = table.root().unwrap().children().map(|child| child.count()).collect();
    assert_eq!(counts, [2, 1, 1, 0]);
}

#[test]
fn printed() {
    let table = Table::build(|t| {
        t.map(|t| {
            t.symbol("v").uint(2);
        });
    });
    assert_eq!(table.to_string(), "0 d1 2\n1 b3 1\n2 70 2\n");
    assert_eq!(format!("{table:?}"), "Table [Map(2), Symbol(\"v\"), Uint(2)]");
    assert_eq!(table.rows().map(|row| row.to_string()).collect::<Vec<_>>(), ["0 d1 2", "1 b3 1", "2 70 2"]);
    assert!(table.rows().all(|row| row.text == if row.index == 1 { &b"v"[..] } else { b"" }));
    assert_eq!(
        (table.rows().len(), Table::default().is_empty(), Table::default().to_string()),
        (3, true, String::new())
    );
}

/// examples/order.amqp has the bytes of this order and examples/order.txt its listing. Outside the repository there is neither.
#[test]
fn the_order() {
    let order = Table::build(|t| {
        t.described(|t| {
            t.symbol("afsungar:order:list").list(|t| {
                t.ulong(4711).timestamp(1_763_164_800_000).symbol("ear-shell").string("Ø1.2");
                t.array_of(["Ø1.2", "Ø1.3", "M4"]);
                t.map_of([(Value::Symbol("left"), 2u32), (Value::Symbol("right"), 1)]);
                t.map(|t| {
                    let vent = |size, across, up| [Value::String(size), Value::Int(across), Value::Int(up)];
                    t.symbol("left").array_of_lists([vent("Ø1.2", 35, -12), vent("Ø1.3", 48, 7)]);
                    t.symbol("right").array_of_lists([vent("Ø1.2", -35, -12)]);
                });
            });
        });
    });
    let bytes = order.to_bytes().unwrap();
    assert_eq!(bytes.len(), 190);
    assert_eq!(Table::from_bytes(&bytes).as_ref(), Ok(&order));
    let folder = Path::new(env!("CARGO_MANIFEST_DIR")).join("../../examples");
    if folder.is_dir() {
        assert_eq!(fs::read(folder.join("order.amqp")).unwrap(), bytes);
        assert_eq!(fs::read_to_string(folder.join("order.txt")).unwrap(), format!("{order}end {}\n", bytes.len()));
    }
}

#[test]
fn tables_with_other_text_are_others() {
    let table = |text: &str| {
        Table::build(|t| {
            t.string(text);
        })
    };
    assert_ne!(table("a"), table("b"));
    assert_eq!(table("a").words(), table("b").words());
    assert_eq!(table("a"), table("a").clone());
}

#[test]
fn a_table_has_the_memory_that_it_needs() {
    for table in [all_kinds(), Table::from(Value::Null), Table::from(Value::String("M4"))] {
        let bytes = table.to_bytes().unwrap();
        assert_eq!(bytes.capacity(), bytes.len());
        let (words, text) = Table::from_bytes(&bytes).unwrap().into_parts();
        assert_eq!((words.capacity(), text.capacity()), (words.len(), text.len()));
        assert_eq!(Table::from_parts(words, text), table);
    }
}

#[test]
fn read_again_into_the_same_table() {
    let mut table = all_kinds();
    let before = table.clone();
    assert_eq!(table.read_from(&[0xc0, 0x01, 0x01]), Err(Refusal::reading(Reason::InputShort, 3)));
    assert_eq!(table, before);
    assert_eq!(table.read_from(&[0xa1, 0x02, 0x4d, 0x34, 0xff]), Ok(Extent { length: 4, rows: 1, text: 2 }));
    assert_eq!(table, Table::from(Value::String("M4")));
}

#[test]
fn short_and_wide_forms_are_read_alike() {
    let uint: [&[u8]; 3] = [&[0x43], &[0x52, 0x00], &[0x70, 0, 0, 0, 0]];
    assert!(uint.iter().all(|bytes| Table::from_bytes(bytes) == Ok(Table::from(Value::Uint(0)))));
    let list: [&[u8]; 3] = [&[0x45], &[0xc0, 0x01, 0x00], &[0xd0, 0, 0, 0, 4, 0, 0, 0, 0]];
    assert!(list.iter().all(|bytes| Table::from_bytes(bytes) == Ok(Table::from(Value::List(0)))));
    let element = [0xe0, 0x03, 0x01, 0x54, 0x80];
    let array = Value::Array { count: 1, element: Some(Kind::Int) };
    assert_eq!(Table::from_bytes(&element).unwrap().values(), Ok(vec![array, Value::Int(-128)]));
    let array = Value::Array { count: 2, element: Some(Kind::List) };
    let two: Table = [array, Value::List(0), Value::List(0)].into_iter().collect();
    assert_eq!(Table::from_bytes(&[0xe0, 0x06, 0x02, 0xc0, 0x01, 0x00, 0x01, 0x00]), Ok(two.clone()));
    assert_eq!(Table::from_bytes(&two.to_bytes().unwrap()), Ok(two));
    // A text of 255 bytes is read in the one-byte form, and written in the other.
    let text: Vec<u8> = [0xa1, 255].into_iter().chain([b'x'; 255]).collect();
    let table = Table::from_bytes(&text).unwrap();
    assert_eq!(table.to_bytes().unwrap()[..5], [0xb1, 0, 0, 0, 255]);
}

#[test]
fn nothing_beyond_is_touched() {
    let mut out = [0xaa; 8];
    assert_eq!(Table::from(Value::Uint(255)).write_to(&mut out), Ok(2));
    assert_eq!(out, [0x52, 0xff, 0xaa, 0xaa, 0xaa, 0xaa, 0xaa, 0xaa]);
    let (mut words, mut text) = ([7; 5], [7; 3]);
    assert_eq!(read(&[0xa3, 0x01, b'v', 0x40], &mut words, &mut text), Ok(Extent { length: 3, rows: 1, text: 1 }));
    assert_eq!((words, text), ([0xb3, 1, 7, 7, 7], [b'v', 7, 7]));
}

#[test]
fn walker() {
    let bytes = [0x40, 0xa1, 0x02, 0x4d, 0x34, 0x00, 0x40, 0x46];
    let mut walker = Walker::new(&bytes);
    assert_eq!(walker.step(), Some(Ok(&bytes[..1])));
    assert_eq!((walker.offset(), walker.rest()), (1, &bytes[1..]));
    assert_eq!(walker.step(), Some(Ok(&bytes[1..5])));
    for _ in 0..3 {
        // The place is counted from where the walker stays.
        assert_eq!(walker.step(), Some(Err(Refusal::reading(Reason::CodeUnknown, 2))));
        assert_eq!((walker.offset(), walker.rest()), (5, &bytes[5..]));
    }
    let mut walker = Walker::at(&bytes[..5], 1);
    assert_eq!(walker.step(), Some(Ok(&bytes[1..5])));
    for _ in 0..3 {
        assert_eq!(walker.step(), None);
        assert_eq!((walker.offset(), walker.rest()), (5, &[][..]));
    }
    assert_eq!(Walker::new(&[]).step(), None);
    assert_eq!(Walker::at(&bytes, usize::MAX).step(), None);
}

#[test]
fn values_end_to_end() {
    let bytes = [0x40, 0xa1, 0x02, 0x4d, 0x34, 0x00, 0x40, 0x46];
    let mut found = values(&bytes);
    assert_eq!(found.size_hint(), (1, Some(8)));
    assert_eq!(found.next(), Some(Ok(&bytes[..1])));
    assert_eq!(found.next(), Some(Ok(&bytes[1..5])));
    let refused = found.next().unwrap().unwrap_err();
    assert_eq!((refused.refusal(), refused.index(), refused.start()), (Refusal::reading(Reason::CodeUnknown, 7), 2, 5));
    assert_eq!((found.next(), found.next()), (None, None));
    assert_eq!((found.offset(), found.rest(), found.size_hint()), (5, &bytes[5..], (0, Some(0))));
    let all: Result<Vec<_>, _> = values(&bytes[..5]).collect();
    assert_eq!(all, Ok(vec![&bytes[..1], &bytes[1..5]]));
    assert_eq!(values(&[]).next(), None);
}
