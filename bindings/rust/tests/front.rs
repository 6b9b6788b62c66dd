//! What stands around the tables: UUIDs, times, rows looked into by name, and refusals in the builder's terms.
use std::borrow::Cow;
use std::time::{Duration, SystemTime, UNIX_EPOCH};

use afsungar::{rows, BadUuid, Kind, Mismatch, Reason, Refusal, Row, Table, TimeOutside, Timestamp, Uuid, Value};

const TEXT: &str = "6f1c0a52-3b8e-4d10-9a77-21e455d00c3f";

#[test]
fn uuids() {
    let uuid: Uuid = TEXT.parse().unwrap();
    assert_eq!((uuid.to_string(), format!("{uuid:?}")), (TEXT.to_owned(), TEXT.to_owned()));
    assert_eq!(Uuid::from(uuid.to_bytes()), uuid);
    assert_eq!((*uuid.as_bytes(), <[u8; 16]>::from(uuid)), (uuid.to_bytes(), uuid.to_bytes()));
    assert_eq!(TEXT.replace('-', "").parse(), Ok(uuid));
    assert_eq!(TEXT.to_uppercase().parse(), Ok(uuid));
    let short = &TEXT[..35];
    let long = format!("{TEXT}0");
    let moved = TEXT.replace("52-3b", "5-23b");
    let signed = format!("+{}", &TEXT.replace('-', "")[1..]);
    for bad in ["", "-", short, &long, &moved, &signed, &"g".repeat(32), &"Ø".repeat(16), &"Ø".repeat(18)] {
        assert_eq!(bad.parse::<Uuid>(), Err(BadUuid), "{bad}");
    }
    // It is written as a uuid, not as a binary of 16 bytes.
    let table = Table::build(|t| t.list(|t| t.uuid(uuid).uuid(uuid.to_bytes()).push(uuid).array_of([uuid])));
    assert_eq!(table.rows().filter(|row| row.value() == Ok(Value::Uuid(uuid))).count(), 4);
    assert_eq!(Table::from(Value::from(uuid)).to_bytes().unwrap()[0], 0x98);
}

#[test]
fn dates() {
    for (milliseconds, date) in [
        (0, "1970-01-01T00:00:00Z"),
        (1_763_164_800_000, "2025-11-15T00:00:00Z"),
        (-1, "1969-12-31T23:59:59.999Z"),
        (951_782_399_999, "2000-02-28T23:59:59.999Z"),
        (951_782_400_000, "2000-02-29T00:00:00Z"),
        (951_868_800_000, "2000-03-01T00:00:00Z"),
        (-2_203_977_600_000, "1900-02-28T00:00:00Z"),
        (-2_203_891_200_000, "1900-03-01T00:00:00Z"),
        (4_107_542_400_007, "2100-03-01T00:00:00.007Z"),
        (253_402_300_799_999, "9999-12-31T23:59:59.999Z"),
        (253_402_300_800_000, "+10000-01-01T00:00:00Z"),
        (-62_167_219_200_000, "0000-01-01T00:00:00Z"),
        (-62_167_219_200_001, "-1-12-31T23:59:59.999Z"),
        (i64::MAX, "+292278994-08-17T07:12:55.807Z"),
        (i64::MIN, "-292275055-05-16T16:47:04.192Z"),
    ] {
        let time = Timestamp(milliseconds);
        assert_eq!((time.to_string(), format!("{time:?}")), (date.to_owned(), date.to_owned()));
    }
}

#[test]
fn system_times() {
    let back_and_forth = |time: SystemTime, milliseconds: i64| {
        assert_eq!(Timestamp::try_from(time), Ok(Timestamp(milliseconds)));
        let again = SystemTime::try_from(Timestamp(milliseconds)).unwrap();
        assert_eq!(Timestamp::try_from(again), Ok(Timestamp(milliseconds)));
    };
    back_and_forth(UNIX_EPOCH, 0);
    back_and_forth(UNIX_EPOCH + Duration::from_micros(1_999), 1);
    // Down, before 1970 too.
    back_and_forth(UNIX_EPOCH - Duration::from_micros(1), -1);
    back_and_forth(UNIX_EPOCH - Duration::from_millis(1), -1);
    back_and_forth(UNIX_EPOCH - Duration::from_micros(1_001), -2);
    let far = UNIX_EPOCH + Duration::from_secs(i64::MAX as u64 / 1000 + 1);
    assert_eq!(Timestamp::try_from(far), Err(TimeOutside));
    let time = Timestamp::try_from(UNIX_EPOCH + Duration::from_secs(1)).unwrap();
    assert_eq!(Table::build(|t| t.timestamp(time)), Table::build(|t| t.timestamp(1000)));
    assert_eq!(i64::from(time), 1000);
}

#[test]
fn strings_of_all_sorts() {
    let owned = vec![String::from("Ø1.2"), String::from("M4")];
    let table = Table::build(|t| t.array_of(owned.clone()));
    assert_eq!(table, Table::build(|t| t.array_of(&owned)));
    assert_eq!(table, Table::build(|t| t.array_of(["Ø1.2", "M4"])));
    assert_eq!(table, Table::build(|t| t.array_of([Cow::Borrowed("Ø1.2"), Cow::Owned("M4".to_owned())])));
    let map = Table::build(|t| t.map_of(owned.iter().map(|size| (size, size.clone()))));
    assert_eq!(map.rows().skip(1).map(|row| String::try_from(row.value().unwrap())).filter(Result::is_ok).count(), 4);
    assert_eq!(Table::from(owned[0].clone()), Table::from(Value::String("Ø1.2")));
    assert_eq!(owned.iter().collect::<Table>().len(), 2);
}

#[test]
fn articles() {
    let words = |wanted, found| Mismatch { wanted, found }.to_string();
    assert_eq!(words(Kind::Uint, Kind::Array), "a uint is wanted and an array found");
    assert_eq!(words(Kind::Int, Kind::Uuid), "an int is wanted and a uuid found");
    assert_eq!(words(Kind::String, Kind::Described), "a string is wanted and a described value found");
}

#[test]
fn closures_return_what_they_like() {
    let mut seen = 0;
    let table = Table::build(|t| {
        t.list(|t| t.null().uint(1));
        t.list(|t| {
            seen += 1;
            t.null();
            seen
        });
        t.map(|t| t.symbol("v").null()).described(|t| t.ulong(36).list(|_| ())).array(Kind::Uint, |t| t.uint(2))
    });
    assert_eq!(table.rows().map(|row| row.count()).collect::<Vec<_>>(), [2, 0, 0, 1, 0, 2, 0, 0, 2, 0, 0, 1, 0]);
    fn put<'a>(t: &afsungar::Builder, names: impl IntoIterator<Item = &'a str>) {
        t.list_of(names);
    }
    assert_eq!(Table::build(|t| put(t, ["a"])), Table::build(|t| t.list_of(["a"])));
}

fn order() -> Table {
    Table::build(|t| {
        t.map(|t| {
            t.symbol("vent").uint(12).string("size").string("M4").ulong(4711).null();
            t.symbol("vent").uint(13).string("both").uint(1).symbol("both").uint(2);
            t.list_of([1u32]).uint(14).list(|_| ()).uint(15);
            t.symbol("vents").list(|t| t.list_of([1u32, 2]).list_of([3u32]))
        })
    })
}

#[test]
fn maps_by_key() {
    let order = order();
    let map = order.root().unwrap();
    let held = |found: Option<Row<'_>>| found.map(|row| row.number);
    assert_eq!(held(map.get("vent")), Some(12));
    assert_eq!(held(map.get(Value::Symbol("vent"))), Some(12));
    assert_eq!(map.get("size").unwrap().text, b"M4");
    assert_eq!(map.get(Value::Symbol("size")), None);
    assert_eq!(held(map.get(4711u64)), Some(0));
    assert_eq!(map.get(4711u32), None);
    assert_eq!((held(map.get("both")), held(map.get(Value::Symbol("both")))), (Some(1), Some(2)));
    assert_eq!((held(map.get(Value::List(0))), map.get(Value::List(1))), (Some(15), None));
    assert_eq!(map.get("vents").unwrap().count(), 2);
    assert_eq!(map.entries().count(), 9);
    assert_eq!(map.entries().filter(|(key, _)| key.kind() == Some(Kind::List)).count(), 2);
    let list = map.get("vents").unwrap();
    assert_eq!((list.get("vent"), list.entries().count(), list.descriptor(), list.described()), (None, 0, None, None));
    // A key without a value, in a table that nobody has checked.
    let odd = rows(&[0xd1, 3, 0xb3, 1, 0x40, 0, 0xb3, 1], b"vw").next().unwrap();
    assert_eq!((odd.entries().count(), odd.get("w")), (1, None));
}

#[test]
fn rows_are_equal_by_what_they_hold() {
    let (order, list) = (order(), Table::build(|t| t.list(|t| t.list_of([1u32, 2]).list_of([3u32]))));
    let map = order.root().unwrap();
    assert_eq!(map.get("vents"), list.root());
    assert_ne!(map.get("vents"), map.get("vent"));
    assert_ne!(Table::build(|t| t.list_of([1u32, 2])).root(), Table::build(|t| t.list_of([1u32, 3])).root());
    assert_ne!(Table::build(|t| t.list_of(["a"])).root(), Table::build(|t| t.list_of(["b"])).root());
    assert_ne!(Table::from(Value::String("a")).root(), Table::from(Value::Symbol("a")).root());
    // One is cut off.
    assert_ne!(rows(&[0xd0, 2, 0x40, 0], &[]).next(), rows(&[0xd0, 2, 0x40, 0, 0x40, 0], &[]).next());
    assert_eq!(map.below().count() + 1, order.len());
}

#[test]
fn appended() {
    let mut out = vec![1, 2];
    assert_eq!(Table::build(|t| t.list_of([()])).append_to(&mut out), Ok(4));
    assert_eq!(out, [1, 2, 0xc0, 0x02, 0x01, 0x40]);
    let deep = Table::build(|t| t.list_of([()]));
    assert_eq!(deep.append_to_within(1, &mut out), Err(Refusal::writing(Reason::TooDeep, 1)));
    assert_eq!(out, [1, 2, 0xc0, 0x02, 0x01, 0x40]);
    assert_eq!((deep.append_to_within(2, &mut out), out.len()), (Ok(4), 10));
}

/// What the writer's refusal of a table means, within 3 levels.
fn explained(table: &Table) -> String {
    let refusal = table.to_bytes_within(3).unwrap_err();
    table.explain(refusal).to_string()
}

fn raw(words: &[u64], text: &[u8]) -> String {
    explained(&Table::from_parts(words.to_vec(), text.to_vec()))
}

#[test]
fn rows_and_kinds_explained() {
    assert_eq!(raw(&[0xd0], &[]), "the words are odd in number; a row is two");
    assert_eq!(raw(&[], &[]), "the table is empty");
    assert_eq!(raw(&[0x40, 0, 0x40, 0], &[]), "row 1 stands behind the value; a table holds one");
    assert_eq!(raw(&[0xd0, 2, 0xd0, 3, 0x40, 0], &[]), "$[0]: a list of 3 values, and the table ends behind 1");
    assert_eq!(raw(&[0x00, 2, 0x80, 36], &[]), "$: a described value of 2 values, and the table ends behind 1");
    assert_eq!(raw(&[0xd1, 2, 0x40, 0], &[]), "$: a map of 2 values, and the table ends behind 1");
    assert_eq!(raw(&[0xd0, 2, 0x40, 0, 0xff, 0], &[]), "$[1]: 0xff is not one of the 25 kinds");
    assert_eq!(
        raw(&[0xd0, 1, 0xd0, 1, 0xd0, 1, 0x40, 0], &[]),
        "$[0][0][0]: a null at level 4, beyond the limit of the call"
    );
}

#[test]
fn elements_and_numbers_explained() {
    let array = |kind: Kind, count| [0xf0, kind.array_number(count)];
    assert_eq!(raw(&[&array(Kind::Uint, 1)[..], &[0x71, 0]].concat(), &[]), "$[0]: an int in an array of uint");
    assert_eq!(raw(&array(Kind::Null, 0), &[]), "$: an array of null, which arrays cannot hold");
    let in_array = [array(Kind::Array, 1), array(Kind::Null, 0)].concat();
    assert_eq!(raw(&in_array, &[]), "$[0]: an array of null, which arrays cannot hold");
    assert_eq!(raw(&[0xf0, 0], &[]), "$: an array that does not tell the kind of its elements");
    assert_eq!(raw(&[0xf0, 0x45 << 32], &[]), "$: an array of 0x45, which is not one of the 25 kinds");
    assert_eq!(raw(&array(Kind::Uint, 1_048_577), &[]), "$: an array of 1048577 elements; 1048576 is the most");
    assert_eq!(raw(&[0xd1, 1, 0x40, 0], &[]), "$: a map of 1 keys and values; they have to come in pairs");
    assert_eq!(raw(&[0xd0, 1_048_577], &[]), "$: a list of 1048577 values; 1048576 is the most");
    assert_eq!(raw(&[0xb0, 1_048_577], &[]), "$: a binary of 1048577 bytes; 1048576 is the most");
    assert_eq!(raw(&[0x56, 2], &[]), "$: 2 is no boolean");
    assert_eq!(raw(&[0x50, 256], &[]), "$: 256 is no ubyte");
    assert_eq!(raw(&[0x73, 0xd800], &[]), "$: 0xd800 is no Unicode scalar value");
    assert_eq!(raw(&[0x00, 3, 0x40, 0, 0x40, 0, 0x40, 0], &[]), "$: a described value has two parts, not 3");
}

#[test]
fn texts_and_lengths_explained() {
    assert_eq!(raw(&[0xd0, 2, 0xb1, 1, 0xb1, 3], b"ab"), "$[1]: a string of 3 bytes of text, and 1 are left");
    assert_eq!(raw(&[0x98, 0], b"ab"), "$: a uuid of 16 bytes of text, and 2 are left");
    assert_eq!(raw(&[0x40, 0], b"ab"), "2 bytes of text are left behind that of the last row");
    assert_eq!(raw(&[0xd0, 2, 0xb1, 1, 0xb1, 2], b"ab\xff"), "$[1]: a string that is not UTF-8 at its byte 1, 0xff");
    assert_eq!(explained(&Table::from(Value::Symbol("für"))), "$: a symbol that is not ASCII at its byte 1, 0xc3");
    let long = Table::from(Value::Binary(&[0; 1_048_576]));
    assert_eq!(explained(&long), "the value would take more than 1048576 bytes");
    let table = Table::from(Value::Null);
    let said = |refusal| table.explain(refusal).to_string();
    assert_eq!(said(table.to_bytes_within(0).unwrap_err()), "the level limit has to be from 1 to 32");
    assert_eq!(said(table.write_to(&mut []).unwrap_err()), "the output is too short (8)");
    let reading = Table::from_bytes(&[0x46]).unwrap_err();
    assert_eq!(said(reading), reading.to_string());
}

/// The path of the one null of a table.
fn path_of_null(table: &Table) -> String {
    let null = table.rows().find(|row| row.kind() == Some(Kind::Null)).unwrap();
    table.path(null.index).unwrap()
}

#[test]
fn paths() {
    let map = |key: Value<'_>| Table::build(|t| t.map(|t| t.uint(7).uint(7).push(key).list(|t| t.uint(1).null())));
    assert_eq!(path_of_null(&map(Value::Symbol("vents"))), "$.vents[1]");
    assert_eq!(path_of_null(&map(Value::String("für-_1"))), "$.für-_1[1]");
    assert_eq!(path_of_null(&map(Value::String("Ø 1.2"))), "$[\"Ø 1.2\"][1]");
    assert_eq!(path_of_null(&map(Value::String("1"))), "$[\"1\"][1]");
    assert_eq!(path_of_null(&map(Value::String(""))), "$[\"\"][1]");
    assert_eq!(path_of_null(&map(Value::Ubyte(3))), "$[3][1]");
    assert_eq!(path_of_null(&map(Value::Ushort(3))), "$[3][1]");
    assert_eq!(path_of_null(&map(Value::Uint(3))), "$[3][1]");
    assert_eq!(path_of_null(&map(Value::Ulong(4711))), "$[4711][1]");
    assert_eq!(path_of_null(&map(Value::Byte(-3))), "$[-3][1]");
    assert_eq!(path_of_null(&map(Value::Short(-3))), "$[-3][1]");
    assert_eq!(path_of_null(&map(Value::Int(-3))), "$[-3][1]");
    assert_eq!(path_of_null(&map(Value::Long(-3))), "$[-3][1]");
    assert_eq!(path_of_null(&map(Value::Uuid(TEXT.parse().unwrap()))), format!("$[{TEXT}][1]"));
    assert_eq!(path_of_null(&map(Value::Boolean(true))), "$<value 1>[1]");
    assert_eq!(path_of_null(&Table::build(|t| t.map(|t| t.list_of([()]).uint(1)))), "$<key 0>[0]");
    assert_eq!(path_of_null(&Table::build(|t| t.map(|t| t.list_of([1u32]).null()))), "$<value 0>");
    assert_eq!(path_of_null(&Table::build(|t| t.described(|t| t.null().uint(1)))), "$<descriptor>");
    assert_eq!(path_of_null(&Table::build(|t| t.described(|t| t.uint(1).list_of([()])))), "$<value>[0]");
    // No such row, and one behind the value.
    let null = Table::from(Value::Null);
    assert_eq!((null.path(0), null.path(1)), (Some("$".to_owned()), None));
    assert_eq!(Table::build(|t| t.null().null()).path(1), None);
}
