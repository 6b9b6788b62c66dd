//! Writes the order of examples/order.amqp, with a UUID and an empty array more, and reads it back.
//!
//!     cargo run --example order
use std::error::Error;

use afsungar::{Builder, Kind, Refusal, Row, Table, Uuid, Value};

/// A vent: its size, and how far across and up it is, in tenths of a millimetre.
type Vent = (&'static str, i32, i32);

const LEFT: [Vent; 2] = [("Ø1.2", 35, -12), ("Ø1.3", 48, 7)];
const RIGHT: [Vent; 1] = [("Ø1.2", -35, -12)];

fn main() -> Result<(), Box<dyn Error>> {
    let order = order("6f1c0a52-3b8e-4d10-9a77-21e455d00c3f".parse()?);
    let bytes = order.to_bytes().map_err(|refusal| order.explain(refusal))?;
    println!("{} bytes", bytes.len());
    read_order(&bytes)
}

fn order(uuid: Uuid) -> Table {
    Table::build(|t| {
        t.described(|t| {
            t.symbol("afsungar:order:list").list(|t| {
                t.ulong(4711).timestamp(1_763_164_800_000).symbol("ear-shell").string("Ø1.2").uuid(uuid);
                // The sizes at hand, and what is to be engraved: nothing. Both are arrays of strings.
                t.array_of(["Ø1.2", "Ø1.3", "M4"]).array_of::<&str>([]);
                t.map_of([(Value::Symbol("left"), 2u32), (Value::Symbol("right"), 1)]);
                t.map(|t| {
                    put_vents(t, "left", &LEFT);
                    put_vents(t, "right", &RIGHT);
                })
            })
        })
    })
}

/// An ear's vents: an array of small lists.
fn put_vents(t: &Builder, ear: &str, vents: &[Vent]) {
    t.symbol(ear).array(Kind::List, |t| {
        for &(size, across, up) in vents {
            t.list(|t| t.string(size).int(across).int(up));
        }
    });
}

fn read_order(bytes: &[u8]) -> Result<(), Box<dyn Error>> {
    let order = Table::from_bytes(bytes)?;
    let root = order.root().ok_or("nothing was read")?;
    let (Some(name), Some(list)) = (root.descriptor(), root.described()) else {
        return Err("no described value".into());
    };
    println!("{}", <&str>::try_from(name.value()?)?);
    for field in list.children() {
        println!("  {:?} {:?}", field.value()?, field.child_values()?);
    }
    let ears = list.children().last().ok_or("no vents")?;
    for (ear, vents) in ears.entries() {
        print_vents(<&str>::try_from(ear.value()?)?, vents)?;
    }
    let left = ears.get("left").map_or(0, |vents| vents.count());
    println!("{left} on the left");
    print!("{order}");
    Ok(())
}

fn print_vents(ear: &str, vents: Row<'_>) -> Result<(), Refusal> {
    for vent in vents.children() {
        match vent.child_values()?[..] {
            [Value::String(size), Value::Int(across), Value::Int(up)] => println!("  {ear}: {size} at {across}, {up}"),
            _ => println!("  {ear}: no vent"),
        }
    }
    Ok(())
}
