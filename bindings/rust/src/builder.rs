use alloc::rc::Rc;
use alloc::vec::Vec;
use core::cell::RefCell;
use core::convert::identity;
use core::{fmt, mem};

use crate::kind::children;
use crate::{Element, Kind, Table, Timestamp, ToValue, Uuid, Value};

/// Puts a table together, value by value; see [`Table::build`].
///
/// There is a method for each of the 25 kinds. Those with children take a closure that puts the children in; their number
/// is counted. An array takes the kind of its elements as well. Nothing is checked on the way: the writer checks, and says
/// which row is wrong, or which byte of the text.
///
/// ```
/// # fn main() -> Result<(), afsungar::Refusal> {
/// use afsungar::Table;
///
/// let map = Table::build(|t| {
///     t.map(|t| {
///         t.symbol("left").uint(2);
///         t.symbol("sizes").array_of(["Ø1.2", "M4"])
///     })
/// });
/// assert_eq!(map.to_string(), "0 d1 4\n1 b3 4\n2 70 2\n3 b3 5\n4 f0 760209211394\n5 b1 5\n6 b1 2\n");
/// assert_eq!(map.to_bytes()?.len(), 37);
/// # Ok(())
/// # }
/// ```
///
/// Each method gives the builder back, so that calls can be put in a row. A closure may return that, or whatever it likes.
///
/// What is given back is one more handle of the same builder, not a reference: a closure could not return that. So a builder
/// stays in its thread; the table that it makes does not have to.
pub struct Builder {
    parts: Rc<RefCell<Parts>>,
}

/// What was put in. No call holds on to it while code of the caller runs.
#[derive(Default)]
struct Parts {
    words: Vec<u64>,
    text: Vec<u8>,
    /// Values put in at this level.
    count: u64,
    /// Values to come that are not of this level, because `push` or `row` put in a parent that said how many it has.
    due: u64,
}

impl Parts {
    fn row(&mut self, kind: u64, number: u64, text: &[u8]) {
        self.enter(kind, number);
        self.text.extend_from_slice(text);
        self.due = self.due.saturating_add(children(kind, number));
    }

    fn enter(&mut self, kind: u64, number: u64) {
        self.one();
        self.words.extend_from_slice(&[kind, number]);
    }

    /// One more value at this level, or one less due.
    fn one(&mut self) {
        if self.due > 0 {
            self.due -= 1;
        } else {
            self.count += 1;
        }
    }
}

impl Builder {
    /// An empty one.
    #[must_use]
    pub fn new() -> Self {
        Builder { parts: Rc::default() }
    }

    /// The table that was put together. The builder is then empty.
    #[must_use]
    pub fn finish(&self) -> Table {
        let parts = self.parts.take();
        Table::from_parts(parts.words, parts.text)
    }

    /// Null.
    pub fn null(&self) -> Self {
        self.push(Value::Null)
    }

    /// True or false.
    pub fn boolean(&self, value: bool) -> Self {
        self.push(value)
    }

    /// 8 bits, unsigned.
    pub fn ubyte(&self, value: u8) -> Self {
        self.push(value)
    }

    /// 16 bits, unsigned.
    pub fn ushort(&self, value: u16) -> Self {
        self.push(value)
    }

    /// 32 bits, unsigned.
    pub fn uint(&self, value: u32) -> Self {
        self.push(value)
    }

    /// 64 bits, unsigned.
    pub fn ulong(&self, value: u64) -> Self {
        self.push(value)
    }

    /// 8 bits, signed.
    pub fn byte(&self, value: i8) -> Self {
        self.push(value)
    }

    /// 16 bits, signed.
    pub fn short(&self, value: i16) -> Self {
        self.push(value)
    }

    /// 32 bits, signed.
    pub fn int(&self, value: i32) -> Self {
        self.push(value)
    }

    /// 64 bits, signed.
    pub fn long(&self, value: i64) -> Self {
        self.push(value)
    }

    /// 32 bits, binary floating point.
    pub fn float(&self, value: f32) -> Self {
        self.push(value)
    }

    /// 64 bits, binary floating point.
    pub fn double(&self, value: f64) -> Self {
        self.push(value)
    }

    /// The 32 bits of a decimal floating point number.
    pub fn decimal32(&self, bits: u32) -> Self {
        self.push(Value::Decimal32(bits))
    }

    /// The 64 bits of a decimal floating point number.
    pub fn decimal64(&self, bits: u64) -> Self {
        self.push(Value::Decimal64(bits))
    }

    /// The 128 bits of a decimal floating point number, most significant byte first.
    pub fn decimal128(&self, bytes: [u8; 16]) -> Self {
        self.push(Value::Decimal128(bytes))
    }

    /// A Unicode scalar value.
    pub fn char(&self, value: char) -> Self {
        self.push(value)
    }

    /// Milliseconds since 1970.
    pub fn timestamp(&self, time: impl Into<Timestamp>) -> Self {
        self.push(time.into())
    }

    /// A UUID.
    pub fn uuid(&self, uuid: impl Into<Uuid>) -> Self {
        self.push(uuid.into())
    }

    /// Any bytes.
    pub fn binary(&self, bytes: impl AsRef<[u8]>) -> Self {
        self.push(Value::Binary(bytes.as_ref()))
    }

    /// A string.
    pub fn string(&self, text: impl AsRef<str>) -> Self {
        self.push(Value::String(text.as_ref()))
    }

    /// A symbol, which is ASCII: another one is refused when it is written ([`TextAmiss`](crate::Reason::TextAmiss)).
    pub fn symbol(&self, text: impl AsRef<str>) -> Self {
        self.push(Value::Symbol(text.as_ref()))
    }

    /// A list of what `children` puts in.
    pub fn list<R>(&self, children: impl FnOnce(&Self) -> R) -> Self {
        self.parent(Kind::List, identity, children)
    }

    /// A map of what `entries` puts in: key, value, key, value, and so on.
    pub fn map<R>(&self, entries: impl FnOnce(&Self) -> R) -> Self {
        self.parent(Kind::Map, identity, entries)
    }

    /// An array of what `elements` puts in: all of the kind `element`, which is neither null nor described.
    ///
    /// Elements that are lists, maps or arrays need not be alike beyond that.
    ///
    /// ```
    /// # fn main() -> Result<(), afsungar::Refusal> {
    /// use afsungar::{Kind, Table};
    ///
    /// let vents = [("Ø1.2", 35, -12), ("Ø1.3", 48, 7)];
    /// let array = Table::build(|t| {
    ///     t.array(Kind::List, |t| {
    ///         for (size, across, up) in vents {
    ///             t.list(|t| {
    ///                 t.string(size).int(across).int(up);
    ///             });
    ///         }
    ///     });
    /// });
    /// assert_eq!(array.rows().map(|row| row.count()).collect::<Vec<_>>(), [2, 3, 0, 0, 0, 3, 0, 0, 0]);
    /// assert_eq!(array.to_bytes()?.len(), 42);
    /// # Ok(())
    /// # }
    /// ```
    ///
    /// It takes the place of [`array_of`](Builder::array_of) for kinds that no type tells, such as symbol and timestamp:
    ///
    /// ```
    /// # use afsungar::{Kind, Table, Value};
    /// let ears = ["left", "right"];
    /// let array = Table::build(|t| {
    ///     t.array(Kind::Symbol, |t| t.extend(ears.map(Value::Symbol)));
    /// });
    /// # assert_eq!(array.to_bytes().unwrap().len(), 21);
    /// ```
    pub fn array<R>(&self, element: Kind, elements: impl FnOnce(&Self) -> R) -> Self {
        let number = |count| Value::Array { count: count as usize, element: Some(element) }.number();
        self.parent(Kind::Array, number, elements)
    }

    /// An array of no elements, which would be of this kind.
    ///
    /// ```
    /// # fn main() -> Result<(), afsungar::Refusal> {
    /// use afsungar::{Kind, Table};
    ///
    /// let none = Table::build(|t| {
    ///     t.empty_array(Kind::Uint);
    /// });
    /// assert_eq!(none.to_bytes()?, [0xe0, 0x02, 0x00, 0x70]);
    /// # Ok(())
    /// # }
    /// ```
    pub fn empty_array(&self, element: Kind) -> Self {
        self.push(Value::Array { count: 0, element: Some(element) })
    }

    /// A described value; `both` puts in the descriptor, then the value.
    ///
    /// ```
    /// # fn main() -> Result<(), afsungar::Refusal> {
    /// let empty = afsungar::Table::build(|t| {
    ///     t.described(|t| {
    ///         t.ulong(36).list(|_| {});
    ///     });
    /// });
    /// assert_eq!(empty.to_bytes()?, [0x00, 0x53, 0x24, 0x45]);
    /// # Ok(())
    /// # }
    /// ```
    pub fn described<R>(&self, both: impl FnOnce(&Self) -> R) -> Self {
        self.parent(Kind::Described, identity, both)
    }

    /// A list of these values.
    pub fn list_of<V: ToValue>(&self, children: impl IntoIterator<Item = V>) -> Self {
        self.list(|t| t.extend(children))
    }

    /// An array of these values. Their type tells the kind, also where there are none of them.
    ///
    /// ```
    /// # fn main() -> Result<(), afsungar::Refusal> {
    /// use afsungar::Table;
    ///
    /// let sizes = Table::build(|t| {
    ///     t.array_of(["Ø1.2", "M4"]);
    /// });
    /// let none = Table::build(|t| {
    ///     t.array_of::<&str>([]);
    /// });
    /// assert_eq!(sizes.to_bytes()?[..4], [0xe0, 0x11, 0x02, 0xb1]);
    /// assert_eq!(none.to_bytes()?, [0xe0, 0x02, 0x00, 0xb1]);
    /// # Ok(())
    /// # }
    /// ```
    pub fn array_of<E: Element>(&self, elements: impl IntoIterator<Item = E>) -> Self {
        self.array(E::KIND, |t| t.extend(elements))
    }

    /// An array of lists, each of these values.
    ///
    /// ```
    /// # fn main() -> Result<(), afsungar::Refusal> {
    /// use afsungar::{Table, Value};
    ///
    /// let pairs = Table::build(|t| {
    ///     t.array_of_lists([[1u32, 2], [3, 4]]);
    /// });
    /// let mixed = Table::build(|t| {
    ///     t.array_of_lists([vec![Value::String("M4"), Value::Uint(2)], vec![]]);
    /// });
    /// assert_eq!(Table::from_bytes(&pairs.to_bytes()?)?, pairs);
    /// assert_eq!(Table::from_bytes(&mixed.to_bytes()?)?, mixed);
    /// # Ok(())
    /// # }
    /// ```
    pub fn array_of_lists<V: ToValue>(&self, lists: impl IntoIterator<Item = impl IntoIterator<Item = V>>) -> Self {
        self.array_by(Kind::List, lists, |t, list| t.list_of(list))
    }

    /// An array of maps, each of these keys and values.
    ///
    /// ```
    /// # fn main() -> Result<(), afsungar::Refusal> {
    /// use afsungar::Table;
    ///
    /// let maps = Table::build(|t| {
    ///     t.array_of_maps([[("left", 2u32), ("right", 1)], [("left", 0), ("right", 3)]]);
    /// });
    /// assert_eq!(Table::from_bytes(&maps.to_bytes()?)?, maps);
    /// # Ok(())
    /// # }
    /// ```
    pub fn array_of_maps<K: ToValue, V: ToValue>(
        &self,
        maps: impl IntoIterator<Item = impl IntoIterator<Item = (K, V)>>,
    ) -> Self {
        self.array_by(Kind::Map, maps, |t, map| t.map_of(map))
    }

    /// An array of arrays, each of these values. Their type tells the kind of each of the inner arrays, as in
    /// [`array_of`](Builder::array_of).
    ///
    /// ```
    /// # fn main() -> Result<(), afsungar::Refusal> {
    /// use afsungar::{Kind, Table};
    ///
    /// let rows = Table::build(|t| {
    ///     t.array_of_arrays([vec![1.0f64, 0.5], vec![]]);
    /// });
    /// let kinds = rows.rows().map(|row| row.element_kind());
    /// assert!(kinds.eq([Some(Kind::Array), Some(Kind::Double), None, None, Some(Kind::Double)]));
    /// assert_eq!(Table::from_bytes(&rows.to_bytes()?)?, rows);
    /// # Ok(())
    /// # }
    /// ```
    pub fn array_of_arrays<E: Element>(&self, arrays: impl IntoIterator<Item = impl IntoIterator<Item = E>>) -> Self {
        self.array_by(Kind::Array, arrays, |t, array| t.array_of(array))
    }

    /// A map of these keys and values.
    ///
    /// ```
    /// use afsungar::{Table, Value};
    ///
    /// let map = Table::build(|t| {
    ///     t.map_of([(Value::Symbol("left"), 2u32), (Value::Symbol("right"), 1u32)]);
    /// });
    /// assert_eq!(map.rows().next().map(|row| row.count()), Some(4));
    /// ```
    pub fn map_of<K: ToValue, V: ToValue>(&self, entries: impl IntoIterator<Item = (K, V)>) -> Self {
        self.map(|t| {
            for (key, value) in entries {
                t.put(&key);
                t.put(&value);
            }
        })
    }

    /// One value. Behind one that has children, they are the values that come next.
    pub fn push(&self, value: impl ToValue) -> Self {
        self.put(&value);
        self.same()
    }

    fn put(&self, value: &impl ToValue) {
        let value = value.to_value();
        self.parts.borrow_mut().row(value.kind().code(), value.number(), value.text());
    }

    /// These values, one after the other.
    pub fn extend<V: ToValue>(&self, values: impl IntoIterator<Item = V>) -> Self {
        for value in values {
            self.put(&value);
        }
        self.same()
    }

    /// A row as it stands, whatever it holds. Behind one that has children, they are the values that come next.
    ///
    /// The number of an array's row is that of [`Kind::array_number`].
    pub fn row(&self, kind: u64, number: u64, text: impl AsRef<[u8]>) -> Self {
        let text = text.as_ref();
        self.parts.borrow_mut().row(kind, number, text);
        self.same()
    }

    /// The value of another table, with all that is below it.
    ///
    /// ```
    /// use afsungar::Table;
    ///
    /// let part = Table::build(|t| {
    ///     t.list_of(["Ø1.2", "M4"]);
    /// });
    /// let twice = Table::build(|t| {
    ///     t.list(|t| {
    ///         t.table(&part).table(&part);
    ///     });
    /// });
    /// assert_eq!(twice.rows().map(|row| row.count()).collect::<Vec<_>>(), [2, 2, 0, 0, 2, 0, 0]);
    /// ```
    pub fn table(&self, table: &Table) -> Self {
        let mut parts = self.parts.borrow_mut();
        parts.one();
        parts.words.extend_from_slice(table.words());
        parts.text.extend_from_slice(table.text());
        self.same()
    }

    /// One more handle of this builder.
    fn same(&self) -> Self {
        Builder { parts: Rc::clone(&self.parts) }
    }

    /// An array with what `put` makes of each item.
    fn array_by<T>(&self, element: Kind, items: impl IntoIterator<Item = T>, put: impl Fn(&Self, T) -> Self) -> Self {
        self.array(element, |t| {
            for item in items {
                put(t, item);
            }
        })
    }

    /// A row with what `children` puts in. Its number is made of how many they are.
    fn parent<R>(&self, kind: Kind, number: impl FnOnce(u64) -> u64, children: impl FnOnce(&Self) -> R) -> Self {
        let (row, outer) = {
            let mut parts = self.parts.borrow_mut();
            parts.enter(kind.code(), 0);
            (parts.words.len() - 1, (mem::take(&mut parts.count), mem::take(&mut parts.due)))
        };
        children(self);
        let mut parts = self.parts.borrow_mut();
        let count = mem::replace(&mut parts.count, outer.0);
        parts.due = outer.1;
        // The closure may have finished the builder, so the row may be gone.
        if let Some(word) = parts.words.get_mut(row) {
            *word = number(count);
        }
        self.same()
    }
}

impl Default for Builder {
    fn default() -> Self {
        Builder::new()
    }
}

impl fmt::Debug for Builder {
    fn fmt(&self, f: &mut fmt::Formatter<'_>) -> fmt::Result {
        let parts = self.parts.borrow();
        f.debug_struct("Builder").field("words", &parts.words).field("text", &parts.text).finish_non_exhaustive()
    }
}

impl From<Builder> for Table {
    fn from(builder: Builder) -> Table {
        builder.finish()
    }
}
