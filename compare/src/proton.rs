//! Qpid Proton's C library: a tree of values, put together from a table or taken apart into one.

use crate::table::{Kind, Row, Rows, Table};
use std::{os::raw::c_int, ptr::NonNull};

/// The most nodes of a tree: Proton numbers them in 16 bits.
pub const NODES: usize = 65_000;

pub struct Data(NonNull<raw::Data>);

/// Proton's number for why it will not (`PN_ERR` is -2, `PN_UNDERFLOW` -4, ..).
#[derive(Clone, Copy, Debug, PartialEq, Eq)]
pub struct Error(pub isize);

impl Data {
    pub fn new() -> Self {
        // SAFETY: here and below, calls have a live tree and pointers into live memory.
        Data(NonNull::new(unsafe { raw::pn_data(16) }).expect("Proton has memory"))
    }

    fn tree(&self) -> *mut raw::Data {
        self.0.as_ptr()
    }

    /// Makes the tree that of a table.
    pub fn put(&mut self, table: &Table) -> Result<(), Error> {
        unsafe { raw::pn_data_clear(self.tree()) };
        self.put_value(&mut Rows::of(table))
    }

    /// The tree's bytes, at the start of `out`.
    pub fn encode(&mut self, out: &mut [u8]) -> Result<usize, Error> {
        usize_or_error(unsafe { raw::pn_data_encode(self.tree(), out.as_mut_ptr(), out.len()) })
    }

    /// Makes the tree that of the value at the start of `bytes`; gives its length.
    pub fn decode(&mut self, bytes: &[u8]) -> Result<usize, Error> {
        unsafe { raw::pn_data_clear(self.tree()) };
        usize_or_error(unsafe { raw::pn_data_decode(self.tree(), bytes.as_ptr(), bytes.len()) })
    }

    /// The tree as a table. Nothing where a table cannot hold it.
    pub fn table(&mut self) -> Option<Table> {
        let mut table = Table::default();
        unsafe { raw::pn_data_rewind(self.tree()) };
        self.take_value(&mut table)?;
        Some(table)
    }

    fn put_value(&mut self, rows: &mut Rows) -> Result<(), Error> {
        let row = rows.next().expect("the table holds a whole value");
        let Row { kind, number, text } = row;
        let tree = self.tree();
        let result = unsafe {
            match kind {
                Kind::Null => raw::pn_data_put_null(tree),
                Kind::Boolean => raw::pn_data_put_bool(tree, number != 0),
                Kind::Ubyte => raw::pn_data_put_ubyte(tree, number as u8),
                Kind::Byte => raw::pn_data_put_byte(tree, number as i8),
                Kind::Ushort => raw::pn_data_put_ushort(tree, number as u16),
                Kind::Short => raw::pn_data_put_short(tree, number as i16),
                Kind::Uint => raw::pn_data_put_uint(tree, number as u32),
                Kind::Int => raw::pn_data_put_int(tree, number as i32),
                Kind::Char => raw::pn_data_put_char(tree, number as u32),
                Kind::Ulong => raw::pn_data_put_ulong(tree, number),
                Kind::Long => raw::pn_data_put_long(tree, number as i64),
                Kind::Timestamp => raw::pn_data_put_timestamp(tree, number as i64),
                Kind::Float => raw::pn_data_put_float(tree, f32::from_bits(number as u32)),
                Kind::Double => raw::pn_data_put_double(tree, f64::from_bits(number)),
                Kind::Decimal32 => raw::pn_data_put_decimal32(tree, number as u32),
                Kind::Decimal64 => raw::pn_data_put_decimal64(tree, number),
                Kind::Decimal128 => raw::pn_data_put_decimal128(tree, raw::Sixteen::of(text)),
                Kind::Uuid => raw::pn_data_put_uuid(tree, raw::Sixteen::of(text)),
                Kind::Binary => raw::pn_data_put_binary(tree, raw::Bytes::of(text)),
                Kind::String => raw::pn_data_put_string(tree, raw::Bytes::of(text)),
                Kind::Symbol => raw::pn_data_put_symbol(tree, raw::Bytes::of(text)),
                Kind::List => raw::pn_data_put_list(tree),
                Kind::Map => raw::pn_data_put_map(tree),
                Kind::Described => raw::pn_data_put_described(tree),
                Kind::Array => raw::pn_data_put_array(tree, false, type_of(row.element().expect("the array tells a kind"))),
            }
        };
        if result != 0 {
            return Err(Error(result as isize));
        }
        if kind.has_children() {
            unsafe { raw::pn_data_enter(tree) };
            for _ in 0..row.children() {
                self.put_value(rows)?;
            }
            unsafe { raw::pn_data_exit(tree) };
        }
        Ok(())
    }

    fn take_value(&mut self, table: &mut Table) -> Option<()> {
        let tree = self.tree();
        if !unsafe { raw::pn_data_next(tree) } {
            return None;
        }
        let kind = kind_of(unsafe { raw::pn_data_type(tree) })?;
        unsafe {
            match kind {
                Kind::Decimal128 => table.sixteen(kind, &raw::pn_data_get_decimal128(tree).bytes()),
                Kind::Uuid => table.sixteen(kind, &raw::pn_data_get_uuid(tree).bytes()),
                Kind::Binary => table.worded(kind, raw::pn_data_get_binary(tree).slice()),
                Kind::String => table.worded(kind, raw::pn_data_get_string(tree).slice()),
                Kind::Symbol => table.worded(kind, raw::pn_data_get_symbol(tree).slice()),
                Kind::Array if raw::pn_data_is_array_described(tree) => return None,
                Kind::Array => table.array(kind_of(raw::pn_data_get_array_type(tree))?, self.number(kind)),
                _ => table.row(kind, self.number(kind)),
            };
        }
        if kind.has_children() {
            let count = self.number(kind);
            unsafe { raw::pn_data_enter(tree) };
            for _ in 0..count {
                self.take_value(table)?;
            }
            unsafe { raw::pn_data_exit(tree) };
        }
        Some(())
    }

    /// The number of the row that the tree stands at, of an array its count; 0 for a kind without one.
    fn number(&self, kind: Kind) -> u64 {
        let tree = self.tree();
        unsafe {
            match kind {
                Kind::Boolean => (raw::pn_data_get_bool(tree) != 0) as u64,
                Kind::Ubyte => raw::pn_data_get_ubyte(tree) as u64,
                Kind::Byte => raw::pn_data_get_byte(tree) as u8 as u64,
                Kind::Ushort => raw::pn_data_get_ushort(tree) as u64,
                Kind::Short => raw::pn_data_get_short(tree) as u16 as u64,
                Kind::Uint => raw::pn_data_get_uint(tree) as u64,
                Kind::Int => raw::pn_data_get_int(tree) as u32 as u64,
                Kind::Char => raw::pn_data_get_char(tree) as u64,
                Kind::Ulong => raw::pn_data_get_ulong(tree),
                Kind::Long => raw::pn_data_get_long(tree) as u64,
                Kind::Timestamp => raw::pn_data_get_timestamp(tree) as u64,
                Kind::Float => raw::pn_data_get_float(tree).to_bits() as u64,
                Kind::Double => raw::pn_data_get_double(tree).to_bits(),
                Kind::Decimal32 => raw::pn_data_get_decimal32(tree) as u64,
                Kind::Decimal64 => raw::pn_data_get_decimal64(tree),
                Kind::List => raw::pn_data_get_list(tree) as u64,
                Kind::Map => raw::pn_data_get_map(tree) as u64,
                Kind::Array => raw::pn_data_get_array(tree) as u64,
                Kind::Described => 2,
                Kind::Null | Kind::Decimal128 | Kind::Uuid | Kind::Binary | Kind::String | Kind::Symbol => 0,
            }
        }
    }
}

impl Drop for Data {
    fn drop(&mut self) {
        unsafe { raw::pn_data_free(self.tree()) }
    }
}

fn usize_or_error(result: isize) -> Result<usize, Error> {
    usize::try_from(result).map_err(|_| Error(result))
}

/// Proton's numbers for types: each kind's place in this row, counted from 1.
const TYPES: [Kind; 25] = [
    Kind::Null,
    Kind::Boolean,
    Kind::Ubyte,
    Kind::Byte,
    Kind::Ushort,
    Kind::Short,
    Kind::Uint,
    Kind::Int,
    Kind::Char,
    Kind::Ulong,
    Kind::Long,
    Kind::Timestamp,
    Kind::Float,
    Kind::Double,
    Kind::Decimal32,
    Kind::Decimal64,
    Kind::Decimal128,
    Kind::Uuid,
    Kind::Binary,
    Kind::String,
    Kind::Symbol,
    Kind::Described,
    Kind::Array,
    Kind::List,
    Kind::Map,
];

fn type_of(kind: Kind) -> c_int {
    1 + TYPES.iter().position(|&k| k == kind).expect("every kind is a type") as c_int
}

fn kind_of(number: c_int) -> Option<Kind> {
    TYPES.get(usize::try_from(number - 1).ok()?).copied()
}

/// proton/codec.h, as much of it as is used here.
mod raw {
    use std::{os::raw::c_int, slice};

    #[repr(C)]
    pub struct Data {
        _opaque: [u8; 0],
    }

    #[repr(C)]
    #[derive(Clone, Copy)]
    pub struct Bytes {
        size: usize,
        start: *const u8,
    }

    impl Bytes {
        pub fn of(bytes: &[u8]) -> Self {
            Bytes { size: bytes.len(), start: bytes.as_ptr() }
        }

        /// Only while the tree is not changed.
        pub unsafe fn slice<'a>(self) -> &'a [u8] {
            match self.size {
                0 => &[],
                size => slice::from_raw_parts(self.start, size),
            }
        }
    }

    /// `pn_decimal128_t` and `pn_uuid_t`.
    #[repr(C)]
    #[derive(Clone, Copy)]
    pub struct Sixteen([u8; 16]);

    impl Sixteen {
        pub fn of(bytes: &[u8]) -> Self {
            Sixteen(bytes.try_into().expect("16 bytes"))
        }

        pub fn bytes(self) -> [u8; 16] {
            self.0
        }
    }

    #[link(name = "qpid-proton")]
    extern "C" {
        pub fn pn_data(capacity: usize) -> *mut Data;
        pub fn pn_data_free(data: *mut Data);
        pub fn pn_data_clear(data: *mut Data);
        pub fn pn_data_rewind(data: *mut Data);
        pub fn pn_data_next(data: *mut Data) -> bool;
        pub fn pn_data_enter(data: *mut Data) -> bool;
        pub fn pn_data_exit(data: *mut Data) -> bool;
        pub fn pn_data_type(data: *mut Data) -> c_int;
        pub fn pn_data_encode(data: *mut Data, bytes: *mut u8, size: usize) -> isize;
        pub fn pn_data_decode(data: *mut Data, bytes: *const u8, size: usize) -> isize;

        pub fn pn_data_put_list(data: *mut Data) -> c_int;
        pub fn pn_data_put_map(data: *mut Data) -> c_int;
        pub fn pn_data_put_array(data: *mut Data, described: bool, of: c_int) -> c_int;
        pub fn pn_data_put_described(data: *mut Data) -> c_int;
        pub fn pn_data_put_null(data: *mut Data) -> c_int;
        pub fn pn_data_put_bool(data: *mut Data, value: bool) -> c_int;
        pub fn pn_data_put_ubyte(data: *mut Data, value: u8) -> c_int;
        pub fn pn_data_put_byte(data: *mut Data, value: i8) -> c_int;
        pub fn pn_data_put_ushort(data: *mut Data, value: u16) -> c_int;
        pub fn pn_data_put_short(data: *mut Data, value: i16) -> c_int;
        pub fn pn_data_put_uint(data: *mut Data, value: u32) -> c_int;
        pub fn pn_data_put_int(data: *mut Data, value: i32) -> c_int;
        pub fn pn_data_put_char(data: *mut Data, value: u32) -> c_int;
        pub fn pn_data_put_ulong(data: *mut Data, value: u64) -> c_int;
        pub fn pn_data_put_long(data: *mut Data, value: i64) -> c_int;
        pub fn pn_data_put_timestamp(data: *mut Data, value: i64) -> c_int;
        pub fn pn_data_put_float(data: *mut Data, value: f32) -> c_int;
        pub fn pn_data_put_double(data: *mut Data, value: f64) -> c_int;
        pub fn pn_data_put_decimal32(data: *mut Data, value: u32) -> c_int;
        pub fn pn_data_put_decimal64(data: *mut Data, value: u64) -> c_int;
        pub fn pn_data_put_decimal128(data: *mut Data, value: Sixteen) -> c_int;
        pub fn pn_data_put_uuid(data: *mut Data, value: Sixteen) -> c_int;
        pub fn pn_data_put_binary(data: *mut Data, value: Bytes) -> c_int;
        pub fn pn_data_put_string(data: *mut Data, value: Bytes) -> c_int;
        pub fn pn_data_put_symbol(data: *mut Data, value: Bytes) -> c_int;

        pub fn pn_data_get_list(data: *mut Data) -> usize;
        pub fn pn_data_get_map(data: *mut Data) -> usize;
        pub fn pn_data_get_array(data: *mut Data) -> usize;
        pub fn pn_data_is_array_described(data: *mut Data) -> bool;
        pub fn pn_data_get_array_type(data: *mut Data) -> c_int;
        // the byte that was read, which need not be a Rust `bool`
        pub fn pn_data_get_bool(data: *mut Data) -> u8;
        pub fn pn_data_get_ubyte(data: *mut Data) -> u8;
        pub fn pn_data_get_byte(data: *mut Data) -> i8;
        pub fn pn_data_get_ushort(data: *mut Data) -> u16;
        pub fn pn_data_get_short(data: *mut Data) -> i16;
        pub fn pn_data_get_uint(data: *mut Data) -> u32;
        pub fn pn_data_get_int(data: *mut Data) -> i32;
        pub fn pn_data_get_char(data: *mut Data) -> u32;
        pub fn pn_data_get_ulong(data: *mut Data) -> u64;
        pub fn pn_data_get_long(data: *mut Data) -> i64;
        pub fn pn_data_get_timestamp(data: *mut Data) -> i64;
        pub fn pn_data_get_float(data: *mut Data) -> f32;
        pub fn pn_data_get_double(data: *mut Data) -> f64;
        pub fn pn_data_get_decimal32(data: *mut Data) -> u32;
        pub fn pn_data_get_decimal64(data: *mut Data) -> u64;
        pub fn pn_data_get_decimal128(data: *mut Data) -> Sixteen;
        pub fn pn_data_get_uuid(data: *mut Data) -> Sixteen;
        pub fn pn_data_get_binary(data: *mut Data) -> Bytes;
        pub fn pn_data_get_string(data: *mut Data) -> Bytes;
        pub fn pn_data_get_symbol(data: *mut Data) -> Bytes;
    }
}
