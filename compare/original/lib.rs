//! The writer of the ported crate. `compare/run` puts the crate's own files beside this one, in the build
//! folder alone; this file has what they ask of the rest of their crate.
#![allow(dead_code, private_interfaces)]

#[path = "constants.rs"]
mod __constants;
pub mod error;
mod format;
pub mod format_code;
pub mod ser;
pub mod size_ser;
mod util;

pub use error::Error;
pub use size_ser::serialized_size;

/// Two types of the crate's reader, which the writer's files name but do not use.
mod descriptor {
    #[derive(Debug, PartialEq, Eq)]
    pub enum PeekDescriptor {}
}
mod value {
    pub mod de {
        #[derive(Debug, PartialEq, Eq)]
        pub enum ValueType {}
    }
}

/// The names by which a caller tells the writer what serde has no word for.
pub mod names {
    use crate::__constants as own;

    pub const ARRAY: &str = own::ARRAY;
    pub const DECIMAL32: &str = own::DECIMAL32;
    pub const DECIMAL64: &str = own::DECIMAL64;
    pub const DECIMAL128: &str = own::DECIMAL128;
    pub const DESCRIBED: &str = own::DESCRIBED_BASIC;
    pub const DESCRIPTOR: &str = own::DESCRIPTOR;
    pub const SYMBOL: &str = own::SYMBOL;
    pub const TIMESTAMP: &str = own::TIMESTAMP;
    pub const UUID: &str = own::UUID;
}
