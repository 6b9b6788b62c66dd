use core::fmt;
use core::str::FromStr;

/// A UUID: 16 bytes, in the order in which they are written out.
///
/// It is a type of its own so that 16 bytes are never taken for a binary, or a UUID for a decimal128.
///
/// ```
/// use afsungar::{Uuid, Value};
///
/// let uuid: Uuid = "6f1c0a52-3b8e-4d10-9a77-21e455d00c3f".parse()?;
/// assert_eq!(uuid.to_bytes()[..2], [0x6f, 0x1c]);
/// assert_eq!(uuid.to_string(), "6f1c0a52-3b8e-4d10-9a77-21e455d00c3f");
/// assert_eq!(Value::from(uuid), Value::Uuid(uuid));
/// # Ok::<(), afsungar::BadUuid>(())
/// ```
#[derive(Clone, Copy, Default, PartialEq, Eq, PartialOrd, Ord, Hash)]
pub struct Uuid([u8; 16]);

/// Where hyphens stand among the 36 letters of a UUID.
const HYPHENS: [usize; 4] = [8, 13, 18, 23];

impl Uuid {
    /// The UUID of these bytes.
    #[must_use]
    pub const fn from_bytes(bytes: [u8; 16]) -> Self {
        Uuid(bytes)
    }

    /// Its bytes.
    #[must_use]
    pub const fn to_bytes(self) -> [u8; 16] {
        self.0
    }

    /// Its bytes, lent.
    #[must_use]
    pub const fn as_bytes(&self) -> &[u8; 16] {
        &self.0
    }
}

impl From<[u8; 16]> for Uuid {
    fn from(bytes: [u8; 16]) -> Self {
        Uuid(bytes)
    }
}

impl From<Uuid> for [u8; 16] {
    fn from(uuid: Uuid) -> Self {
        uuid.0
    }
}

/// In groups of 8, 4, 4, 4 and 12 digits.
impl fmt::Display for Uuid {
    fn fmt(&self, f: &mut fmt::Formatter<'_>) -> fmt::Result {
        for (at, byte) in self.0.iter().enumerate() {
            let hyphen = if matches!(at, 4 | 6 | 8 | 10) { "-" } else { "" };
            write!(f, "{hyphen}{byte:02x}")?;
        }
        Ok(())
    }
}

impl fmt::Debug for Uuid {
    fn fmt(&self, f: &mut fmt::Formatter<'_>) -> fmt::Result {
        fmt::Display::fmt(self, f)
    }
}

/// Takes 32 hex digits, in groups as they are printed or without hyphens.
impl FromStr for Uuid {
    type Err = BadUuid;

    fn from_str(text: &str) -> Result<Self, BadUuid> {
        let grouped = text.len() == 36;
        if grouped && HYPHENS.iter().any(|&at| text.as_bytes()[at] != b'-') {
            return Err(BadUuid);
        }
        let mut letters = text.bytes().enumerate().filter(|(at, _)| !(grouped && HYPHENS.contains(at)));
        let mut digit = || letters.next().and_then(|(_, letter)| char::from(letter).to_digit(16)).ok_or(BadUuid);
        let mut bytes = [0; 16];
        for byte in &mut bytes {
            *byte = (16 * digit()? + digit()?) as u8;
        }
        match letters.next() {
            None => Ok(Uuid(bytes)),
            Some(_) => Err(BadUuid),
        }
    }
}

/// A text is no UUID.
#[derive(Clone, Copy, Debug, PartialEq, Eq, Hash)]
pub struct BadUuid;

impl fmt::Display for BadUuid {
    fn fmt(&self, f: &mut fmt::Formatter<'_>) -> fmt::Result {
        f.write_str("a UUID is 32 hex digits, with hyphens behind the 8th, 12th, 16th and 20th or without")
    }
}

impl core::error::Error for BadUuid {}
