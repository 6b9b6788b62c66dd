//! The ten calls into the library: the only unsafe code.
//!
//! Each function here is one that C has in two forms. It calls the plain one where no level limit is named, and otherwise
//! the one that takes it.
//!
//! SAFETY, for all ten: each pointer and length are those of a slice or a reference that lives through the call, so no
//! pointer is null or unaligned; what is lent to be filled is lent as `&mut`, so it overlaps nothing. The library keeps no
//! pointer and no state.
use crate::{raw, Extent, Reason, Refusal, Rows};

/// The level limit that a call names, if it names one.
pub(crate) type Limit = Option<u64>;

/// Calls one form or the other with all that is lent.
macro_rules! call {
    ($limit:expr, $plain:ident, $within:ident, $($lent:expr),* $(,)?) => {
        match $limit {
            // SAFETY: as above.
            None => unsafe { raw::$plain($($lent),*) },
            // SAFETY: as above.
            Some(limit) => unsafe { raw::$within(limit, $($lent),*) },
        }
    };
}

pub(crate) fn size(limit: Limit, words: &[u64], text: &[u8]) -> Result<usize, Refusal> {
    let (mut place, mut length) = (0, 0);
    let number = call!(
        limit,
        afsungar_size,
        afsungar_size_within,
        words.as_ptr(),
        words.len(),
        text.as_ptr(),
        text.len(),
        &mut place,
        &mut length,
    );
    check(number, || not_written(number, place, words, text))?;
    Ok(length as usize)
}

pub(crate) fn write(limit: Limit, words: &[u64], text: &[u8], out: &mut [u8]) -> Result<usize, Refusal> {
    let (mut place, mut length) = (0, 0);
    let number = call!(
        limit,
        afsungar_write,
        afsungar_write_within,
        words.as_ptr(),
        words.len(),
        text.as_ptr(),
        text.len(),
        out.as_mut_ptr(),
        out.len(),
        &mut place,
        &mut length,
    );
    check(number, || not_written(number, place, words, text))?;
    Ok(length as usize)
}

pub(crate) fn measure(limit: Limit, bytes: &[u8]) -> Result<Extent, Refusal> {
    let (mut place, mut length, mut rows, mut text) = (0, 0, 0, 0);
    let number = call!(
        limit,
        afsungar_measure,
        afsungar_measure_within,
        bytes.as_ptr(),
        bytes.len(),
        &mut place,
        &mut length,
        &mut rows,
        &mut text,
    );
    check(number, || Refusal::reading(reason(number), place))?;
    Ok(Extent { length: length as usize, rows: rows as usize, text: text as usize })
}

pub(crate) fn read(limit: Limit, bytes: &[u8], words: &mut [u64], text: &mut [u8]) -> Result<Extent, Refusal> {
    let (mut place, mut length, mut rows, mut used) = (0, 0, 0, 0);
    let number = call!(
        limit,
        afsungar_read,
        afsungar_read_within,
        bytes.as_ptr(),
        bytes.len(),
        words.as_mut_ptr(),
        words.len(),
        text.as_mut_ptr(),
        text.len(),
        &mut place,
        &mut length,
        &mut rows,
        &mut used,
    );
    check(number, || Refusal::reading(reason(number), place))?;
    Ok(Extent { length: length as usize, rows: rows as usize, text: used as usize })
}

pub(crate) fn step(limit: Limit, bytes: &[u8], at: &mut u64) -> Result<usize, Refusal> {
    let (mut place, mut length) = (0, 0);
    let number =
        call!(limit, afsungar_step, afsungar_step_within, bytes.as_ptr(), bytes.len(), at, &mut place, &mut length);
    check(number, || Refusal::reading(reason(number), place))?;
    Ok(length as usize)
}

fn check(number: u64, refusal: impl FnOnce() -> Refusal) -> Result<(), Refusal> {
    match number {
        0 => Ok(()),
        _ => Err(refusal()),
    }
}

/// Why a table is not written. The place of a 6 is a byte of the text where that is bad, and else a row, and the number does
/// not tell which.
///
/// Up to where it is refused all texts are there and good. So if the place is a byte, its row says the same by itself; and if
/// it is a row, then the text in which there happens to be a byte of this number is good, or is not all there.
#[cold]
fn not_written(number: u64, place: u64, words: &[u64], text: &[u8]) -> Refusal {
    let bad_text = Refusal::bad_text(place);
    let is_bad_text = || Rows::of(words, text).with_text_byte(place).is_some_and(|row| row.value() == Err(bad_text));
    match reason(number) {
        Reason::TextAmiss if is_bad_text() => bad_text,
        reason => Refusal::writing(reason, place),
    }
}

/// The library gives no other number than 1 to 15, so the last of them is taken for all others.
fn reason(number: u64) -> Reason {
    u8::try_from(number).ok().and_then(Reason::from_number).unwrap_or(Reason::LimitOutside)
}
