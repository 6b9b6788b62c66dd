//! The ten functions of the library as they are in C. `bindings/c/afsungar.h` has what a caller must know.
//!
//! They are five in two forms: one that takes the level limit first, and a plain one, which is the same at 16.
//!
//! Each returns the number of the refusal, or 0 for success. On success `*place` is 0; on a refusal every length and every
//! count is 0, and all lent memory is as it was.
//!
//! # Safety
//!
//! It is the same for all ten: every pointer is non-null and aligned, every `*const` is readable and every `*mut` is
//! writable for the length beside it (for one `u64` where there is none), and what is behind a `*mut` overlaps nothing else
//! that the call is lent.

extern "C" {
    /// The length of what [`afsungar_write`] writes.
    pub fn afsungar_size(
        words: *const u64,
        words_len: usize,
        text: *const u8,
        text_len: usize,
        place: *mut u64,
        length: *mut u64,
    ) -> u64;

    /// The length of what [`afsungar_write_within`] writes.
    pub fn afsungar_size_within(
        limit: u64,
        words: *const u64,
        words_len: usize,
        text: *const u8,
        text_len: usize,
        place: *mut u64,
        length: *mut u64,
    ) -> u64;

    /// Writes a table to the start of `out`.
    pub fn afsungar_write(
        words: *const u64,
        words_len: usize,
        text: *const u8,
        text_len: usize,
        out: *mut u8,
        out_len: usize,
        place: *mut u64,
        length: *mut u64,
    ) -> u64;

    /// Writes a table to the start of `out`, within a level limit.
    pub fn afsungar_write_within(
        limit: u64,
        words: *const u64,
        words_len: usize,
        text: *const u8,
        text_len: usize,
        out: *mut u8,
        out_len: usize,
        place: *mut u64,
        length: *mut u64,
    ) -> u64;

    /// The extent of the value at the start of `bytes`.
    pub fn afsungar_measure(
        bytes: *const u8,
        len: usize,
        place: *mut u64,
        length: *mut u64,
        rows: *mut u64,
        text: *mut u64,
    ) -> u64;

    /// The extent of the value at the start of `bytes`, within a level limit.
    pub fn afsungar_measure_within(
        limit: u64,
        bytes: *const u8,
        len: usize,
        place: *mut u64,
        length: *mut u64,
        rows: *mut u64,
        text: *mut u64,
    ) -> u64;

    /// Reads the value at the start of `bytes` into `words` and `text`.
    pub fn afsungar_read(
        bytes: *const u8,
        len: usize,
        words: *mut u64,
        words_len: usize,
        text: *mut u8,
        text_len: usize,
        place: *mut u64,
        length: *mut u64,
        rows: *mut u64,
        text_used: *mut u64,
    ) -> u64;

    /// Reads the value at the start of `bytes` into `words` and `text`, within a level limit.
    pub fn afsungar_read_within(
        limit: u64,
        bytes: *const u8,
        len: usize,
        words: *mut u64,
        words_len: usize,
        text: *mut u8,
        text_len: usize,
        place: *mut u64,
        length: *mut u64,
        rows: *mut u64,
        text_used: *mut u64,
    ) -> u64;

    /// A step of the walker. 0 and length 0: done. 0 and a length: a value, and `*at` has moved behind it.
    pub fn afsungar_step(bytes: *const u8, len: usize, at: *mut u64, place: *mut u64, length: *mut u64) -> u64;

    /// A step of the walker within a level limit. One that is 0 or above 32 is refused at the end too.
    pub fn afsungar_step_within(
        limit: u64,
        bytes: *const u8,
        len: usize,
        at: *mut u64,
        place: *mut u64,
        length: *mut u64,
    ) -> u64;
}
