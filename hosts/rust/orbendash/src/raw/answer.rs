//! What the calls answer, laid out as the C header has it (`hosts/c/orbendash.h`).
//!
//! Each answer has a `number` and a `place`. On a refusal, that is on every number but 0 and 8,
//! all else is 0 and nothing was written. Bytes of a lent buffer past those written stay as
//! they were, whatever the answer.

/// The answer numbers, and what `place` is for each.
pub mod number {
    /// Done. Place 0.
    pub const DONE: u8 = 0;
    /// The block or body is over 65,536 bytes, or the body to be written would be. Place 0.
    pub const TOO_LONG: u8 = 1;
    /// A CR without LF, an LF without CR, or a last line without CRLF. Place: that byte; for an
    /// unfinished line the block's length.
    pub const BAD_LINE_END: u8 = 2;
    /// An empty line, a first line that starts with space or tab, or a field that lacks its name
    /// or colon. Place: start of the line.
    pub const BAD_LINE: u8 = 3;
    /// A 513th field. Place: its start.
    pub const TOO_MANY_FIELDS: u8 = 4;
    /// A bad own list: an entry that is empty, over 255 bytes, without its LF or the 65th, or one
    /// with a byte that is neither 33 to 126 nor part of valid UTF-8. Place: start of the first bad
    /// entry.
    pub const BAD_LIST: u8 = 5;
    /// The lent output is shorter than the whole output. Place: the bytes needed.
    pub const NO_ROOM: u8 = 6;
    /// The identifier can't be read. One that isn't quoted may have any bytes from 128 up. Place 0.
    pub const BAD_IDENTIFIER: u8 = 7;
    /// The header version isn't 1. No refusal: the `id` and `v` lines are written. Place 0.
    pub const OTHER_VERSION: u8 = 8;
    /// The body isn't well-formed. Place 0.
    pub const BAD_BODY: u8 = 9;
    /// The verdicts don't fit the chain. Place 0.
    pub const BAD_VERDICTS: u8 = 10;
    /// No well-formed body without ignored results has these lines as its report. Place: the
    /// first line, from 1, up to which they can begin no such report; where they only stop too
    /// early, one more than their count.
    pub const BAD_LINES: u8 = 11;
    /// The marks aren't exactly the bytes that `mark` writes for this block and list. Place 0.
    pub const OTHER_MARKS: u8 = 13;
}

/// What became of the chain: the values of [`JudgeAnswer::outcome`].
pub mod outcome {
    /// The block has no ARC fields.
    pub const NONE: u8 = 0;
    /// The chain is broken; [`JudgeAnswer::reason`](super::JudgeAnswer::reason) says how.
    pub const FAILED: u8 = 1;
    /// The chain stands, with instances 1 to
    /// [`JudgeAnswer::instances`](super::JudgeAnswer::instances).
    pub const BUILT: u8 = 2;
}

/// Why a chain failed: the values of [`JudgeAnswer::reason`], which is 0 unless it failed.
/// The first that applies is given.
pub mod reason {
    /// (a) A field can't be read; `field` names the first.
    pub const UNREADABLE: u8 = 1;
    /// (b) A kind comes twice at one instance; `field` names the first that repeats one.
    pub const REPEATED: u8 = 2;
    /// (c) A kind is missing at an instance up to the highest.
    pub const MISSING: u8 = 3;
    /// (d) The seal at the highest instance has cv fail.
    pub const CV_FAIL: u8 = 4;
    /// (e) The seal at 1 isn't cv none, or a later one isn't cv pass.
    pub const CV_ORDER: u8 = 5;
}

/// The chain's status: the values of [`JudgeAnswer::status`].
pub mod status {
    /// No chain.
    pub const NONE: u8 = 0;
    /// The chain is built, all its seals are good, and so is its newest signature.
    pub const PASS: u8 = 1;
    /// Any other.
    pub const FAIL: u8 = 2;
}

/// Whose a field is: the values of [`WhoseAnswer::whose`].
pub mod whose {
    /// Its identifier is on our own list: stripping removes the field.
    pub const OURS: u8 = 0;
    /// It is not: stripping keeps the field.
    pub const OTHERS: u8 = 1;
    /// It can't be read: stripping removes the field.
    pub const UNREADABLE: u8 = 2;
}

/// The answer of `mark`: number 0 to 6.
#[must_use]
#[repr(C)]
#[derive(Clone, Copy, Debug, Default, PartialEq, Eq)]
pub struct MarkAnswer {
    /// See [`number`].
    pub number: u8,
    /// See [`number`].
    pub place: usize,
    /// Bytes written, one for each field.
    pub written: usize,
}

/// The answer of `copy`: number 0 to 6 or 13; and of `strip`, both calls in turn, which is never
/// 13.
#[must_use]
#[repr(C)]
#[derive(Clone, Copy, Debug, Default, PartialEq, Eq)]
pub struct StripAnswer {
    /// See [`number`].
    pub number: u8,
    /// See [`number`].
    pub place: usize,
    /// Bytes kept, which is also the bytes written.
    pub kept: usize,
    /// Bytes removed; with `kept` they make the block's length.
    pub removed: usize,
    /// Fields removed.
    pub fields: usize,
}

/// The answer of `report`: number 0, 1, 6, 7, 8 or 9.
#[must_use]
#[repr(C)]
#[derive(Clone, Copy, Debug, Default, PartialEq, Eq)]
pub struct ReportAnswer {
    /// See [`number`].
    pub number: u8,
    /// See [`number`].
    pub place: usize,
    /// Bytes written.
    pub written: usize,
    /// Well-formed results that the report leaves out; 0 with number 8.
    pub ignored: usize,
}

/// The answer of `write`: number 0, 1, 6 or 11.
#[must_use]
#[repr(C)]
#[derive(Clone, Copy, Debug, Default, PartialEq, Eq)]
pub struct WriteAnswer {
    /// See [`number`].
    pub number: u8,
    /// See [`number`].
    pub place: usize,
    /// Bytes written.
    pub written: usize,
}

/// The answer of `judge`: number 0 to 4 or 10.
#[must_use]
#[repr(C)]
#[derive(Clone, Copy, Debug, Default, PartialEq, Eq)]
pub struct JudgeAnswer {
    /// See [`number`].
    pub number: u8,
    /// See [`outcome`].
    pub outcome: u8,
    /// See [`reason`].
    pub reason: u8,
    /// See [`status`].
    pub status: u8,
    /// 1 if `oldest_pass` says something, which is when the status is pass; else 0.
    pub has_oldest_pass: u8,
    /// See [`number`].
    pub place: usize,
    /// For reasons 1 and 2 the field's number among all fields of the block, from 1; else 0.
    pub field: usize,
    /// The highest instance if the chain is built, else 0.
    pub instances: usize,
    /// 0 if all signatures are good, else one more than the highest instance with a bad one.
    pub oldest_pass: usize,
}

/// The answer of `next_field`: number 0 to 4.
#[must_use]
#[repr(C)]
#[derive(Clone, Copy, Debug, Default, PartialEq, Eq)]
pub struct FieldAnswer {
    /// 0 with a field, and 0 after the last field of a sound block; see [`number`].
    pub number: u8,
    /// 1 if a field is given; else 0, and so are the four offsets.
    pub found: u8,
    /// See [`number`].
    pub place: usize,
    /// Where the field starts.
    pub start: usize,
    /// Where its name ends.
    pub name_end: usize,
    /// Where its body starts: after the colon. The body ends two bytes before `end`.
    pub body_start: usize,
    /// Where the field ends, its last CRLF included.
    pub end: usize,
}

/// The answer of `whose`: number 0, 1 or 5.
#[must_use]
#[repr(C)]
#[derive(Clone, Copy, Debug, Default, PartialEq, Eq)]
pub struct WhoseAnswer {
    /// See [`number`].
    pub number: u8,
    /// See [`mod@whose`]; 0 with a refusal.
    pub whose: u8,
    /// See [`number`].
    pub place: usize,
}
