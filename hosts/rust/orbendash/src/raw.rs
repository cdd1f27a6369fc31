//! The calls as the C header has them: a number, a place and counts, in lent buffers.
//!
//! They are safe, and answer what the library answers, with nothing put between: any bytes may be
//! handed in, and nothing is allocated. Only [`strip`] is no call of the library: it makes two of
//! them, [`mark`] and [`copy`]. [`strip`](crate::strip()) and the others at the top of this package
//! say the same with enums. Each answer has a [`number`]; on a refusal, that is on every number but
//! 0 and 8, nothing was written.
//!
//! ```
//! use orbendash::raw;
//!
//! let block = b"Authentication-Results : Example.COM; none\r\nFrom: a@b.example\r\n";
//! let mut out = vec![0; block.len()];
//! let answer = raw::strip(block, b"example.com\n", &mut out);
//! assert_eq!((answer.number, answer.fields), (0, 1));
//! assert_eq!(&out[..answer.kept], b"From: a@b.example\r\n");
//! ```

mod answer;

pub use answer::{
    number, outcome, reason, status, whose, FieldAnswer, JudgeAnswer, MarkAnswer, ReportAnswer,
    StripAnswer, WhoseAnswer, WriteAnswer,
};

/// The functions of the static library. A slice is a pointer and a length.
mod library {
    use super::{
        FieldAnswer, JudgeAnswer, MarkAnswer, ReportAnswer, StripAnswer, WhoseAnswer, WriteAnswer,
    };

    extern "C" {
        pub fn orbendash_mark(
            block: *const u8,
            block_length: usize,
            list: *const u8,
            list_length: usize,
            out: *mut u8,
            out_length: usize,
        ) -> MarkAnswer;
        pub fn orbendash_copy(
            block: *const u8,
            block_length: usize,
            list: *const u8,
            list_length: usize,
            marks: *const u8,
            marks_length: usize,
            out: *mut u8,
            out_length: usize,
        ) -> StripAnswer;
        pub fn orbendash_report(
            body: *const u8,
            body_length: usize,
            out: *mut u8,
            out_length: usize,
        ) -> ReportAnswer;
        pub fn orbendash_write(
            lines: *const u8,
            lines_length: usize,
            out: *mut u8,
            out_length: usize,
        ) -> WriteAnswer;
        pub fn orbendash_judge(
            block: *const u8,
            block_length: usize,
            verdicts: *const u8,
            verdicts_length: usize,
        ) -> JudgeAnswer;
        pub fn orbendash_next_field(
            block: *const u8,
            block_length: usize,
            place: usize,
        ) -> FieldAnswer;
        pub fn orbendash_whose(
            list: *const u8,
            list_length: usize,
            body: *const u8,
            body_length: usize,
        ) -> WhoseAnswer;
        pub fn orbendash_version() -> u32;
    }
}

/// The first step of stripping, which removes nothing: writes a byte for each field of a header
/// block to `out`, in order, 1 if the field goes, else 0. It goes if it is named
/// Authentication-Results and its identifier is on our own list or can't be read.
///
/// `block` is a header block without the empty line after it. `list` holds our identifiers, each
/// ended by LF: at most 64, each of 1 to 255 bytes, which are 33 to 126 or UTF-8 from 128 up. A
/// room of [`limit::FIELDS`](crate::limit::FIELDS) bytes is always enough.
///
/// Identifiers are compared without regard to ASCII case, and each label that starts with `xn--`
/// by what Punycode (RFC 3492) decodes it to, if it does: `xn--bcher-kva.example` and
/// `bücher.example` are equal.
///
/// The first of these that applies is the number: 1 the block is over 65,536 bytes; 5 a bad list;
/// 2, 3 or 4 a bad block; 6 the room is too small, with the bytes needed as place; 0 done.
///
/// ```
/// use orbendash::raw;
///
/// let own = b"example.com\n";
/// let block = b"From: a@b.example\r\nAuthentication-Results: Example.COM; none\r\n";
/// let mut marks = [0; orbendash::limit::FIELDS];
/// let marked = raw::mark(block, own, &mut marks);
/// let marks = &marks[..marked.written];
/// assert_eq!((marked.number, marks), (0, &[0, 1][..]));
/// let mut out = vec![0; block.len()];
/// let copied = raw::copy(block, own, marks, &mut out);
/// assert_eq!((copied.number, copied.kept, copied.fields), (0, 19, 1));
/// assert_eq!(raw::copy(block, b"", marks, &mut out).number, 13);
/// ```
pub fn mark(block: &[u8], list: &[u8], out: &mut [u8]) -> MarkAnswer {
    // SAFETY: the pointers are those of live slices with these lengths, `out` is borrowed
    // mutably and so overlaps neither input, and the library keeps none of them.
    unsafe {
        library::orbendash_mark(
            block.as_ptr(),
            block.len(),
            list.as_ptr(),
            list.len(),
            out.as_mut_ptr(),
            out.len(),
        )
    }
}

/// The second step: copies the block to `out` without the fields that go; every other byte is kept,
/// in order. `marks` are the bytes that [`mark`] wrote for this block and list. They aren't
/// trusted: the call finds them again, and refuses any others. A room of `block.len()` is always
/// enough.
///
/// The first of these that applies is the number: 1 the block is over 65,536 bytes; 5 a bad list;
/// 2, 3 or 4 a bad block; 13 other marks; 6 the room is too small, with the bytes needed as place;
/// 0 done.
pub fn copy(block: &[u8], list: &[u8], marks: &[u8], out: &mut [u8]) -> StripAnswer {
    // SAFETY: as in `mark`.
    unsafe {
        library::orbendash_copy(
            block.as_ptr(),
            block.len(),
            list.as_ptr(),
            list.len(),
            marks.as_ptr(),
            marks.len(),
            out.as_mut_ptr(),
            out.len(),
        )
    }
}

/// Both steps, [`mark`] and then [`copy`]: copies a header block to `out` without the fields that
/// go. A room of `block.len()` is always enough.
///
/// The first of these that applies is the number: 1 the block is over 65,536 bytes; 5 a bad list;
/// 2, 3 or 4 a bad block; 6 the room is too small, with the bytes needed as place; 0 done.
pub fn strip(block: &[u8], list: &[u8], out: &mut [u8]) -> StripAnswer {
    let mut marks = [0; crate::limit::FIELDS];
    let answer = mark(block, list, &mut marks);
    if answer.number != number::DONE {
        return StripAnswer {
            number: answer.number,
            place: answer.place,
            ..StripAnswer::default()
        };
    }
    copy(block, list, &marks[..answer.written], out)
}

/// Writes the report of one Authentication-Results body to `out`.
///
/// `body` runs from after the field's colon to before its last CRLF. The report has lines ended
/// by LF with columns parted by tabs: `id`, text; `none`; for each result that isn't ignored `m`,
/// method, result, then `r`, text if there is a reason, and `p`, ptype, property, kind (t token,
/// q quoted, m mailbox, a at-domain), text for each property. In texts the bytes outside 33 to
/// 126 and the percent sign are % and two hex digits. A room of
/// [`limit::report_room`](crate::limit::report_room) is always enough.
///
/// The first of these that applies is the number: 1 the body is over 65,536 bytes; 7 the
/// identifier can't be read; 9 the body isn't well-formed; 6 the room is too small, with the
/// bytes needed as place; 8 the header version isn't 1, and the report is `id`, text and `v`,
/// version; 0 done. After a header version other than 1 nothing is read.
pub fn report(body: &[u8], out: &mut [u8]) -> ReportAnswer {
    // SAFETY: as in `mark`.
    unsafe { library::orbendash_report(body.as_ptr(), body.len(), out.as_mut_ptr(), out.len()) }
}

/// Writes the body of an Authentication-Results field of our own to `out`, from report lines.
///
/// `lines` are as [`report`] writes them, each ended by LF: `id`, then `none` alone, or one or more
/// `m`, each followed by an `r` if the result has a reason and by a `p` for each property. Texts
/// are coded as there, keywords are in lower case, and a `v` line is none of them. The lines may be
/// of any length.
///
/// The body starts with a space, and has no other space or folding than one before each reason and
/// property and one after each ";". Identifier, reason and local part are written bare where they
/// can be, else as a quoted string. Its report is these very lines, and no result of it is ignored.
/// A field is the name, a colon, the body and CRLF. A room of [`limit::BYTES`](crate::limit::BYTES)
/// is always enough.
///
/// The first of these that applies is the number: 11 no well-formed body without ignored results
/// has that report, with the line as place; 1 the body would be over 65,536 bytes; 6 the room is
/// too small, with the bytes needed as place; 0 done.
///
/// ```
/// let lines = b"id\tmx.example.com\nm\tspf\tpass\nr\tknown%20host\np\tsmtp\tmailfrom\tt\ta.b\n";
/// let mut out = vec![0; orbendash::limit::BYTES];
/// let answer = orbendash::raw::write(lines, &mut out);
/// assert_eq!(answer.number, 0);
/// assert_eq!(
///     &out[..answer.written],
///     b" mx.example.com; spf=pass reason=\"known host\" smtp.mailfrom=a.b"
/// );
/// let refused = orbendash::raw::write(b"id\tmx.example.com\nm\tspf\tmaybe\n", &mut out);
/// assert_eq!((refused.number, refused.place), (11, 2));
/// ```
pub fn write(lines: &[u8], out: &mut [u8]) -> WriteAnswer {
    // SAFETY: as in `mark`.
    unsafe { library::orbendash_write(lines.as_ptr(), lines.len(), out.as_mut_ptr(), out.len()) }
}

/// Judges the ARC chain of a header block.
///
/// `verdicts` has one byte for each instance from 1: 2 if its seal is good, plus 1 if its message
/// signature is good. It is read only if the chain is built, and then the chain has as many
/// instances as the block has ARC-Seal fields.
///
/// The first of these that applies is the number: 1 the block is over 65,536 bytes; 2, 3 or 4 a
/// bad block; 10 the chain is built, and the verdicts aren't one byte of 0 to 3 for each of its
/// instances; 0 done.
pub fn judge(block: &[u8], verdicts: &[u8]) -> JudgeAnswer {
    // SAFETY: as in `mark`; nothing is written.
    unsafe {
        library::orbendash_judge(
            block.as_ptr(),
            block.len(),
            verdicts.as_ptr(),
            verdicts.len(),
        )
    }
}

/// Gives the first field of a header block that starts at `place` or later. Any place will do.
///
/// Number 0 with `found` 1: a field. 0 with `found` 0: there are no more, and the block is sound.
/// 1: the block is over 65,536 bytes. 2, 3 or 4: there are no more before the bad line.
pub fn next_field(block: &[u8], place: usize) -> FieldAnswer {
    // SAFETY: as in `mark`; nothing is written.
    unsafe { library::orbendash_next_field(block.as_ptr(), block.len(), place) }
}

/// Says whose an Authentication-Results field is, by our own list and the field's body: see
/// [`whose`](mod@whose).
///
/// The first of these that applies is the number: 1 the body is over 65,536 bytes; 5 a bad list;
/// 0 done.
pub fn whose(list: &[u8], body: &[u8]) -> WhoseAnswer {
    // SAFETY: as in `mark`; nothing is written.
    unsafe { library::orbendash_whose(list.as_ptr(), list.len(), body.as_ptr(), body.len()) }
}

/// The version of the library that was linked: 10,000 for each major, 100 for each minor version
/// and 1 for each patch.
#[must_use]
pub fn version() -> u32 {
    // SAFETY: it takes nothing and reads nothing.
    unsafe { library::orbendash_version() }
}
