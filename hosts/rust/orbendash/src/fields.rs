//! Walking over a header block.

use std::iter::FusedIterator;

use crate::raw::{self, number};
use crate::{limit, Refusal};

/// Walks the fields of a header block.
///
/// ```
/// let block = b"From: a@b.example\r\nSubject:\r\n hello\r\n";
/// let names: Vec<_> = orbendash::fields(block)
///     .map(|field| field.map(|field| field.name))
///     .collect::<Result<_, _>>()?;
/// assert_eq!(names, [&b"From"[..], b"Subject"]);
/// # Ok::<(), orbendash::Refusal>(())
/// ```
pub fn fields(block: &[u8]) -> Fields<'_> {
    Fields {
        block,
        place: 0,
        given: 0,
        done: false,
    }
}

/// A field of a header block.
#[derive(Clone, Copy, Debug, PartialEq, Eq, Hash)]
pub struct Field<'a> {
    /// Where the field starts in its block.
    pub start: usize,
    /// The name, without the space that may stand before the colon.
    pub name: &'a [u8],
    /// From after the colon to before the last CRLF; what [`report`](crate::report) and
    /// [`whose`](crate::whose) take.
    pub body: &'a [u8],
    /// The whole field with its last CRLF.
    pub bytes: &'a [u8],
}

impl Field<'_> {
    /// Whether the field has this name, without regard to ASCII case.
    #[must_use]
    pub fn is_named(&self, name: &str) -> bool {
        self.name.eq_ignore_ascii_case(name.as_bytes())
    }
}

/// The fields of a block in order. A bad block gives the fields before its bad line, and then
/// the refusal once. The whole walk takes time in proportion to the block.
#[must_use]
#[derive(Clone, Debug)]
pub struct Fields<'a> {
    block: &'a [u8],
    place: usize,
    given: usize,
    done: bool,
}

impl<'a> Iterator for Fields<'a> {
    type Item = Result<Field<'a>, Refusal>;

    fn next(&mut self) -> Option<Self::Item> {
        if self.done {
            return None;
        }
        // A call reads the block from its front, so it is handed only what is left: where a
        // field ends, the rest is a block by itself. It has its own count of fields, though, so
        // after the most that a block may have, the whole block is asked.
        let from = if self.given < limit::FIELDS {
            self.place
        } else {
            0
        };
        let rest = &self.block[from..];
        let answer = raw::next_field(rest, self.place - from);
        if answer.found == 1 {
            self.place = from + answer.end;
            self.given += 1;
            return Some(Ok(Field {
                start: from + answer.start,
                name: &rest[answer.start..answer.name_end],
                body: &rest[answer.body_start..answer.end - 2],
                bytes: &rest[answer.start..answer.end],
            }));
        }
        self.done = true;
        (answer.number != number::DONE)
            .then(|| Err(Refusal::of(answer.number, from + answer.place)))
    }
}

impl FusedIterator for Fields<'_> {}
