//! What the library refuses, and where.

use std::error::Error;
use std::fmt;

use crate::limit;
use crate::raw::number;

/// Why a call was refused: nothing was written, and nothing may be delivered.
///
/// ```
/// use orbendash::Refusal;
///
/// let refusal = orbendash::List::of(["mx.example.com", "two words"]).unwrap_err();
/// assert_eq!(refusal, Refusal::BadList { place: 15 });
/// assert_eq!((refusal.number(), refusal.place()), (5, 15));
/// assert_eq!(refusal.to_string(), "5: a bad entry of the own list, at 15");
/// ```
#[must_use]
#[non_exhaustive]
#[derive(Clone, Copy, Debug, PartialEq, Eq, Hash)]
pub enum Refusal {
    /// 1: the block or body has more than [`limit::BYTES`] bytes, or the body to be written would.
    TooLong,
    /// 2: a CR without LF, an LF without CR, or a last line without CRLF.
    BadLineEnd {
        /// That byte; for an unfinished line the block's length.
        place: usize,
    },
    /// 3: an empty line, a first line that starts with space or tab, or a field without name or
    /// colon.
    BadLine {
        /// Where the line starts.
        place: usize,
    },
    /// 4: a field more than [`limit::FIELDS`].
    TooManyFields {
        /// Where it starts.
        place: usize,
    },
    /// 5: a bad entry of our own list: empty, over [`limit::ENTRY_BYTES`] bytes, without its LF,
    /// one more than [`limit::ENTRIES`], or with a byte that is neither 33 to 126 nor part of
    /// UTF-8.
    BadList {
        /// Where it starts in the list.
        place: usize,
    },
    /// 6: the lent output is too short.
    NoRoom {
        /// The bytes needed.
        needed: usize,
    },
    /// 7: the identifier of a body can't be read.
    BadIdentifier,
    /// 9: a body isn't well-formed.
    BadBody,
    /// 10: the verdicts are not one for each instance of a chain that is built.
    BadVerdicts,
    /// 11: no well-formed body without ignored results has these lines as its report.
    BadLines {
        /// The first line, from 1, up to which they can begin no such report; where they only stop
        /// too early, one more than their count.
        line: usize,
    },
    /// 13: the marks aren't exactly those that [`mark`](crate::mark) gives for this block and list.
    /// One of the three was changed since: ask for the marks again.
    OtherMarks,
    /// A number that this package doesn't know: the library is of a later version.
    Other {
        /// The number.
        number: u8,
        /// Its place.
        place: usize,
    },
}

impl Refusal {
    /// The refusal with this number and place, which is none of 0 and 8.
    pub(crate) fn of(number: u8, place: usize) -> Refusal {
        match number {
            number::TOO_LONG => Refusal::TooLong,
            number::BAD_LINE_END => Refusal::BadLineEnd { place },
            number::BAD_LINE => Refusal::BadLine { place },
            number::TOO_MANY_FIELDS => Refusal::TooManyFields { place },
            number::BAD_LIST => Refusal::BadList { place },
            number::NO_ROOM => Refusal::NoRoom { needed: place },
            number::BAD_IDENTIFIER => Refusal::BadIdentifier,
            number::BAD_BODY => Refusal::BadBody,
            number::BAD_VERDICTS => Refusal::BadVerdicts,
            number::BAD_LINES => Refusal::BadLines { line: place },
            number::OTHER_MARKS => Refusal::OtherMarks,
            number => Refusal::Other { number, place },
        }
    }

    /// Its number, as C and the command have it.
    #[must_use]
    pub fn number(&self) -> u8 {
        match *self {
            Refusal::TooLong => number::TOO_LONG,
            Refusal::BadLineEnd { .. } => number::BAD_LINE_END,
            Refusal::BadLine { .. } => number::BAD_LINE,
            Refusal::TooManyFields { .. } => number::TOO_MANY_FIELDS,
            Refusal::BadList { .. } => number::BAD_LIST,
            Refusal::NoRoom { .. } => number::NO_ROOM,
            Refusal::BadIdentifier => number::BAD_IDENTIFIER,
            Refusal::BadBody => number::BAD_BODY,
            Refusal::BadVerdicts => number::BAD_VERDICTS,
            Refusal::BadLines { .. } => number::BAD_LINES,
            Refusal::OtherMarks => number::OTHER_MARKS,
            Refusal::Other { number, .. } => number,
        }
    }

    /// Its place, as C and the command have it: 0 where it has none.
    #[must_use]
    pub fn place(&self) -> usize {
        match *self {
            Refusal::TooLong
            | Refusal::BadIdentifier
            | Refusal::BadBody
            | Refusal::BadVerdicts
            | Refusal::OtherMarks => 0,
            Refusal::BadLineEnd { place }
            | Refusal::BadLine { place }
            | Refusal::TooManyFields { place }
            | Refusal::BadList { place }
            | Refusal::NoRoom { needed: place }
            | Refusal::BadLines { line: place }
            | Refusal::Other { place, .. } => place,
        }
    }
}

impl fmt::Display for Refusal {
    fn fmt(&self, f: &mut fmt::Formatter<'_>) -> fmt::Result {
        write!(f, "{}: ", self.number())?;
        match *self {
            Refusal::TooLong => write!(f, "more than {} bytes", limit::BYTES),
            Refusal::BadLineEnd { place } => write!(
                f,
                "a CR without LF, an LF without CR, or a last line without CRLF, at {place}"
            ),
            Refusal::BadLine { place } => write!(
                f,
                "an empty line, a first line that starts with space or tab, or a field without \
                 name or colon, at {place}"
            ),
            Refusal::TooManyFields { place } => {
                write!(f, "more than {} fields, at {place}", limit::FIELDS)
            }
            Refusal::BadList { place } => write!(f, "a bad entry of the own list, at {place}"),
            Refusal::NoRoom { needed } => {
                write!(f, "the output is too short: {needed} bytes are needed")
            }
            Refusal::BadIdentifier => write!(f, "the identifier can't be read"),
            Refusal::BadBody => write!(f, "the body isn't well-formed"),
            Refusal::BadVerdicts => write!(f, "the verdicts don't fit the chain"),
            Refusal::BadLines { line } => write!(f, "no body has that report, at line {line}"),
            Refusal::OtherMarks => write!(f, "the marks aren't those of this block and list"),
            Refusal::Other { place, .. } => {
                write!(f, "a number of a later version of the library, at {place}")
            }
        }
    }
}

impl Error for Refusal {}
