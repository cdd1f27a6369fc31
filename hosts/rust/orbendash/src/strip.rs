//! Stripping, at once or in two steps.

use crate::raw::{self, number};
use crate::{limit, List, Refusal};

/// Which fields of a block go: what [`mark`] gives and [`copy`] asks for.
#[must_use]
#[derive(Clone, Debug, PartialEq, Eq, Hash)]
pub struct Marks {
    bytes: Vec<u8>,
}

impl Marks {
    /// A byte for each field, in the order of the block: 1 if it goes, else 0.
    #[must_use]
    pub fn as_bytes(&self) -> &[u8] {
        &self.bytes
    }

    /// Whether the field with this number goes, counted from 0; false where there is none.
    #[must_use]
    pub fn goes(&self, field: usize) -> bool {
        self.bytes.get(field) == Some(&1)
    }

    /// The numbers of the fields that go, counted from 0, in order.
    pub fn going(&self) -> impl Iterator<Item = usize> + '_ {
        (0..self.bytes.len()).filter(|&field| self.goes(field))
    }
}

/// The first step of stripping, which removes nothing: gives which fields of a header block go, so
/// that they can be logged while they are there. They are the Authentication-Results fields whose
/// identifier is on our own list or can't be read. The second step is [`copy`].
///
/// # Errors
///
/// As [`strip`].
///
/// ```
/// let own = orbendash::List::of(["example.com"])?;
/// let block = b"Authentication-Results: Example.COM; none\r\nFrom: a@b.example\r\n";
/// let marks = orbendash::mark(block, &own)?;
/// assert_eq!(marks.as_bytes(), [1, 0]);
/// for (number, field) in orbendash::fields(block).enumerate() {
///     if marks.goes(number) {
///         eprintln!("field {number} goes: {}", field?.body.escape_ascii());
///     }
/// }
/// let stripped = orbendash::copy(block, &own, marks.as_bytes())?;
/// assert_eq!(stripped.block, b"From: a@b.example\r\n");
/// # Ok::<(), orbendash::Refusal>(())
/// ```
pub fn mark(block: &[u8], list: &List) -> Result<Marks, Refusal> {
    let mut bytes = vec![0; limit::FIELDS];
    let answer = raw::mark(block, list.as_bytes(), &mut bytes);
    match answer.number {
        number::DONE => {
            bytes.truncate(answer.written);
            Ok(Marks { bytes })
        }
        number => Err(Refusal::of(number, answer.place)),
    }
}

/// The second step of stripping: gives the block without the fields that go; every other byte
/// stays, in order. The marks are what [`mark`] gave for this block and list ([`Marks::as_bytes`]).
/// They aren't trusted: the call finds them again, and refuses any others, so that nothing is
/// removed by marks of another block or list.
///
/// # Errors
///
/// As [`strip`], and then [`OtherMarks`](Refusal::OtherMarks).
///
/// ```
/// use orbendash::Refusal;
///
/// let own = orbendash::List::of(["example.com"])?;
/// let marks = orbendash::mark(b"From: a@b.example\r\n", &own)?;
/// let block = b"Authentication-Results: example.com\r\nFrom: a@b.example\r\n";
/// assert_eq!(orbendash::copy(block, &own, marks.as_bytes()), Err(Refusal::OtherMarks));
/// # Ok::<(), Refusal>(())
/// ```
pub fn copy(block: &[u8], list: &List, marks: &[u8]) -> Result<Stripped, Refusal> {
    stripped(block, |out| raw::copy(block, list.as_bytes(), marks, out))
}

/// A block without the fields that were removed.
#[must_use]
#[derive(Clone, Debug, PartialEq, Eq, Hash)]
pub struct Stripped {
    /// What is left of the block: what may be delivered.
    pub block: Vec<u8>,
    /// How many bytes were removed.
    pub removed: usize,
    /// How many fields were removed.
    pub fields: usize,
}

/// What stripping into a lent buffer did.
#[must_use]
#[derive(Clone, Copy, Debug, PartialEq, Eq, Hash)]
pub struct Counts {
    /// How many bytes were kept, and written.
    pub kept: usize,
    /// How many bytes were removed.
    pub removed: usize,
    /// How many fields were removed.
    pub fields: usize,
}

/// Gives a header block without the Authentication-Results fields whose identifier is on our own
/// list or can't be read; every other byte stays, in order.
///
/// # Errors
///
/// The first that applies of [`TooLong`](Refusal::TooLong), and in one walk from the front
/// [`BadLineEnd`](Refusal::BadLineEnd), [`BadLine`](Refusal::BadLine) and
/// [`TooManyFields`](Refusal::TooManyFields).
///
/// ```
/// use orbendash::{strip, List, Refusal};
///
/// let own = List::of(["example.com"])?;
/// let block = b"Authentication-Results : Example.COM; none\r\nFrom: a@b.example\r\n";
/// let stripped = strip(block, &own)?;
/// assert_eq!(stripped.block, b"From: a@b.example\r\n");
/// assert_eq!((stripped.removed, stripped.fields), (44, 1));
/// assert_eq!(strip(b"\r\n", &own), Err(Refusal::BadLine { place: 0 }));
/// # Ok::<(), Refusal>(())
/// ```
pub fn strip(block: &[u8], list: &List) -> Result<Stripped, Refusal> {
    stripped(block, |out| raw::strip(block, list.as_bytes(), out))
}

/// What a call leaves in a buffer that is long enough for it.
fn stripped(
    block: &[u8],
    call: impl FnOnce(&mut [u8]) -> raw::StripAnswer,
) -> Result<Stripped, Refusal> {
    // Nothing longer than the limit is ever written.
    let mut kept = vec![0; block.len().min(limit::BYTES)];
    let counts = counted(call(&mut kept))?;
    kept.truncate(counts.kept);
    Ok(Stripped {
        block: kept,
        removed: counts.removed,
        fields: counts.fields,
    })
}

/// What was counted, or the refusal.
fn counted(answer: raw::StripAnswer) -> Result<Counts, Refusal> {
    match answer.number {
        number::DONE => Ok(Counts {
            kept: answer.kept,
            removed: answer.removed,
            fields: answer.fields,
        }),
        number => Err(Refusal::of(number, answer.place)),
    }
}

/// Strips into a lent buffer; one as long as the block is always long enough. Its bytes past those
/// written stay as they were.
///
/// # Errors
///
/// As [`strip`], and at last [`NoRoom`](Refusal::NoRoom). Then nothing was written.
///
/// ```
/// let own = orbendash::List::of(["example.com"])?;
/// let block = b"Authentication-Results: /\r\nFrom: a@b.example\r\n";
/// let mut out = [0; 100];
/// let counts = orbendash::strip_into(block, &own, &mut out)?;
/// assert_eq!(&out[..counts.kept], b"From: a@b.example\r\n");
/// # Ok::<(), orbendash::Refusal>(())
/// ```
pub fn strip_into(block: &[u8], list: &List, out: &mut [u8]) -> Result<Counts, Refusal> {
    counted(raw::strip(block, list.as_bytes(), out))
}

/// The second step, [`copy`], into a lent buffer; one as long as the block is always long enough.
/// Its bytes past those written stay as they were.
///
/// # Errors
///
/// As [`copy`], and at last [`NoRoom`](Refusal::NoRoom). Then nothing was written.
///
/// ```
/// let own = orbendash::List::of(["example.com"])?;
/// let block = b"Authentication-Results: /\r\nFrom: a@b.example\r\n";
/// let marks = orbendash::mark(block, &own)?;
/// let mut out = [0; 100];
/// let counts = orbendash::copy_into(block, &own, marks.as_bytes(), &mut out)?;
/// assert_eq!(&out[..counts.kept], b"From: a@b.example\r\n");
/// # Ok::<(), orbendash::Refusal>(())
/// ```
pub fn copy_into(
    block: &[u8],
    list: &List,
    marks: &[u8],
    out: &mut [u8],
) -> Result<Counts, Refusal> {
    counted(raw::copy(block, list.as_bytes(), marks, out))
}
