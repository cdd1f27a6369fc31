//! Our own list of identifiers, and whose a field is.

use crate::raw::{self, number};
use crate::Refusal;

/// Our own identifiers, checked once: at most 64, each of 1 to 255 bytes, visible ASCII or UTF-8.
///
/// They compare without regard to ASCII case, and a label in the spelling `xn--` equals its decoded
/// form. An empty list is good: then every identifier that can be read is another's.
///
/// ```
/// use orbendash::List;
///
/// let own = List::of(["mx.example.com", "bücher.example"])?;
/// assert_eq!(own, List::parse("mx.example.com\nbücher.example\n")?);
/// assert_eq!(own.entries().count(), 2);
/// # Ok::<(), orbendash::Refusal>(())
/// ```
#[derive(Clone, Debug, Default, PartialEq, Eq, Hash)]
pub struct List {
    lines: Vec<u8>,
}

impl List {
    /// A list from its lines, each ended by LF, as a file has them.
    ///
    /// # Errors
    ///
    /// [`Refusal::BadList`], with the place of the first bad entry.
    pub fn parse(lines: impl Into<Vec<u8>>) -> Result<List, Refusal> {
        let lines = lines.into();
        // An empty body has no identifier; what the call answers here is whether the list is good.
        let answer = raw::whose(&lines, b"");
        match answer.number {
            number::DONE => Ok(List { lines }),
            number => Err(Refusal::of(number, answer.place)),
        }
    }

    /// A list of these identifiers.
    ///
    /// # Errors
    ///
    /// [`Refusal::BadList`], with the place of the first bad entry, where each is followed by one
    /// byte. An entry with an LF inside is bad too.
    ///
    /// ```
    /// use orbendash::{List, Refusal};
    ///
    /// let refused = Err(Refusal::BadList { place: 2 });
    /// assert_eq!(List::of(["a", ""]), refused);
    /// assert_eq!(List::of(["a", "b\nc"]), refused);
    /// ```
    pub fn of<I>(entries: I) -> Result<List, Refusal>
    where
        I: IntoIterator,
        I::Item: AsRef<[u8]>,
    {
        let mut lines = Vec::new();
        for entry in entries {
            let entry = entry.as_ref();
            let place = lines.len();
            lines.extend_from_slice(entry);
            lines.push(b'\n');
            // An LF would make two entries of it. What stands before may be bad already.
            if entry.contains(&b'\n') {
                List::parse(&lines[..place])?;
                return Err(Refusal::BadList { place });
            }
        }
        List::parse(lines)
    }

    /// The identifiers.
    pub fn entries(&self) -> impl Iterator<Item = &[u8]> {
        let lines = self.lines.strip_suffix(b"\n");
        lines
            .into_iter()
            .flat_map(|lines| lines.split(|&b| b == b'\n'))
    }

    /// Its lines, each ended by LF.
    #[must_use]
    pub fn as_bytes(&self) -> &[u8] {
        &self.lines
    }
}

/// Whose an Authentication-Results field is.
#[must_use]
#[derive(Clone, Copy, Debug, PartialEq, Eq, Hash)]
pub enum Whose {
    /// Its identifier is on our own list: stripping removes the field.
    Ours,
    /// It is not: stripping keeps the field.
    Others,
    /// It can't be read: stripping removes the field.
    Unreadable,
}

/// Says whose an Authentication-Results field is, by its body: from after the colon to before the
/// last CRLF. Nothing is read behind the identifier.
///
/// # Errors
///
/// [`Refusal::TooLong`] where the body has more than 65,536 bytes.
///
/// ```
/// use orbendash::{whose, List, Whose};
///
/// let own = List::of(["example.com"])?;
/// assert_eq!(whose(&own, b" Example.COM; none")?, Whose::Ours);
/// assert_eq!(whose(&own, b" mx.example.net; none")?, Whose::Others);
/// assert_eq!(whose(&own, b" ; none")?, Whose::Unreadable);
/// # Ok::<(), orbendash::Refusal>(())
/// ```
pub fn whose(list: &List, body: &[u8]) -> Result<Whose, Refusal> {
    let answer = raw::whose(&list.lines, body);
    match (answer.number, answer.whose) {
        (number::DONE, raw::whose::OURS) => Ok(Whose::Ours),
        (number::DONE, raw::whose::OTHERS) => Ok(Whose::Others),
        (number::DONE, _) => Ok(Whose::Unreadable),
        (number, _) => Err(Refusal::of(number, answer.place)),
    }
}
