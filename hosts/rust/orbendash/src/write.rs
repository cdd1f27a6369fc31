//! Writing our own field.

use std::fmt::Write;

use crate::raw::{self, number};
use crate::{limit, Refusal};

/// Gives the body of an Authentication-Results field of our own, from report lines: `id`, then
/// `none` alone, or one or more `m`, each followed by an `r` if the result has a reason and by a `p`
/// for each property. They are as a [`Report`](crate::Report) has them; [`Line`](crate::Line)s print
/// so, and [`coded`] makes the texts of `id`, `r` and `p`.
///
/// A field is the name, a colon, the body and CRLF. Reporting the body gives these very lines.
///
/// # Errors
///
/// The first that applies of [`BadLines`](Refusal::BadLines) and [`TooLong`](Refusal::TooLong).
///
/// ```
/// use orbendash::{coded, write, Refusal};
///
/// let lines = format!("id\tmx.example.com\nm\tspf\tpass\nr\t{}\n", coded("a known host"));
/// assert_eq!(write(lines)?, b" mx.example.com; spf=pass reason=\"a known host\"");
/// assert_eq!(write("id\tmx.example.com\nm\tspf\tmaybe\n"), Err(Refusal::BadLines { line: 2 }));
/// # Ok::<(), Refusal>(())
/// ```
pub fn write(lines: impl AsRef<[u8]>) -> Result<Vec<u8>, Refusal> {
    let lines = lines.as_ref();
    // A first guess, which is nearly always enough; where it isn't, the call says what is needed.
    let mut body = vec![0; limit::BYTES.min(2 * lines.len().min(limit::BYTES))];
    loop {
        match write_into(lines, &mut body) {
            Ok(written) => {
                body.truncate(written);
                return Ok(body);
            }
            Err(Refusal::NoRoom { needed }) => body.resize(needed, 0),
            Err(refusal) => return Err(refusal),
        }
    }
}

/// The same into a lent buffer, and how many bytes were written; [`limit::BYTES`] are always enough.
/// Its bytes past those written stay as they were.
///
/// # Errors
///
/// As [`write()`], and at last [`NoRoom`](Refusal::NoRoom). Then nothing was written.
///
/// ```
/// let mut out = [0; 100];
/// let written = orbendash::write_into("id\tmx.example.com\nnone\n", &mut out)?;
/// assert_eq!(&out[..written], b" mx.example.com; none");
/// # Ok::<(), orbendash::Refusal>(())
/// ```
pub fn write_into(lines: impl AsRef<[u8]>, out: &mut [u8]) -> Result<usize, Refusal> {
    let answer = raw::write(lines.as_ref(), out);
    match answer.number {
        number::DONE => Ok(answer.written),
        number => Err(Refusal::of(number, answer.place)),
    }
}

/// A text as report lines have it: each byte outside of 33 to 126, and %, as % and two hex digits.
///
/// ```
/// assert_eq!(orbendash::coded("100 % bücher"), "100%20%25%20b%C3%BCcher");
/// ```
#[must_use]
pub fn coded(text: impl AsRef<[u8]>) -> String {
    let mut out = String::new();
    for &byte in text.as_ref() {
        if (33..127).contains(&byte) && byte != b'%' {
            out.push(char::from(byte));
        } else {
            // Writing to a String can't fail.
            let _ = write!(out, "%{byte:02X}");
        }
    }
    out
}
