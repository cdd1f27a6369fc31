//! What an Authentication-Results body says.

use std::borrow::Cow;
use std::fmt;
use std::iter::FusedIterator;
use std::str;

use crate::raw::{self, number};
use crate::{limit, Refusal};

/// The report of a body. It prints as its lines: pure ASCII, safe for a terminal.
#[must_use]
#[derive(Clone, Debug, PartialEq, Eq, Hash)]
pub struct Report<'a> {
    text: Cow<'a, str>,
    ignored: usize,
    newer: bool,
}

/// Gives the report of one Authentication-Results body: from after the field's colon to before its
/// last CRLF.
///
/// Results of a method version other than 1, or with a method, result or ptype that isn't known, are
/// not shown but counted ([`Report::ignored`]). Of a body with a header version other than 1 only
/// that version is told ([`Report::other_version`]); it is no refusal.
///
/// # Errors
///
/// The first that applies of [`TooLong`](Refusal::TooLong), [`BadIdentifier`](Refusal::BadIdentifier)
/// and [`BadBody`](Refusal::BadBody).
///
/// ```
/// use orbendash::{report, Line, Refusal};
///
/// let said = report(b" mx.example.net; spf=pass smtp.mailfrom=a@b.example; dkim/2=pass")?;
/// assert_eq!(said.identifier().to_string(), "mx.example.net");
/// assert_eq!(said.ignored(), 1);
/// let methods: Vec<_> = said
///     .lines()
///     .filter_map(|line| match line {
///         Line::Method { method, result } => Some((method, result)),
///         _ => None,
///     })
///     .collect();
/// assert_eq!(methods, [("spf", "pass")]);
/// assert_eq!(
///     said.to_string(),
///     "id\tmx.example.net\nm\tspf\tpass\np\tsmtp\tmailfrom\tm\ta@b.example\n"
/// );
/// assert_eq!(report(b" mx.example.net; spf=pass;"), Err(Refusal::BadBody));
/// # Ok::<(), Refusal>(())
/// ```
pub fn report(body: &[u8]) -> Result<Report<'static>, Refusal> {
    let mut room = vec![0; limit::report_room(body.len().min(limit::BYTES))];
    let answer = raw::report(body, &mut room);
    room.truncate(answer.written);
    let text = String::from_utf8(room).expect("a report is of ASCII");
    Report::of(answer, Cow::Owned(text))
}

/// The same into a lent buffer; [`limit::report_room`] bytes are always enough. Its bytes past those
/// written stay as they were.
///
/// # Errors
///
/// As [`report`], and at last [`NoRoom`](Refusal::NoRoom). Then nothing was written.
///
/// ```
/// let mut out = [0; 100];
/// let said = orbendash::report_into(b"example.com; none", &mut out)?;
/// assert_eq!(said.as_str(), "id\texample.com\nnone\n");
/// # Ok::<(), orbendash::Refusal>(())
/// ```
pub fn report_into<'a>(body: &[u8], out: &'a mut [u8]) -> Result<Report<'a>, Refusal> {
    let answer = raw::report(body, out);
    let text = str::from_utf8(&out[..answer.written]).expect("a report is of ASCII");
    Report::of(answer, Cow::Borrowed(text))
}

impl<'a> Report<'a> {
    fn of(answer: raw::ReportAnswer, text: Cow<'a, str>) -> Result<Report<'a>, Refusal> {
        match answer.number {
            number::DONE | number::OTHER_VERSION => Ok(Report {
                text,
                ignored: answer.ignored,
                newer: answer.number == number::OTHER_VERSION,
            }),
            number => Err(Refusal::of(number, answer.place)),
        }
    }

    /// The identifier: who says it.
    #[must_use]
    pub fn identifier(&self) -> Text<'_> {
        match self.lines().next() {
            Some(Line::Identifier(text)) => text,
            _ => unreachable!("a report starts with its identifier"),
        }
    }

    /// The header version, without leading zeros, where it isn't 1. Then nothing else is told.
    ///
    /// ```
    /// let said = orbendash::report(b"example.com 02; whatever")?;
    /// assert_eq!(said.other_version(), Some("2"));
    /// # Ok::<(), orbendash::Refusal>(())
    /// ```
    #[must_use]
    pub fn other_version(&self) -> Option<&str> {
        self.lines().find_map(|line| match line {
            Line::Version(digits) if self.newer => Some(digits),
            _ => None,
        })
    }

    /// How many well-formed results are not shown: not known, or of a newer version.
    #[must_use]
    pub fn ignored(&self) -> usize {
        self.ignored
    }

    /// Its lines.
    pub fn lines(&self) -> Lines<'_> {
        Lines { rest: &self.text }
    }

    /// Its lines as they are written, each ended by LF: what [`write`](crate::write) takes, if there
    /// is no other version.
    #[must_use]
    pub fn as_str(&self) -> &str {
        &self.text
    }

    /// The same with a text of its own.
    pub fn into_owned(self) -> Report<'static> {
        Report {
            text: Cow::Owned(self.text.into_owned()),
            ..self
        }
    }
}

impl fmt::Display for Report<'_> {
    fn fmt(&self, f: &mut fmt::Formatter<'_>) -> fmt::Result {
        f.write_str(&self.text)
    }
}

/// A line of a report. It prints as it is written there, with its LF.
#[derive(Clone, Copy, Debug, PartialEq, Eq, Hash)]
pub enum Line<'a> {
    /// `id`: the identifier.
    Identifier(Text<'a>),
    /// `v`: the header version, where it isn't 1.
    Version(&'a str),
    /// `none`, alone: nothing was checked.
    None,
    /// `m`: a method and its result, both in lower case.
    Method {
        /// The method, as `dkim`.
        method: &'a str,
        /// Its result, as `pass`.
        result: &'a str,
    },
    /// `r`: the reason of the result before it.
    Reason(Text<'a>),
    /// `p`: a property of the result before it.
    Property {
        /// `smtp`, `header`, `body` or `policy`.
        ptype: &'a str,
        /// Its name in lower case, as `mailfrom`.
        property: &'a str,
        /// What kind of value it has.
        kind: ValueKind,
        /// The value.
        value: Text<'a>,
    },
}

impl fmt::Display for Line<'_> {
    fn fmt(&self, f: &mut fmt::Formatter<'_>) -> fmt::Result {
        match *self {
            Line::Identifier(text) => writeln!(f, "id\t{text}"),
            Line::Version(digits) => writeln!(f, "v\t{digits}"),
            Line::None => writeln!(f, "none"),
            Line::Method { method, result } => writeln!(f, "m\t{method}\t{result}"),
            Line::Reason(text) => writeln!(f, "r\t{text}"),
            Line::Property {
                ptype,
                property,
                kind,
                value,
            } => writeln!(f, "p\t{ptype}\t{property}\t{}\t{value}", kind.letter()),
        }
    }
}

/// What kind of value a property has.
#[derive(Clone, Copy, Debug, PartialEq, Eq, Hash)]
pub enum ValueKind {
    /// `t`: a token.
    Token,
    /// `q`: a quoted string.
    Quoted,
    /// `m`: a mailbox.
    Mailbox,
    /// `a`: a domain behind "@".
    AtDomain,
}

impl ValueKind {
    /// Its letter in a report.
    #[must_use]
    pub fn letter(self) -> char {
        match self {
            ValueKind::Token => 't',
            ValueKind::Quoted => 'q',
            ValueKind::Mailbox => 'm',
            ValueKind::AtDomain => 'a',
        }
    }
}

/// A text of a report. It prints as it is coded there, where a byte outside of 33 to 126, and %, is
/// % and two hex digits; so it is safe for a terminal and a log.
#[derive(Clone, Copy, Debug, PartialEq, Eq, Hash)]
pub struct Text<'a>(&'a str);

impl<'a> Text<'a> {
    /// The text as it is coded.
    #[must_use]
    pub fn coded(self) -> &'a str {
        self.0
    }

    /// The bytes that stand in the field, without quotes and escapes. They may be any.
    ///
    /// ```
    /// let said = orbendash::report(b"\"a host\"; none")?;
    /// assert_eq!(said.identifier().coded(), "a%20host");
    /// assert_eq!(&said.identifier().bytes()[..], b"a host");
    /// # Ok::<(), orbendash::Refusal>(())
    /// ```
    #[must_use]
    pub fn bytes(self) -> Cow<'a, [u8]> {
        if !self.0.contains('%') {
            return Cow::Borrowed(self.0.as_bytes());
        }
        let value = |digit: u8| match digit {
            b'0'..=b'9' => digit - b'0',
            _ => digit.wrapping_sub(b'A').wrapping_add(10),
        };
        let mut out = Vec::with_capacity(self.0.len());
        let mut rest = self.0.as_bytes();
        loop {
            match *rest {
                [b'%', high, low, ref next @ ..] => {
                    out.push(value(high) << 4 | value(low));
                    rest = next;
                }
                [byte, ref next @ ..] => {
                    out.push(byte);
                    rest = next;
                }
                [] => return Cow::Owned(out),
            }
        }
    }
}

impl fmt::Display for Text<'_> {
    fn fmt(&self, f: &mut fmt::Formatter<'_>) -> fmt::Result {
        f.write_str(self.0)
    }
}

/// The lines of a report in order.
#[must_use]
#[derive(Clone, Debug)]
pub struct Lines<'a> {
    rest: &'a str,
}

impl<'a> Iterator for Lines<'a> {
    type Item = Line<'a>;

    fn next(&mut self) -> Option<Line<'a>> {
        let (line, rest) = self.rest.split_once('\n')?;
        self.rest = rest;
        let mut columns = line.split('\t');
        let mut column = || columns.next().unwrap_or("");
        Some(match column() {
            "id" => Line::Identifier(Text(column())),
            "v" => Line::Version(column()),
            "none" => Line::None,
            "m" => Line::Method {
                method: column(),
                result: column(),
            },
            "r" => Line::Reason(Text(column())),
            "p" => Line::Property {
                ptype: column(),
                property: column(),
                kind: match column() {
                    "q" => ValueKind::Quoted,
                    "m" => ValueKind::Mailbox,
                    "a" => ValueKind::AtDomain,
                    _ => ValueKind::Token,
                },
                value: Text(column()),
            },
            // A report has no other lines.
            _ => {
                self.rest = "";
                return None;
            }
        })
    }
}

impl FusedIterator for Lines<'_> {}
