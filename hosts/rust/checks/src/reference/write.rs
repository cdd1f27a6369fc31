//! Ticket [1] of document 02: the body of our own field, from report lines.

use std::borrow::Cow;

use super::{is_keyword_byte, IDENTIFIER, LOCAL_PART, MAX_BYTES, METHODS, PLAIN, PTYPES, TOKEN};
use orbendash::raw::{number, WriteAnswer};

/// Writes the body that has these lines as its report.
pub fn write(lines: &[u8], out: &mut [u8]) -> WriteAnswer {
    let refuse = |number, place| WriteAnswer {
        number,
        place,
        ..WriteAnswer::default()
    };
    let body = match compose(lines) {
        Ok(body) => body,
        Err(line) => return refuse(number::BAD_LINES, line),
    };
    if body.len() > MAX_BYTES {
        return refuse(number::TOO_LONG, 0);
    }
    let Some(room) = out.get_mut(..body.len()) else {
        return refuse(number::NO_ROOM, body.len());
    };
    room.copy_from_slice(&body);
    WriteAnswer {
        number: number::DONE,
        place: 0,
        written: body.len(),
    }
}

/// The line before, which says what may follow.
#[derive(Clone, Copy)]
enum Last {
    /// There is none: an id line must follow.
    Nothing,
    /// The id line: the none line or an m line must follow.
    Id,
    /// The none line: nothing may follow.
    None,
    /// An m line: its reason, a property or another m line may follow.
    Method,
    /// An r or p line: a property or another m line may follow.
    Part,
}

/// The body, whatever its length; or the line, from 1, at which the lines are the report of none.
fn compose(lines: &[u8]) -> Result<Vec<u8>, usize> {
    let mut body = Vec::with_capacity(lines.len());
    let mut last = Last::Nothing;
    let mut count = 0;
    let mut rest = lines;
    while !rest.is_empty() {
        count += 1;
        let end = rest.iter().position(|&b| b == b'\n').ok_or(count)?;
        last = put_line(&rest[..end], last, &mut body).ok_or(count)?;
        rest = &rest[end + 1..];
    }
    match last {
        Last::Nothing | Last::Id => Err(count + 1),
        Last::None | Last::Method | Last::Part => Ok(body),
    }
}

/// Writes what one line says, if it can stand here.
fn put_line(line: &[u8], last: Last, body: &mut Vec<u8>) -> Option<Last> {
    let word = line.split(|&b| b == b'\t').next()?;
    match (last, word) {
        (Last::Nothing, b"id") => {
            let [_, text] = columns(line)?;
            body.push(b' ');
            put_value(&decoded(text)?, &IDENTIFIER, body);
            Some(Last::Id)
        }
        (Last::Id, b"none") => {
            let [_] = columns(line)?;
            body.extend(b"; none");
            Some(Last::None)
        }
        (Last::Id | Last::Method | Last::Part, b"m") => {
            let [_, method, result] = columns(line)?;
            let (_, results) = METHODS.iter().find(|(name, _)| *name == method)?;
            if !results.contains(&result) {
                return None;
            }
            body.extend(b"; ");
            body.extend(method);
            body.push(b'=');
            body.extend(result);
            Some(Last::Method)
        }
        (Last::Method, b"r") => {
            let [_, text] = columns(line)?;
            body.extend(b" reason=");
            put_value(&decoded(text)?, &TOKEN, body);
            Some(Last::Part)
        }
        (Last::Method | Last::Part, b"p") => {
            let [_, ptype, property, kind, text] = columns(line)?;
            if !PTYPES.contains(&ptype) || !is_property(property) {
                return None;
            }
            body.push(b' ');
            body.extend(ptype);
            body.push(b'.');
            body.extend(property);
            body.push(b'=');
            put_property_value(kind, &decoded(text)?, body)?;
            Some(Last::Part)
        }
        _ => None,
    }
}

/// The columns of a line, of which there must be so many.
fn columns<const N: usize>(line: &[u8]) -> Option<[&[u8]; N]> {
    let mut all = line.split(|&b| b == b'\t');
    let mut columns = [&b""[..]; N];
    for column in &mut columns {
        *column = all.next()?;
    }
    all.next().is_none().then_some(columns)
}

/// A keyword as it is reported.
fn is_property(word: &[u8]) -> bool {
    let reported = |b: &u8| is_keyword_byte(*b) && !b.is_ascii_uppercase();
    word.iter().all(reported) && word.last().is_some_and(|&b| b != b'-')
}

/// The text that is reported so, if a quoted string can have it: a percent form stands for a byte
/// that isn't written as it is, and for no other.
fn decoded(column: &[u8]) -> Option<Cow<'_, [u8]>> {
    if column.iter().all(|&b| PLAIN[b as usize]) {
        return Some(Cow::Borrowed(column));
    }
    let mut text = Vec::with_capacity(column.len());
    let mut rest = column;
    while let Some((&byte, behind)) = rest.split_first() {
        if PLAIN[byte as usize] {
            text.push(byte);
            rest = behind;
            continue;
        }
        let &[b'%', high, low, ref behind @ ..] = rest else {
            return None;
        };
        let byte = hex_digit(high)? << 4 | hex_digit(low)?;
        if !matches!(byte, b'\t' | b' ' | b'%' | 128..) {
            return None;
        }
        text.push(byte);
        rest = behind;
    }
    Some(Cow::Owned(text))
}

fn hex_digit(digit: u8) -> Option<u8> {
    match digit {
        b'0'..=b'9' => Some(digit - b'0'),
        b'A'..=b'F' => Some(digit - b'A' + 10),
        _ => None,
    }
}

/// A text bare where it is a token of these bytes, else quoted.
fn put_value(text: &[u8], token: &[bool; 256], body: &mut Vec<u8>) {
    if is_token(text, token) {
        body.extend(text);
    } else {
        put_quoted(text, body);
    }
}

fn put_quoted(text: &[u8], body: &mut Vec<u8>) {
    body.push(b'"');
    for &byte in text {
        if byte == b'"' || byte == b'\\' {
            body.push(b'\\');
        }
        body.push(byte);
    }
    body.push(b'"');
}

fn is_token(text: &[u8], token: &[bool; 256]) -> bool {
    !text.is_empty() && text.iter().all(|&b| token[b as usize])
}

/// A property's value as its letter says.
fn put_property_value(kind: &[u8], text: &[u8], body: &mut Vec<u8>) -> Option<()> {
    match kind {
        b"t" => is_token(text, &TOKEN).then(|| body.extend(text)),
        b"q" => {
            put_quoted(text, body);
            Some(())
        }
        b"m" => {
            // A domain has no "@", so the last one stands before it.
            let at = text.iter().rposition(|&b| b == b'@')?;
            let (local, domain) = (&text[..at], &text[at + 1..]);
            if !is_domain(domain) {
                return None;
            }
            if is_local_part(local) {
                body.extend(local);
            } else {
                put_quoted(local, body);
            }
            body.extend(&text[at..]);
            Some(())
        }
        b"a" => {
            let (b'@', domain) = text.split_first()? else {
                return None;
            };
            is_domain(domain).then(|| body.extend(text))
        }
        _ => None,
    }
}

/// Runs parted by single dots.
fn is_local_part(text: &[u8]) -> bool {
    text.split(|&b| b == b'.')
        .all(|run| is_token(run, &LOCAL_PART))
}

/// Two or more labels parted by dots.
fn is_domain(text: &[u8]) -> bool {
    let is_label = |label: &[u8]| {
        label.iter().all(|&b| is_keyword_byte(b))
            && label.first().is_some_and(u8::is_ascii_alphanumeric)
            && label.last().is_some_and(u8::is_ascii_alphanumeric)
    };
    text.contains(&b'.') && text.split(|&b| b == b'.').all(is_label)
}
