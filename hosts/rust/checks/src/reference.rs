//! Document 01 once more, straight from the paper and by hand.
//!
//! Nothing here calls the linked library, and nothing of it was taken from there: the
//! differential tests compare the two, and the benchmark measures one against the other.
//! Names in quotes are the paper's sections. Identifiers are compared as ticket [2] of document
//! 02 has it: with international labels. What its ticket [1] adds, our own field from report
//! lines, is a module of its own, and so is ticket [7], stripping in two steps.

mod punycode;
mod steps;
mod write;

pub use steps::{copy, mark};
pub use write::write;

use std::borrow::Cow;
use std::collections::HashSet;
use std::ops::Range;

use orbendash::raw::{
    number, outcome, reason, status, whose as owner, FieldAnswer, JudgeAnswer, ReportAnswer,
    StripAnswer, WhoseAnswer,
};

// "What the library is handed": the limits.
const MAX_BYTES: usize = 65_536;
const MAX_FIELDS: usize = 512;
const MAX_ENTRIES: usize = 64;
const MAX_ENTRY_BYTES: usize = 255;
const MAX_COMMENT_DEPTH: usize = 16;
const MAX_INSTANCE: usize = 50;

/// Removes the Authentication-Results fields that name one of our own identifiers, or none that
/// can be read ("Stripping").
pub fn strip(block: &[u8], list: &[u8], out: &mut [u8]) -> StripAnswer {
    let refuse = |number, place| StripAnswer {
        number,
        place,
        ..StripAnswer::default()
    };
    if block.len() > MAX_BYTES {
        return refuse(number::TOO_LONG, 0);
    }
    let own = match own_list(list) {
        Ok(own) => own,
        Err(place) => return refuse(number::BAD_LIST, place),
    };
    let mut removed: Vec<Range<usize>> = Vec::new();
    for field in Walk::new(block) {
        let field = match field {
            Ok(field) => field,
            Err(stop) => return refuse(stop.number, stop.place),
        };
        if field
            .name(block)
            .eq_ignore_ascii_case(b"Authentication-Results")
        {
            // The rest of the body doesn't matter.
            let forged = match Cursor::new(field.body(block)).identifier() {
                Some(id) => own.has(&id.text()),
                None => true,
            };
            if forged {
                removed.push(field.start..field.end);
            }
        }
    }
    let removed_bytes: usize = removed.iter().map(ExactSizeIterator::len).sum();
    let kept = block.len() - removed_bytes;
    if out.len() < kept {
        return refuse(number::NO_ROOM, kept);
    }
    let mut from = 0;
    let mut to = 0;
    let end = block.len()..block.len();
    for gap in removed.iter().chain(std::iter::once(&end)) {
        let piece = &block[from..gap.start];
        out[to..to + piece.len()].copy_from_slice(piece);
        to += piece.len();
        from = gap.end;
    }
    StripAnswer {
        number: number::DONE,
        place: 0,
        kept,
        removed: removed_bytes,
        fields: removed.len(),
    }
}

/// Says whose the identifier of a body is, in stripping's order: 1 for the body, 5 for the list, and
/// then what decides there whether a field goes.
pub fn whose(list: &[u8], body: &[u8]) -> WhoseAnswer {
    let answer = |number, whose, place| WhoseAnswer {
        number,
        whose,
        place,
    };
    if body.len() > MAX_BYTES {
        return answer(number::TOO_LONG, 0, 0);
    }
    let own = match own_list(list) {
        Ok(own) => own,
        Err(place) => return answer(number::BAD_LIST, 0, place),
    };
    let whose = match Cursor::new(body).identifier() {
        Some(id) if own.has(&id.text()) => owner::OURS,
        Some(_) => owner::OTHERS,
        None => owner::UNREADABLE,
    };
    answer(number::DONE, whose, 0)
}

/// Writes the report of one Authentication-Results body ("The report").
pub fn report(body: &[u8], out: &mut [u8]) -> ReportAnswer {
    let refuse = |number, place| ReportAnswer {
        number,
        place,
        ..ReportAnswer::default()
    };
    if body.len() > MAX_BYTES {
        return refuse(number::TOO_LONG, 0);
    }
    let body = match read_body(body) {
        Ok(body) => body,
        Err(number) => return refuse(number, 0),
    };
    let mut length = Length(0);
    body.render(&mut length);
    if out.len() < length.0 {
        return refuse(number::NO_ROOM, length.0);
    }
    body.render(&mut Writer { out, at: 0 });
    let (number, ignored) = match body.content {
        Content::OtherVersion(_) => (number::OTHER_VERSION, 0),
        Content::None => (number::DONE, 0),
        Content::Results { ignored, .. } => (number::DONE, ignored),
    };
    ReportAnswer {
        number,
        place: 0,
        written: length.0,
        ignored,
    }
}

/// Judges the ARC chain of a block from the verdicts on its signatures ("The chain").
pub fn judge(block: &[u8], verdicts: &[u8]) -> JudgeAnswer {
    let refuse = |number, place| JudgeAnswer {
        number,
        place,
        ..JudgeAnswer::default()
    };
    if block.len() > MAX_BYTES {
        return refuse(number::TOO_LONG, 0);
    }
    let chain = match read_chain(block) {
        Ok(chain) => chain,
        Err(stop) => return refuse(stop.number, stop.place),
    };
    let instances = match chain {
        Chain::None => return JudgeAnswer::default(),
        Chain::Failed { reason, field } => {
            return JudgeAnswer {
                outcome: outcome::FAILED,
                reason,
                status: status::FAIL,
                field,
                ..JudgeAnswer::default()
            }
        }
        Chain::Built(instances) => instances,
    };
    if verdicts.len() != instances || verdicts.iter().any(|&v| v > 3) {
        return refuse(number::BAD_VERDICTS, 0);
    }
    let seals_good = verdicts.iter().all(|v| v & 2 != 0);
    // The highest instance with a bad signature, 0 if there is none.
    let bad = verdicts
        .iter()
        .rposition(|v| v & 1 == 0)
        .map_or(0, |index| index + 1);
    let pass = seals_good && bad < instances;
    JudgeAnswer {
        outcome: outcome::BUILT,
        status: if pass { status::PASS } else { status::FAIL },
        has_oldest_pass: pass.into(),
        instances,
        oldest_pass: if pass && bad > 0 { bad + 1 } else { 0 },
        ..JudgeAnswer::default()
    }
}

/// Gives the first field that starts at `place` or later ("What the library is handed").
pub fn next_field(block: &[u8], place: usize) -> FieldAnswer {
    let refuse = |number, place| FieldAnswer {
        number,
        place,
        ..FieldAnswer::default()
    };
    if block.len() > MAX_BYTES {
        return refuse(number::TOO_LONG, 0);
    }
    // Always from the front: a place in the middle of a field must not be taken for a start.
    for field in Walk::new(block) {
        match field {
            Ok(field) if field.start < place => {}
            Ok(field) => {
                return FieldAnswer {
                    number: number::DONE,
                    found: 1,
                    place: 0,
                    start: field.start,
                    name_end: field.name_end,
                    body_start: field.body_start,
                    end: field.end,
                }
            }
            Err(stop) => return refuse(stop.number, stop.place),
        }
    }
    FieldAnswer::default()
}

// "Block and list"

/// One field of a block, as offsets into it.
struct Field {
    start: usize,
    name_end: usize,
    body_start: usize,
    end: usize,
}

impl Field {
    fn name<'a>(&self, block: &'a [u8]) -> &'a [u8] {
        &block[self.start..self.name_end]
    }

    /// From after the colon to before the last CRLF.
    fn body<'a>(&self, block: &'a [u8]) -> &'a [u8] {
        &block[self.body_start..self.end - 2]
    }
}

/// Answers 2 to 4 of the walk.
struct Stop {
    number: u8,
    place: usize,
}

/// The walk from the front, line by line: each field, then the stop if there is one.
struct Walk<'a> {
    block: &'a [u8],
    at: usize,
    fields: usize,
}

impl<'a> Walk<'a> {
    fn new(block: &'a [u8]) -> Self {
        Walk {
            block,
            at: 0,
            fields: 0,
        }
    }

    /// The end of the line that starts at `start`, its CRLF included.
    fn line(&self, start: usize) -> Result<usize, Stop> {
        let stop = |place| Stop {
            number: number::BAD_LINE_END,
            place,
        };
        let rest = &self.block[start..];
        let length = rest
            .iter()
            .position(|&b| b == b'\r' || b == b'\n')
            .ok_or(stop(self.block.len()))?;
        if rest[length..].starts_with(b"\r\n") {
            Ok(start + length + 2)
        } else {
            Err(stop(start + length))
        }
    }

    /// The field whose first line starts at `start`.
    fn field(&self, start: usize) -> Result<Field, Stop> {
        let mut end = self.line(start)?;
        let stop = |number| Stop {
            number,
            place: start,
        };
        let line = &self.block[start..end - 2];
        let name = prefix(line, |b| (33..=126).contains(&b) && b != b':');
        let gap = prefix(&line[name..], is_blank);
        // An empty line and one that starts with space or tab have no name either.
        if name == 0 || line.get(name + gap) != Some(&b':') {
            return Err(stop(number::BAD_LINE));
        }
        if self.fields == MAX_FIELDS {
            return Err(stop(number::TOO_MANY_FIELDS));
        }
        while self.block.get(end).copied().is_some_and(is_blank) {
            end = self.line(end)?;
        }
        Ok(Field {
            start,
            name_end: start + name,
            body_start: start + name + gap + 1,
            end,
        })
    }
}

impl Iterator for Walk<'_> {
    type Item = Result<Field, Stop>;

    fn next(&mut self) -> Option<Self::Item> {
        if self.at == self.block.len() {
            return None;
        }
        let field = self.field(self.at);
        self.at = match &field {
            Ok(field) => field.end,
            Err(_) => self.block.len(),
        };
        self.fields += 1;
        Some(field)
    }
}

/// The entries of the own list, as they are compared.
struct OwnList<'a> {
    entries: Vec<Cow<'a, [u8]>>,
    /// The bytes of the longest.
    longest: usize,
}

impl OwnList<'_> {
    /// Whether an identifier equals an entry.
    fn has(&self, text: &[u8]) -> bool {
        u_labels(text, self.longest).is_some_and(|text| {
            self.entries
                .iter()
                .any(|entry| entry.eq_ignore_ascii_case(&text))
        })
    }
}

/// The own list, or the start of the first bad entry.
fn own_list(list: &[u8]) -> Result<OwnList<'_>, usize> {
    let mut own = OwnList {
        entries: Vec::new(),
        longest: 0,
    };
    let mut at = 0;
    while at < list.len() {
        let rest = &list[at..];
        let entry = &rest[..prefix(rest, |b| matches!(b, 33..=126 | 128..))];
        let ended = rest.get(entry.len()) == Some(&b'\n');
        let fits = (1..=MAX_ENTRY_BYTES).contains(&entry.len()) && own.entries.len() < MAX_ENTRIES;
        if !ended || !fits || std::str::from_utf8(entry).is_err() {
            return Err(at);
        }
        at += entry.len() + 1;
        let entry = compared(entry);
        own.longest = own.longest.max(entry.len());
        own.entries.push(entry);
    }
    Ok(own)
}

// "Small pieces of a body"

/// A set of bytes: all from `first` to `last` except those named.
const fn class(first: usize, last: usize, except: &[u8]) -> [bool; 256] {
    let mut set = [false; 256];
    let mut byte = first;
    while byte <= last {
        set[byte] = true;
        byte += 1;
    }
    let mut index = 0;
    while index < except.len() {
        set[except[index] as usize] = false;
        index += 1;
    }
    set
}

/// The set and one more byte.
const fn with(mut set: [bool; 256], byte: u8) -> [bool; 256] {
    set[byte as usize] = true;
    set
}

/// Bytes that stand for themselves in a comment, and in a quoted string.
static COMMENT: [bool; 256] = with(class(32, 255, b"()\\\x7f"), b'\t');
static QUOTED: [bool; 256] = with(class(32, 255, b"\"\\\x7f"), b'\t');
/// Bytes of a token, and of the identifier's, which may also have bytes from 128 up.
static TOKEN: [bool; 256] = class(33, 126, b"()<>@,;:\\\"/[]?=");
static IDENTIFIER: [bool; 256] = class(33, 255, b"()<>@,;:\\\"/[]?=\x7f");
/// Bytes of a mailbox's local part that isn't quoted: RFC 5322's atext, and the dot.
static LOCAL_PART: [bool; 256] = class(33, 126, b"()<>@,;:\\\"[]");
/// Bytes that the report writes as they are.
static PLAIN: [bool; 256] = class(33, 126, b"%");

fn is_blank(byte: u8) -> bool {
    byte == b' ' || byte == b'\t'
}

/// What may stand after a backslash.
fn is_escapable(byte: u8) -> bool {
    matches!(byte, 32..=126 | b'\t')
}

fn is_keyword_byte(byte: u8) -> bool {
    byte.is_ascii_alphanumeric() || byte == b'-'
}

/// How many bytes at the front are in the class.
fn prefix(bytes: &[u8], class: impl Fn(u8) -> bool) -> usize {
    bytes.iter().position(|&b| !class(b)).unwrap_or(bytes.len())
}

/// The text of a token or of a quoted string, not yet taken apart.
#[derive(Clone, Copy)]
enum Text<'a> {
    Token(&'a [u8]),
    /// What stands between the quotes.
    Quoted(&'a [u8]),
}

impl<'a> Text<'a> {
    /// The text's bytes: without the escaping backslashes and the CRLFs.
    fn bytes(self) -> TextBytes<'a> {
        match self {
            Text::Token(bytes) => TextBytes {
                rest: bytes,
                quoted: false,
            },
            Text::Quoted(bytes) => TextBytes {
                rest: bytes,
                quoted: true,
            },
        }
    }

    /// The text in one piece.
    fn text(self) -> Cow<'a, [u8]> {
        match self {
            Text::Token(bytes) => Cow::Borrowed(bytes),
            Text::Quoted(_) => Cow::Owned(self.bytes().collect()),
        }
    }
}

struct TextBytes<'a> {
    rest: &'a [u8],
    quoted: bool,
}

impl Iterator for TextBytes<'_> {
    type Item = u8;

    fn next(&mut self) -> Option<u8> {
        loop {
            let (&byte, rest) = self.rest.split_first()?;
            self.rest = rest;
            if self.quoted {
                match byte {
                    // In a quoted string these two only stand as CRLF.
                    b'\r' | b'\n' => continue,
                    b'\\' => {
                        let (&escaped, rest) = self.rest.split_first()?;
                        self.rest = rest;
                        return Some(escaped);
                    }
                    _ => {}
                }
            }
            return Some(byte);
        }
    }
}

/// A place in a body. The readers move it past what they read; where one answers `None` the
/// place no longer matters, since nothing is tried a second time.
struct Cursor<'a> {
    bytes: &'a [u8],
    at: usize,
}

impl<'a> Cursor<'a> {
    fn new(bytes: &'a [u8]) -> Self {
        Cursor { bytes, at: 0 }
    }

    fn peek(&self) -> Option<u8> {
        self.bytes.get(self.at).copied()
    }

    fn rest(&self) -> &'a [u8] {
        &self.bytes[self.at..]
    }

    fn at_end(&self) -> bool {
        self.at == self.bytes.len()
    }

    fn eat(&mut self, byte: u8) -> Option<()> {
        (self.peek() == Some(byte)).then(|| self.at += 1)
    }

    fn take(&mut self, length: usize) -> &'a [u8] {
        let taken = &self.bytes[self.at..self.at + length];
        self.at += length;
        taken
    }

    /// The longest run of the class, which must not be empty.
    fn run(&mut self, class: impl Fn(u8) -> bool) -> Option<&'a [u8]> {
        let length = prefix(self.rest(), class);
        (length > 0).then(|| self.take(length))
    }

    /// Space without comments. True if it isn't empty.
    fn folding_space(&mut self) -> bool {
        let start = self.at;
        loop {
            match self.rest() {
                [b' ' | b'\t', ..] => self.at += 1,
                [b'\r', b'\n', b' ' | b'\t', ..] => self.at += 3,
                _ => return self.at > start,
            }
        }
    }

    /// Space. True if it isn't empty. A comment that can't be read ends it.
    fn space(&mut self) -> bool {
        let start = self.at;
        loop {
            self.folding_space();
            if self.peek() != Some(b'(') || !self.comment() {
                return self.at > start;
            }
        }
    }

    /// Comment, from its "("; stays there where it can't be read.
    fn comment(&mut self) -> bool {
        let mut at = self.at + 1;
        let mut depth = 1;
        while depth > 0 {
            at += prefix(&self.bytes[at..], |b| COMMENT[b as usize]);
            at += match &self.bytes[at..] {
                [b'(', ..] if depth < MAX_COMMENT_DEPTH => {
                    depth += 1;
                    1
                }
                [b')', ..] => {
                    depth -= 1;
                    1
                }
                [b'\\', escaped, ..] if is_escapable(*escaped) => 2,
                [b'\r', b'\n', b' ' | b'\t', ..] => 3,
                _ => return false,
            };
        }
        self.at = at;
        true
    }

    /// Quoted, from its first quote.
    fn quoted(&mut self) -> Option<Text<'a>> {
        self.eat(b'"')?;
        let start = self.at;
        loop {
            self.at += prefix(self.rest(), |b| QUOTED[b as usize]);
            self.at += match self.rest() {
                [b'"', ..] => break,
                [b'\\', escaped, ..] if is_escapable(*escaped) => 2,
                [b'\r', b'\n', b' ' | b'\t', ..] => 3,
                _ => return None,
            };
        }
        let text = &self.bytes[start..self.at];
        self.at += 1;
        Some(Text::Quoted(text))
    }

    fn token(&mut self) -> Option<&'a [u8]> {
        self.run(|b| TOKEN[b as usize])
    }

    /// Value: token or quoted. The token's bytes are those of the class.
    fn value(&mut self, token: &[bool; 256]) -> Option<Text<'a>> {
        if self.peek() == Some(b'"') {
            self.quoted()
        } else {
            self.run(|b| token[b as usize]).map(Text::Token)
        }
    }

    /// Keyword: the longest run that doesn't end in a hyphen, so it leaves hyphens at the end.
    fn keyword(&mut self) -> Option<&'a [u8]> {
        let run = &self.rest()[..prefix(self.rest(), is_keyword_byte)];
        let last = run.iter().rposition(|&b| b != b'-')?;
        Some(self.take(last + 1))
    }

    /// Digit run.
    fn digits(&mut self) -> Option<Digits<'a>> {
        let run = self.run(|b| b.is_ascii_digit())?;
        let zeros = prefix(&run[..run.len() - 1], |b| b == b'0');
        Some(Digits {
            counted: &run[zeros..],
            number: VersionNumber::of(run),
        })
    }

    // "Identifier and header version"

    /// The end or one of the five bytes.
    fn word_ends(&self) -> bool {
        matches!(self.peek(), None | Some(b' ' | b'\t' | b'\r' | b'(' | b';'))
    }

    fn identifier(&mut self) -> Option<Text<'a>> {
        self.space();
        let text = self.value(&IDENTIFIER)?;
        self.word_ends().then_some(text)
    }

    /// Absent means 1.
    fn header_version(&mut self) -> Option<Digits<'a>> {
        let spaced = self.space();
        if !spaced || !self.peek().is_some_and(|b| b.is_ascii_digit()) {
            return Some(Digits {
                counted: b"1",
                number: VersionNumber::ONE,
            });
        }
        let version = self.digits()?;
        self.word_ends().then_some(version)
    }

    // "Results"

    /// All from the first ";" to the end.
    fn content(&mut self) -> Option<Content<'a>> {
        self.space();
        self.eat(b';')?;
        self.space();
        let mut method = self.keyword()?;
        self.space();
        if is(method, b"none") && !matches!(self.peek(), Some(b'=' | b'/')) {
            return self.at_end().then_some(Content::None);
        }
        let mut results = Vec::new();
        let mut properties = Vec::new();
        let mut ignored = 0;
        loop {
            let known = properties.len();
            match self.result(method, &mut properties)? {
                Some(result) => results.push(result),
                None => {
                    properties.truncate(known);
                    ignored += 1;
                }
            }
            if self.at_end() {
                return Some(Content::Results {
                    results,
                    properties,
                    ignored,
                });
            }
            self.eat(b';')?;
            self.space();
            method = self.keyword()?;
            self.space();
        }
    }

    /// The rest of a result after its method and the space there, and the space after the
    /// result. The inner `None` is a result to ignore.
    fn result(
        &mut self,
        method: &'a [u8],
        properties: &mut Vec<Property<'a>>,
    ) -> Option<Option<Resinfo<'a>>> {
        let mut understood = true;
        if self.eat(b'/').is_some() {
            self.space();
            understood = self.digits()?.number == VersionNumber::ONE;
            self.space();
        }
        self.eat(b'=')?;
        self.space();
        let result = self.keyword()?;
        understood &= in_table(method, result);
        let first = properties.len();
        let mut reason = None;
        loop {
            let spaced = self.space();
            if matches!(self.peek(), None | Some(b';')) {
                break;
            }
            // What is still to come must not touch what was.
            if !spaced {
                return None;
            }
            let word = self.keyword()?;
            self.space();
            let may_be_reason = reason.is_none() && properties.len() == first;
            if may_be_reason && is(word, b"reason") && self.eat(b'=').is_some() {
                self.space();
                reason = Some(self.value(&TOKEN)?);
                continue;
            }
            self.eat(b'.')?;
            self.space();
            let property = self.keyword()?;
            self.space();
            self.eat(b'=')?;
            self.space();
            let value = self.property_value()?;
            understood &= PTYPES.iter().any(|ptype| is(word, ptype));
            properties.push(Property {
                ptype: word,
                property,
                value,
            });
        }
        Some(understood.then_some(Resinfo {
            method,
            result,
            reason,
            properties: first..properties.len(),
        }))
    }

    fn property_value(&mut self) -> Option<Value<'a>> {
        if self.peek() == Some(b'"') {
            let text = self.quoted()?;
            return match self.eat(b'@') {
                Some(()) => Some(Value::Mailbox(text, self.domain()?)),
                None => Some(Value::Quoted(text)),
            };
        }
        let local = &self.rest()[..prefix(self.rest(), |b| LOCAL_PART[b as usize])];
        if self.rest().get(local.len()) != Some(&b'@') {
            return self.token().map(Value::Token);
        }
        self.at += local.len() + 1;
        if local.is_empty() {
            return self.domain().map(Value::AtDomain);
        }
        // An empty piece is a leading, trailing or doubled dot.
        if local.split(|&b| b == b'.').any(<[u8]>::is_empty) {
            return None;
        }
        Some(Value::Mailbox(Text::Token(local), self.domain()?))
    }

    /// Two or more labels parted by dots.
    fn domain(&mut self) -> Option<&'a [u8]> {
        let domain = self.run(|b| is_keyword_byte(b) || b == b'.')?;
        // No part of a body may touch a domain's last label with a dot or a hyphen, so the
        // longest run is the domain or there is none.
        let mut labels = 0;
        for label in domain.split(|&b| b == b'.') {
            let (first, last) = (label.first()?, label.last()?);
            if *first == b'-' || *last == b'-' {
                return None;
            }
            labels += 1;
        }
        (labels >= 2).then_some(domain)
    }

    // "The chain"

    /// Space, i, "=", one or two digits worth 1 to 50, and ";".
    fn instance(&mut self) -> Option<usize> {
        self.space();
        self.eat(b'i')?;
        self.space();
        self.eat(b'=')?;
        self.space();
        let instance = match self.run(|b| b.is_ascii_digit())? {
            [ones] => usize::from(ones - b'0'),
            [tens, ones] => usize::from(tens - b'0') * 10 + usize::from(ones - b'0'),
            _ => return None,
        };
        self.space();
        self.eat(b';')?;
        (1..=MAX_INSTANCE).contains(&instance).then_some(instance)
    }

    /// A DKIM tag list to the end of the body (RFC 6376, 3.2); gives each tag's name and value,
    /// and refuses a name that comes twice and a second i.
    fn tag_list(&mut self, mut tag: impl FnMut(&'a [u8], &'a [u8])) -> Option<()> {
        let mut names = HashSet::new();
        loop {
            self.folding_space();
            let name = self.run(|b| b.is_ascii_alphanumeric() || b == b'_')?;
            if !name[0].is_ascii_alphabetic() || name == b"i" || !names.insert(name) {
                return None;
            }
            self.folding_space();
            self.eat(b'=')?;
            self.folding_space();
            tag(name, self.tag_value());
            if self.at_end() {
                return Some(());
            }
            self.eat(b';')?;
            if self.at_end() {
                return Some(());
            }
        }
    }

    /// A tag's value without the space around it; moves past the space after it too.
    fn tag_value(&mut self) -> &'a [u8] {
        let start = self.at;
        let mut end = start;
        loop {
            let length = prefix(self.rest(), |b| matches!(b, 33..=126 | 128..) && b != b';');
            self.at += length;
            if length > 0 {
                end = self.at;
            }
            if !self.folding_space() {
                return &self.bytes[start..end];
            }
        }
    }
}

// "Identifier and header version": what identifiers are compared by.

/// An identifier or list entry with its A-labels decoded, each once. Two of them are equal when
/// these are equal but for ASCII case.
pub fn compared(text: &[u8]) -> Cow<'_, [u8]> {
    u_labels(text, usize::MAX).expect("nothing has more bytes than that")
}

fn labels(text: &[u8]) -> impl Iterator<Item = &[u8]> {
    text.split(|&b| b == b'.')
}

/// What stands behind the prefix of an A-label.
fn a_label(label: &[u8]) -> Option<&[u8]> {
    let (prefix, rest) = label.split_at_checked(4)?;
    prefix.eq_ignore_ascii_case(b"xn--").then_some(rest)
}

/// The text with each A-label that can be decoded as its U-label in UTF-8; or nothing, where that
/// has more than `most` bytes.
fn u_labels(text: &[u8], most: usize) -> Option<Cow<'_, [u8]>> {
    // Where no A-label starts in the first bytes, these stay, and are too many already if there are
    // more.
    let first = &text[..text.len().min(most.saturating_add(5))];
    if labels(first).all(|label| a_label(label).is_none()) {
        return (text.len() <= most).then_some(Cow::Borrowed(text));
    }
    let mut out = Vec::with_capacity(text.len().min(most));
    for (index, label) in labels(text).enumerate() {
        if index > 0 {
            out.push(b'.');
        }
        let decoded = a_label(label).map(|rest| punycode::decode(rest, most));
        match decoded {
            Some(Ok(points)) => {
                for point in points {
                    out.extend(point.encode_utf8(&mut [0; 4]).bytes());
                }
            }
            // With so many code points the label has more bytes than that, decoded or not.
            Some(Err(punycode::Failure::Longer)) => return None,
            Some(Err(punycode::Failure::Undecodable)) | None => out.extend(label),
        }
        if out.len() > most {
            return None;
        }
    }
    Some(Cow::Owned(out))
}

// "Results": what is read, and what of it is known.

/// A word of a body and a word of the paper, without case.
fn is(word: &[u8], name: &[u8]) -> bool {
    word.eq_ignore_ascii_case(name)
}

const PTYPES: [&[u8]; 4] = [b"smtp", b"header", b"body", b"policy"];

/// The table of methods and of the results that each can have.
#[rustfmt::skip]
const METHODS: [(&[u8], &[&[u8]]); 6] = [
    (b"auth", &[b"none", b"pass", b"fail", b"temperror", b"permerror"]),
    (b"dkim", &[b"none", b"pass", b"fail", b"policy", b"neutral", b"temperror", b"permerror"]),
    (b"spf", &[b"none", b"pass", b"fail", b"softfail", b"policy", b"neutral", b"temperror", b"permerror"]),
    (b"iprev", &[b"pass", b"fail", b"temperror", b"permerror"]),
    (b"dmarc", &[b"none", b"pass", b"fail", b"temperror", b"permerror"]),
    (b"arc", &[b"none", b"pass", b"fail"]),
];

fn in_table(method: &[u8], result: &[u8]) -> bool {
    METHODS
        .iter()
        .find(|(name, _)| is(method, name))
        .is_some_and(|(_, results)| results.iter().any(|name| is(result, name)))
}

/// 02, ticket [3]: the number of a digit run up to 999,999, and "large" above that.
#[derive(Clone, Copy, Debug, PartialEq, Eq)]
enum VersionNumber {
    Number(u32),
    Large,
}

impl VersionNumber {
    const LARGEST: u32 = 999_999;
    const ONE: Self = VersionNumber::Number(1);

    /// Digit by digit, until the number is too large. Leading zeros leave it at 0.
    fn of(run: &[u8]) -> Self {
        let mut number = 0;
        for digit in run {
            number = number * 10 + u32::from(digit - b'0');
            if number > Self::LARGEST {
                return VersionNumber::Large;
            }
        }
        VersionNumber::Number(number)
    }
}

/// A digit run: without its leading zeros, `0` if all are zeros, and its number.
struct Digits<'a> {
    counted: &'a [u8],
    number: VersionNumber,
}

/// A body that can be reported.
struct Body<'a> {
    id: Text<'a>,
    content: Content<'a>,
}

enum Content<'a> {
    /// A header version other than 1, without leading zeros.
    OtherVersion(&'a [u8]),
    /// The word none.
    None,
    /// The results that aren't ignored, the properties of all of them, and the ignored count.
    Results {
        results: Vec<Resinfo<'a>>,
        properties: Vec<Property<'a>>,
        ignored: usize,
    },
}

struct Resinfo<'a> {
    method: &'a [u8],
    result: &'a [u8],
    reason: Option<Text<'a>>,
    /// Which of the body's properties are this result's.
    properties: Range<usize>,
}

struct Property<'a> {
    ptype: &'a [u8],
    property: &'a [u8],
    value: Value<'a>,
}

enum Value<'a> {
    Token(&'a [u8]),
    Quoted(Text<'a>),
    Mailbox(Text<'a>, &'a [u8]),
    AtDomain(&'a [u8]),
}

/// Reads a whole body, or answers 7 or 9.
fn read_body(bytes: &[u8]) -> Result<Body<'_>, u8> {
    let mut cursor = Cursor::new(bytes);
    let id = cursor.identifier().ok_or(number::BAD_IDENTIFIER)?;
    let version = cursor.header_version().ok_or(number::BAD_BODY)?;
    let content = if version.number == VersionNumber::ONE {
        cursor.content().ok_or(number::BAD_BODY)?
    } else {
        Content::OtherVersion(version.counted)
    };
    Ok(Body { id, content })
}

// "The report"

/// Where a report goes. It is rendered twice: to learn its length, since one that doesn't fit
/// must write nothing, and to write it.
trait Sink {
    fn bytes(&mut self, bytes: &[u8]);
    /// A keyword, in lower case.
    fn keyword(&mut self, keyword: &[u8]);
    /// A byte of a text: as it is, or % and two hex digits.
    fn text(&mut self, byte: u8);
}

struct Length(usize);

impl Sink for Length {
    fn bytes(&mut self, bytes: &[u8]) {
        self.0 += bytes.len();
    }

    fn keyword(&mut self, keyword: &[u8]) {
        self.0 += keyword.len();
    }

    fn text(&mut self, byte: u8) {
        self.0 += if PLAIN[byte as usize] { 1 } else { 3 };
    }
}

struct Writer<'a> {
    out: &'a mut [u8],
    at: usize,
}

impl Sink for Writer<'_> {
    fn bytes(&mut self, bytes: &[u8]) {
        self.out[self.at..self.at + bytes.len()].copy_from_slice(bytes);
        self.at += bytes.len();
    }

    fn keyword(&mut self, keyword: &[u8]) {
        let start = self.at;
        self.bytes(keyword);
        self.out[start..self.at].make_ascii_lowercase();
    }

    fn text(&mut self, byte: u8) {
        if PLAIN[byte as usize] {
            self.out[self.at] = byte;
            self.at += 1;
        } else {
            let hex = |digit: u8| b"0123456789ABCDEF"[usize::from(digit)];
            self.bytes(&[b'%', hex(byte >> 4), hex(byte & 15)]);
        }
    }
}

impl Body<'_> {
    fn render(&self, sink: &mut impl Sink) {
        sink.bytes(b"id\t");
        render_text(self.id, sink);
        sink.bytes(b"\n");
        match &self.content {
            Content::OtherVersion(version) => {
                sink.bytes(b"v\t");
                sink.bytes(version);
                sink.bytes(b"\n");
            }
            Content::None => sink.bytes(b"none\n"),
            Content::Results {
                results,
                properties,
                ..
            } => {
                for result in results {
                    result.render(&properties[result.properties.clone()], sink);
                }
            }
        }
    }
}

impl Resinfo<'_> {
    fn render(&self, properties: &[Property], sink: &mut impl Sink) {
        sink.bytes(b"m\t");
        sink.keyword(self.method);
        sink.bytes(b"\t");
        sink.keyword(self.result);
        sink.bytes(b"\n");
        if let Some(reason) = self.reason {
            sink.bytes(b"r\t");
            render_text(reason, sink);
            sink.bytes(b"\n");
        }
        for property in properties {
            sink.bytes(b"p\t");
            sink.keyword(property.ptype);
            sink.bytes(b"\t");
            sink.keyword(property.property);
            sink.bytes(b"\t");
            property.value.render(sink);
            sink.bytes(b"\n");
        }
    }
}

impl Value<'_> {
    fn render(&self, sink: &mut impl Sink) {
        match self {
            Value::Token(token) => {
                sink.bytes(b"t\t");
                render_text(Text::Token(token), sink);
            }
            Value::Quoted(text) => {
                sink.bytes(b"q\t");
                render_text(*text, sink);
            }
            Value::Mailbox(local, domain) => {
                sink.bytes(b"m\t");
                render_text(*local, sink);
                sink.bytes(b"@");
                sink.bytes(domain);
            }
            Value::AtDomain(domain) => {
                sink.bytes(b"a\t@");
                sink.bytes(domain);
            }
        }
    }
}

fn render_text(text: Text, sink: &mut impl Sink) {
    for byte in text.bytes() {
        sink.text(byte);
    }
}

// "The chain"

/// The kinds of ARC fields, by their place in an instance.
const KINDS: [&[u8]; 3] = [
    b"ARC-Authentication-Results",
    b"ARC-Message-Signature",
    b"ARC-Seal",
];
const RESULTS: usize = 0;
const SEAL: usize = 2;

/// A seal's chain validation status.
#[derive(Clone, Copy, PartialEq, Eq)]
enum Cv {
    None,
    Pass,
    Fail,
}

enum Chain {
    None,
    Failed { reason: u8, field: usize },
    Built(usize),
}

fn read_chain(block: &[u8]) -> Result<Chain, Stop> {
    // Instance 1 is at index 0. A seal's cv stands beside its place.
    let mut places = [[false; 3]; MAX_INSTANCE];
    let mut cvs = [Cv::None; MAX_INSTANCE];
    let mut highest = 0;
    let mut unreadable = None;
    let mut repeated = None;
    for (index, field) in Walk::new(block).enumerate() {
        let field = field?;
        let name = field.name(block);
        let Some(kind) = KINDS.iter().position(|kind| is(name, kind)) else {
            continue;
        };
        // The first unreadable field settles the reason; only answers 2 to 4 can still come.
        if unreadable.is_some() {
            continue;
        }
        match read_arc_field(field.body(block), kind) {
            None => unreadable = Some(index + 1),
            Some((instance, cv)) => {
                let place = &mut places[instance - 1][kind];
                if *place && repeated.is_none() {
                    repeated = Some(index + 1);
                }
                *place = true;
                if let Some(cv) = cv {
                    cvs[instance - 1] = cv;
                }
                highest = highest.max(instance);
            }
        }
    }
    let failed = |reason, field| Ok(Chain::Failed { reason, field });
    if let Some(field) = unreadable {
        return failed(reason::UNREADABLE, field);
    }
    if highest == 0 {
        return Ok(Chain::None);
    }
    if let Some(field) = repeated {
        return failed(reason::REPEATED, field);
    }
    if places[..highest].iter().flatten().any(|&filled| !filled) {
        return failed(reason::MISSING, 0);
    }
    if cvs[highest - 1] == Cv::Fail {
        return failed(reason::CV_FAIL, 0);
    }
    if cvs[0] != Cv::None || cvs[1..highest].iter().any(|&cv| cv != Cv::Pass) {
        return failed(reason::CV_ORDER, 0);
    }
    Ok(Chain::Built(highest))
}

/// The instance of an ARC field, and a seal's cv.
fn read_arc_field(body: &[u8], kind: usize) -> Option<(usize, Option<Cv>)> {
    let mut cursor = Cursor::new(body);
    let instance = cursor.instance()?;
    if kind == RESULTS {
        return Some((instance, None));
    }
    let (mut a, mut b, mut bh, mut d, mut h, mut s) = (false, false, false, false, false, false);
    let mut cv = None;
    cursor.tag_list(|name, value| match name {
        b"a" => a = true,
        b"b" => b = true,
        b"bh" => bh = true,
        b"d" => d = true,
        b"h" => h = true,
        b"s" => s = true,
        b"cv" if is(value, b"none") => cv = Some(Cv::None),
        b"cv" if is(value, b"pass") => cv = Some(Cv::Pass),
        b"cv" if is(value, b"fail") => cv = Some(Cv::Fail),
        _ => {}
    })?;
    if !(a && b && d && s) {
        return None;
    }
    if kind == SEAL {
        (!h).then_some((instance, Some(cv?)))
    } else {
        (bh && h).then_some((instance, None))
    }
}

#[cfg(test)]
mod tests;
