//! What the tests share: a small random generator, and generators of bodies, blocks, lists and
//! report lines that follow the grammar of document 01.

// Each test file is built by itself with its own copy of this module and uses a part of it.
#![allow(dead_code)]

pub mod appendix_b;
pub mod edges;
pub mod labels;
pub mod lines;
pub mod punycode;
pub mod rfc_3492;
pub mod versions;

use std::fmt::Write;

/// The bytes that a block or body may have.
pub const LIMIT: usize = 65_536;

/// The seed where the environment sets none.
pub const DEFAULT_SEED: u64 = 8601;

/// A number from the environment, or the default.
pub fn setting(name: &str, default: u64) -> u64 {
    match std::env::var(name) {
        Ok(text) => text
            .parse()
            .unwrap_or_else(|_| panic!("{name} must be a number, not {text:?}")),
        Err(_) => default,
    }
}

/// Prints to the terminal also where the test passes: the test harness keeps what `println!`
/// writes, but not this.
pub fn tell(text: &str) {
    use std::io::Write;
    let _ = std::io::stderr().write_all(text.as_bytes());
}

/// Bytes as they can be pasted into a Rust byte string.
pub fn shown(bytes: &[u8]) -> String {
    let mut text = format!(
        "{} bytes b\"{}\"",
        bytes.len(),
        bytes[..bytes.len().min(3000)].escape_ascii()
    );
    if bytes.len() > 3000 {
        let _ = write!(text, " and so on");
    }
    text
}

/// The splitmix64 generator.
pub struct Rng(u64);

impl Rng {
    pub fn new(seed: u64, stream: u64) -> Self {
        let mut rng = Rng(seed.wrapping_mul(0x2545_f491_4f6c_dd1d) ^ stream);
        rng.next();
        rng
    }

    pub fn next(&mut self) -> u64 {
        self.0 = self.0.wrapping_add(0x9e37_79b9_7f4a_7c15);
        let mut z = self.0;
        z = (z ^ (z >> 30)).wrapping_mul(0xbf58_476d_1ce4_e5b9);
        z = (z ^ (z >> 27)).wrapping_mul(0x94d0_49bb_1331_11eb);
        z ^ (z >> 31)
    }

    /// A number below `limit`, which isn't 0.
    pub fn below(&mut self, limit: usize) -> usize {
        (self.next() % limit as u64) as usize
    }

    pub fn between(&mut self, low: usize, high: usize) -> usize {
        low + self.below(high - low + 1)
    }

    /// True in so many of a hundred cases.
    pub fn chance(&mut self, percent: usize) -> bool {
        self.below(100) < percent
    }

    pub fn pick<T: Copy>(&mut self, from: &[T]) -> T {
        from[self.below(from.len())]
    }

    pub fn shuffle<T>(&mut self, items: &mut [T]) {
        for index in (1..items.len()).rev() {
            items.swap(index, self.below(index + 1));
        }
    }
}

// Small pieces.

const PRINTABLE: &[u8] =
    b"abcdefghijklmnopqrstuvwxyzABCDEFGHIJKLMNOPQRSTUVWXYZ0123456789!#$%&'*+-.^_`{|}~,:;<>@[]?=/ ";

/// Writes letters in lower or upper case as it comes.
pub fn cased(rng: &mut Rng, word: &[u8], out: &mut Vec<u8>) {
    let mode = rng.below(4);
    for &byte in word {
        out.push(match mode {
            0 => byte.to_ascii_uppercase(),
            1 if rng.chance(50) => byte.to_ascii_uppercase(),
            _ => byte,
        });
    }
}

fn fold(rng: &mut Rng, out: &mut Vec<u8>) {
    out.extend(rng.pick(&[
        &b" "[..],
        b" ",
        b" ",
        b"\t",
        b"  ",
        b"\r\n ",
        b"\r\n\t",
        b" \r\n \r\n ",
    ]));
}

pub fn comment(rng: &mut Rng, depth: usize, out: &mut Vec<u8>) {
    out.push(b'(');
    for _ in 0..rng.below(6) {
        match rng.below(12) {
            0 => fold(rng, out),
            1 => out.extend([b'\\', rng.pick(b"()\\\"; \t~a")]),
            2 => out.push(rng.between(128, 255) as u8),
            3 | 4 if depth > 1 => comment(rng, depth - 1, out),
            5 => out.extend(b"; spf=pass"),
            _ => out.push(rng.pick(PRINTABLE)),
        }
    }
    out.push(b')');
}

/// A comment of exactly this depth.
pub fn deep(depth: usize) -> Vec<u8> {
    let mut out = vec![b'('; depth];
    out.extend(b"x;");
    out.resize(out.len() + depth, b')');
    out
}

/// Space that isn't empty.
pub fn gap(rng: &mut Rng, out: &mut Vec<u8>) {
    for _ in 0..rng.pick(&[1, 1, 1, 2, 3]) {
        match rng.below(10) {
            0 => {
                let depth = rng.pick(&[1, 2, 3, 16]);
                comment(rng, depth, out);
            }
            1 if rng.chance(20) => out.extend(deep(16)),
            _ => fold(rng, out),
        }
    }
}

/// Space, empty more often than not.
pub fn space(rng: &mut Rng, out: &mut Vec<u8>) {
    if rng.chance(30) {
        gap(rng, out);
    }
}

pub fn token(rng: &mut Rng, out: &mut Vec<u8>) {
    const BYTES: &[u8] = b"abcdefghijklmnopqrstuvwxyzABCXYZ0123456789...---!#$%&'*+^_`{|}~";
    if rng.chance(50) {
        out.extend(rng.pick(&[
            &b"example.net"[..],
            b"192.0.2.200",
            b"x",
            b"1362471462",
            b"%41",
        ]));
        return;
    }
    for _ in 0..rng.between(1, 10) {
        out.push(rng.pick(BYTES));
    }
}

pub fn quoted(rng: &mut Rng, out: &mut Vec<u8>) {
    out.push(b'"');
    for _ in 0..rng.pick(&[0, 1, 3, 8]) {
        match rng.below(8) {
            0 => fold(rng, out),
            1 => out.extend([b'\\', rng.pick(b"\\\"a; \t%")]),
            2 => out.push(rng.between(128, 255) as u8),
            _ => out.push(rng.pick(PRINTABLE)),
        }
    }
    out.push(b'"');
}

fn keyword(rng: &mut Rng, out: &mut Vec<u8>) {
    for _ in 0..rng.below(6) {
        out.push(rng.pick(b"abcxyzABC019-"));
    }
    out.push(rng.pick(b"abcxyzABC019"));
}

// Identifier and header version.

/// Identifiers that lists and fields draw from, so that they meet; near misses among them.
pub const IDS: [&[u8]; 8] = [
    b"example.com",
    b"mail.example.org",
    b"a",
    b"example.co",
    b"example.comm",
    b"%20",
    b"1",
    b"b@c",
];

pub fn identifier(rng: &mut Rng, out: &mut Vec<u8>) {
    match rng.below(12) {
        0 => {
            token(rng, out);
            // Here alone a token may have these.
            for _ in 0..rng.pick(&[0, 0, 1, 3]) {
                out.push(rng.between(128, 255) as u8);
            }
        }
        1 => quoted(rng, out),
        10 | 11 => {
            let id = labels::common_name(rng);
            labels::bare_or_quoted(rng, &id, out);
        }
        2 | 3 => {
            // The same text, quoted and partly escaped.
            let id = rng.pick(&IDS);
            out.push(b'"');
            for &byte in id {
                if rng.chance(15) {
                    out.push(b'\\');
                }
                out.push(if rng.chance(20) {
                    byte.to_ascii_uppercase()
                } else {
                    byte
                });
                if rng.chance(2) {
                    out.extend(b"\r\n ");
                }
            }
            out.push(b'"');
        }
        4 if rng.chance(20) => {
            let length = rng.pick(&[254, 255, 256, 300]);
            out.resize(out.len() + length, b'l');
        }
        _ => {
            let id = rng.pick(&IDS[..7]);
            cased(rng, id, out);
        }
    }
}

/// A digit run that isn't worth 1.
pub fn other_number(rng: &mut Rng, out: &mut Vec<u8>) {
    out.extend(rng.pick(&[
        &b"2"[..],
        b"0",
        b"00",
        b"02",
        b"10",
        b"11",
        b"0000000000000000000000000000000000000000011",
        b"18446744073709551617",
        b"340282366920938463463374607431768211457",
        b"4294967297",
        b"257",
        b"999999",
        b"0999999",
        b"1000000",
        b"01000001",
    ]));
}

fn one(rng: &mut Rng, out: &mut Vec<u8>) {
    out.extend(rng.pick(&[&b"1"[..], b"1", b"01", b"0000000000000000000000000001"]));
}

// Results.

const METHODS: [&[u8]; 8] = [
    b"auth", b"dkim", b"spf", b"iprev", b"dmarc", b"arc", b"none", b"x-new",
];
const RESULTS: &[&[u8]] = &[
    b"none",
    b"pass",
    b"fail",
    b"pass",
    b"softfail",
    b"policy",
    b"neutral",
    b"temperror",
    b"permerror",
    b"other",
];

fn domain(rng: &mut Rng, out: &mut Vec<u8>) {
    for label in 0..rng.between(2, 4) {
        if label > 0 {
            out.push(b'.');
        }
        out.extend(rng.pick(&[&b"example"[..], b"d1", b"a-b", b"x", b"0", b"a--1"]));
    }
}

pub fn property_value(rng: &mut Rng, out: &mut Vec<u8>) {
    match rng.below(8) {
        0 => quoted(rng, out),
        1 => {
            out.push(b'@');
            domain(rng, out);
        }
        2 | 3 => {
            out.extend(rng.pick(&[&b"sender"[..], b"a.b", b"x/y=z", b"{a}.b?", b"%"]));
            out.push(b'@');
            domain(rng, out);
        }
        4 => {
            quoted(rng, out);
            out.push(b'@');
            domain(rng, out);
        }
        _ => token(rng, out),
    }
}

/// A result from its ";" to the last byte of its last part.
pub fn result(rng: &mut Rng, newer: bool, out: &mut Vec<u8>) {
    out.push(b';');
    space(rng, out);
    let method = if rng.chance(90) {
        rng.pick(&METHODS[..6])
    } else {
        rng.pick(&METHODS)
    };
    cased(rng, method, out);
    space(rng, out);
    if newer || rng.chance(20) {
        out.push(b'/');
        space(rng, out);
        if newer || rng.chance(30) {
            other_number(rng, out);
        } else {
            one(rng, out);
        }
        space(rng, out);
    }
    out.push(b'=');
    space(rng, out);
    if rng.chance(95) {
        let name = rng.pick(RESULTS);
        cased(rng, name, out);
    } else {
        keyword(rng, out);
    }
    if rng.chance(20) {
        gap(rng, out);
        cased(rng, b"reason", out);
        space(rng, out);
        out.push(b'=');
        space(rng, out);
        if rng.chance(50) {
            quoted(rng, out);
        } else {
            token(rng, out);
        }
    }
    for _ in 0..rng.pick(&[0, 0, 1, 1, 2, 5]) {
        gap(rng, out);
        property(rng, out);
    }
}

fn property(rng: &mut Rng, out: &mut Vec<u8>) {
    if rng.chance(96) {
        let ptype = rng.pick(&[&b"smtp"[..], b"header", b"body", b"policy"]);
        cased(rng, ptype, out);
    } else {
        let ptype = rng.pick(&[&b"reason"[..], b"dns", b"none", b"smtpx"]);
        cased(rng, ptype, out);
    }
    space(rng, out);
    out.push(b'.');
    space(rng, out);
    let name = rng.pick(&[
        &b"mailfrom"[..],
        b"d",
        b"i",
        b"auth",
        b"iprev",
        b"reason",
        b"x-1",
    ]);
    cased(rng, name, out);
    space(rng, out);
    out.push(b'=');
    space(rng, out);
    property_value(rng, out);
}

/// A body in pieces, so that a test can put something between them.
pub struct Body {
    /// Space, identifier and header version.
    pub lead: Vec<u8>,
    /// The space before each result, and the result.
    pub results: Vec<(Vec<u8>, Vec<u8>)>,
    /// In place of results: the word none, with its ";".
    pub none: Vec<u8>,
    /// The space at the end.
    pub tail: Vec<u8>,
}

impl Body {
    pub fn bytes(&self) -> Vec<u8> {
        let mut bytes = self.lead.clone();
        for (space, result) in &self.results {
            bytes.extend(space);
            bytes.extend(result);
        }
        bytes.extend(&self.none);
        bytes.extend(&self.tail);
        bytes
    }
}

/// A body with bytes from 128 up in one of its parts: the part, the body, and its number where the
/// room is large enough.
pub fn high_bytes(rng: &mut Rng) -> (&'static str, Vec<u8>, u8) {
    let (part, number, before, after) = rng.pick(HIGH_BYTES);
    let mut out = before.as_bytes().to_vec();
    for _ in 0..rng.between(1, 3) {
        out.push(rng.between(128, 255) as u8);
    }
    out.extend(after.bytes());
    (part, out, number)
}

/// Parts of a body, the number with bytes from 128 up there, and what stands around them.
#[rustfmt::skip]
pub const HIGH_BYTES: &[(&str, u8, &str, &str)] = &[
    ("128 up in the identifier", 0, "", "; spf=pass"),
    ("128 up in the identifier", 0, "(c) xn--", "a.example 1;none"),
    ("128 up in the identifier", 8, "a", "b 2"),
    ("128 up after the identifier", 7, "\"a\"", "; spf=pass"),
    ("128 up in a header version", 9, "a 1", "; spf=pass"),
    ("128 up in a method", 9, "a; s", "pf=pass"),
    ("128 up in a method version", 9, "a; spf/1", "=pass"),
    ("128 up in a result", 9, "a; spf=pa", "ss"),
    ("128 up in a reason", 9, "a; spf=pass reason=", ""),
    ("128 up in a reason", 9, "a; spf=pass reason=x", "y smtp.a=b"),
    ("128 up in a quoted reason", 0, "a; spf=pass reason=\"x", "y\" smtp.a=b"),
    ("128 up in a ptype", 9, "a; spf=pass sm", "tp.a=b"),
    ("128 up in a property", 9, "a; spf=pass smtp.a", "=b"),
    ("128 up in a value", 9, "a; spf=pass smtp.a=", ""),
    ("128 up in a value", 9, "a; spf=pass smtp.a=x", "y; spf=fail"),
    ("128 up in a quoted value", 0, "a; spf=pass smtp.a=\"", "\""),
    ("128 up in a local part", 9, "a; spf=pass smtp.a=x", "y@b.c"),
    ("128 up in a domain", 9, "a; spf=pass smtp.a=x@b", ".c"),
    ("128 up in a comment", 0, "a; spf=pass (", ")"),
];

/// The space, identifier and gap that come before a header version.
pub fn before_version(rng: &mut Rng) -> Vec<u8> {
    let mut out = Vec::new();
    space(rng, &mut out);
    identifier(rng, &mut out);
    gap(rng, &mut out);
    out
}

/// A well-formed body of header version 1; or, where `other_version`, of any header version.
pub fn body(rng: &mut Rng, results: usize, other_version: bool) -> Body {
    let mut lead = Vec::new();
    space(rng, &mut lead);
    identifier(rng, &mut lead);
    if rng.chance(15) {
        gap(rng, &mut lead);
        if other_version && rng.chance(40) {
            other_number(rng, &mut lead);
        } else {
            one(rng, &mut lead);
        }
    }
    let mut body = Body {
        lead,
        results: Vec::new(),
        none: Vec::new(),
        tail: Vec::new(),
    };
    if results == 0 {
        space(rng, &mut body.none);
        body.none.push(b';');
        space(rng, &mut body.none);
        cased(rng, b"none", &mut body.none);
    }
    for _ in 0..results {
        let (mut before, mut text) = (Vec::new(), Vec::new());
        space(rng, &mut before);
        result(rng, false, &mut text);
        body.results.push((before, text));
    }
    space(rng, &mut body.tail);
    body
}

// Blocks and lists.

pub fn list(rng: &mut Rng) -> Vec<u8> {
    let mut out = Vec::new();
    let entries = if rng.chance(2) {
        rng.pick(&[63, 64, 65, 66])
    } else {
        rng.below(5)
    };
    for _ in 0..entries {
        if rng.chance(2) {
            let length = rng.pick(&[254, 255, 256, 300]);
            out.resize(out.len() + length, b'l');
        } else if rng.chance(20) {
            out.extend(labels::common_name(rng));
        } else {
            let id = rng.pick(&IDS);
            cased(rng, id, &mut out);
        }
        out.push(b'\n');
    }
    if rng.chance(3) {
        let rest = rng.pick(&[
            &b"\n"[..],
            b"a",
            b"a b\n",
            b"a\r\n",
            b"a\x7f\n",
            b"\x80\n",
            b"\xc3",
            b"\xc3\n\xbc\n",
            b"\xed\xa0\x80\n",
            b"\xc3\xbc\n",
            b" \n",
        ]);
        out.extend(rest);
    }
    out
}

fn other_field(rng: &mut Rng) -> Vec<u8> {
    let mut out = Vec::new();
    let name = rng.pick(&[
        &b"From"[..],
        b"To",
        b"Received",
        b"Subject",
        b"X",
        b"Authentication-Result",
        b"!~",
        b"Authentication-Results-",
        b"ARC-Seals",
        b"ARC",
        b"DKIM-Signature",
        b"(x)",
    ]);
    cased(rng, name, &mut out);
    colon(rng, &mut out);
    for _ in 0..rng.below(12) {
        match rng.below(8) {
            0 => fold(rng, &mut out),
            // Nothing but CR and LF is forbidden in the body of another field.
            1 => out.push(rng.pick(b"\x00\x01\x7f\x80\xff:\"\\(")),
            _ => out.push(rng.pick(PRINTABLE)),
        }
    }
    out.extend(b"\r\n");
    out
}

fn colon(rng: &mut Rng, out: &mut Vec<u8>) {
    out.extend(rng.pick(&[&b":"[..], b":", b":", b" :", b"\t :", b": "]));
}

/// Takes the CRs and LFs out of a damaged body that would end its field.
fn keep_in_field(body: &[u8]) -> Vec<u8> {
    let mut out = Vec::new();
    let mut at = 0;
    while at < body.len() {
        match &body[at..] {
            [b'\r', b'\n', b' ' | b'\t', ..] => {
                out.extend(&body[at..at + 3]);
                at += 3;
            }
            [b'\r' | b'\n', ..] => at += 1,
            [byte, ..] => {
                out.push(*byte);
                at += 1;
            }
            [] => {}
        }
    }
    out
}

pub fn authentication_results(rng: &mut Rng) -> Vec<u8> {
    let mut out = Vec::new();
    cased(rng, b"authentication-results", &mut out);
    colon(rng, &mut out);
    let results = rng.below(3);
    let mut bytes = body(rng, results, true).bytes();
    if rng.chance(25) {
        bytes = keep_in_field(&damaged(rng, &bytes, b"; none"));
    }
    out.extend(bytes);
    out.extend(b"\r\n");
    out
}

pub const ARC_KINDS: [&[u8]; 3] = [
    b"arc-authentication-results",
    b"arc-message-signature",
    b"arc-seal",
];

fn tag(rng: &mut Rng, name: &[u8], value: &[u8], tags: &mut Vec<Vec<u8>>) {
    let mut out = Vec::new();
    let space = |rng: &mut Rng, out: &mut Vec<u8>| {
        if rng.chance(20) {
            fold(rng, out);
        }
    };
    space(rng, &mut out);
    out.extend(name);
    space(rng, &mut out);
    out.push(b'=');
    space(rng, &mut out);
    out.extend(value);
    space(rng, &mut out);
    tags.push(out);
}

/// An ARC field; `flaw` makes it unreadable in most cases.
pub fn arc_field(rng: &mut Rng, kind: usize, instance: usize, cv: &[u8], flaw: bool) -> Vec<u8> {
    let flaw = if flaw { rng.between(1, 14) } else { 0 };
    let mut out = Vec::new();
    cased(rng, ARC_KINDS[kind], &mut out);
    colon(rng, &mut out);
    space(rng, &mut out);
    out.push(if flaw == 1 { b'I' } else { b'i' });
    space(rng, &mut out);
    out.push(b'=');
    space(rng, &mut out);
    let digits = match flaw {
        2 => rng
            .pick(&["0", "00", "51", "99", "001", "", "1x", "1 2", "+1"])
            .to_string(),
        _ if rng.chance(10) => format!("{instance:02}"),
        _ => instance.to_string(),
    };
    out.extend(digits.bytes());
    space(rng, &mut out);
    if flaw != 3 {
        out.push(b';');
    }
    if kind == 0 {
        let rest = rng.pick(&[
            &b""[..],
            b" example.org; spf=pass",
            b";;;",
            b" (",
            b"\x00",
            b" i=2;",
        ]);
        out.extend(rest);
        out.extend(b"\r\n");
        return out;
    }
    let mut tags = Vec::new();
    let wanted: &[&[u8]] = if kind == 1 {
        &[b"a", b"b", b"bh", b"d", b"h", b"s"]
    } else {
        &[b"a", b"b", b"d", b"s"]
    };
    let missing = if flaw == 4 {
        rng.below(wanted.len())
    } else {
        usize::MAX
    };
    for (index, name) in wanted.iter().enumerate() {
        if index != missing {
            let value = rng.pick(&[
                &b"x"[..],
                b"",
                b"rsa-sha256",
                b"a b",
                b"a\r\n =",
                b"\x80:\xff",
                b"from:to",
            ]);
            tag(rng, name, value, &mut tags);
        }
    }
    if kind == 2 && flaw != 5 {
        let mut value = Vec::new();
        cased(rng, cv, &mut value);
        if flaw == 6 {
            value = rng
                .pick(&[&b""[..], b"p ass", b"passed", b"pas", b"none;cv=none"])
                .to_vec();
        }
        tag(rng, b"cv", &value, &mut tags);
    }
    match flaw {
        7 => {
            let again = rng.pick(wanted);
            tag(rng, again, b"", &mut tags);
        }
        8 => tag(rng, if kind == 2 { b"h" } else { b"b" }, b"from", &mut tags),
        9 => tag(rng, b"i", b"1", &mut tags),
        10 => {
            let name = rng.pick(&[&b"1a"[..], b"_a", b"a-b", b"", b"(c)z", b"\x80"]);
            tag(rng, name, b"x", &mut tags);
        }
        11 => {
            let value = rng.pick(&[&b"a\x00b"[..], b"\x7f", b"x\x01"]);
            tag(rng, b"z", value, &mut tags);
        }
        _ => {}
    }
    if rng.chance(20) {
        for name in [&b"t"[..], b"H", b"I", b"A_1", b"CV", b"BH"] {
            if rng.chance(40) {
                tag(rng, name, b"1", &mut tags);
            }
        }
    }
    if rng.chance(50) {
        rng.shuffle(&mut tags);
    }
    out.extend(tags.join(&b';'));
    out.extend(match flaw {
        12 => rng.pick(&[&b"; "[..], b";;", b";x", b";\r\n "]),
        13 => b";z",
        14 => b"(c)",
        _ if rng.chance(20) => b";",
        _ => b"",
    });
    out.extend(b"\r\n");
    out
}

/// The ARC fields of a chain, most often sound, and how many instances it was meant to have.
pub fn chain(rng: &mut Rng) -> (Vec<Vec<u8>>, usize) {
    let instances = match rng.below(100) {
        0..=4 => 0,
        5..=94 => rng.between(1, 4),
        95..=97 => rng.between(5, 12),
        _ => rng.pick(&[48, 49, 50, 50, 50]),
    };
    let mut fields = Vec::new();
    let cv_flaw = rng.chance(15);
    let flaw = rng.chance(10);
    for instance in 1..=instances {
        for kind in 0..3 {
            let mut cv: &[u8] = if instance == 1 { b"none" } else { b"pass" };
            if cv_flaw && rng.chance(40) {
                cv = rng.pick(&[&b"none"[..], b"pass", b"fail"]);
            }
            let flaw = flaw && rng.below(3 * instances) == 0;
            fields.push(arc_field(rng, kind, instance, cv, flaw));
        }
    }
    if rng.chance(8) && !fields.is_empty() {
        fields.remove(rng.below(fields.len()));
    }
    if rng.chance(8) {
        let (kind, instance) = (rng.below(3), rng.between(1, (instances + 2).min(50)));
        fields.push(arc_field(rng, kind, instance, b"pass", false));
    }
    match rng.below(3) {
        0 => rng.shuffle(&mut fields),
        1 => fields.reverse(),
        _ => {}
    }
    (fields, instances)
}

/// A block of fields, `arc` of them for a chain, and the chain's instances.
pub fn block(rng: &mut Rng, arc: bool) -> (Vec<u8>, usize) {
    let (mut fields, instances) = if arc { chain(rng) } else { (Vec::new(), 0) };
    let others = if rng.chance(1) {
        rng.between(505, 515)
    } else {
        rng.pick(&[0, 1, 2, 3, 6, 12])
    };
    for _ in 0..others {
        let field = if rng.chance(if arc { 5 } else { 50 }) {
            authentication_results(rng)
        } else {
            other_field(rng)
        };
        let place = rng.below(fields.len() + 1);
        fields.insert(place, field);
    }
    (fields.concat(), instances)
}

/// Makes a block so long with one more field, if it isn't longer already.
pub fn pad_block(block: &mut Vec<u8>, length: usize) {
    if block.len() + 4 <= length {
        block.extend(b"P:");
        block.resize(length - 2, b'p');
        block.extend(b"\r\n");
    }
}

// Damage.

/// Bytes that mean something somewhere.
const TELLING: &[u8] = b" \t\r\n()\\\";:/=@.,%-_0129aizAIZ\x00\x01\x1f\x7f\x80\xff<>[]?";

/// One to three small changes; `other` is where spliced-in bytes come from.
pub fn damaged(rng: &mut Rng, bytes: &[u8], other: &[u8]) -> Vec<u8> {
    let mut out = bytes.to_vec();
    for _ in 0..rng.pick(&[1, 1, 1, 2, 3]) {
        let at = rng.below(out.len() + 1);
        let end = (at + rng.pick(&[1, 1, 1, 2, 3, 10])).min(out.len());
        match rng.below(14) {
            0..=2 => drop(out.drain(at..end)),
            3..=5 => out.insert(at, rng.pick(TELLING)),
            6 | 7 if at < out.len() => out[at] = rng.pick(TELLING),
            8 if at < out.len() => out[at] = rng.next() as u8,
            9 if rng.chance(30) => out.truncate(at),
            10 => {
                let depth = rng.pick(&[16, 17]);
                out.splice(at..at, deep(depth)).for_each(drop);
            }
            _ => {
                let from = rng.below(other.len() + 1);
                let to = (from + rng.below(20)).min(other.len());
                out.splice(at..end, other[from..to].iter().copied());
            }
        }
    }
    out
}
