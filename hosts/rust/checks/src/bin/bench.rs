//! Measures the calls: `cargo run --release --bin bench`, and with `-- --counts` the instructions
//! of the realistic calls, counted by valgrind, which are the same on each run.
//!
//! The linked library, the independent implementation and a copy of the same bytes take turns,
//! and the best of many short rounds counts, so that whatever else the machine does matters
//! little. The inputs are realistic ones, and for each call 64 KiB of what might be slow. The
//! last column says how much longer these take than half as many bytes: about 2 is linear. Stripping
//! is measured by steps, `mark` and `copy` with the right marks, and with both steps in turn; beside
//! both stands an implementation that strips in one walk.

use std::hint::black_box;
use std::process::{Command, ExitCode};
use std::time::{Duration, Instant};

use orbendash::raw as library;
use orbendash_checks::reference;

#[path = "../../tests/common/appendix_b.rs"]
mod appendix_b;
#[path = "../../tests/common/punycode.rs"]
mod punycode;

use appendix_b::APPENDIX_B;
use punycode::a_label;

const FULL: usize = 65_536;
/// How long a row takes, and how many rounds it has at least.
const ROW: Duration = Duration::from_millis(400);
const ROUNDS: usize = 10;
/// How long a call is repeated in each round.
const ROUND_NANOSECONDS: u128 = 150_000;

/// A call with its input.
enum Call {
    Mark {
        block: Vec<u8>,
        list: Vec<u8>,
    },
    Copy {
        block: Vec<u8>,
        list: Vec<u8>,
        marks: Vec<u8>,
    },
    /// Both steps in turn.
    Strip {
        block: Vec<u8>,
        list: Vec<u8>,
    },
    Whose {
        list: Vec<u8>,
        body: Vec<u8>,
    },
    Report {
        bodies: Vec<Vec<u8>>,
    },
    Write {
        reports: Vec<Vec<u8>>,
    },
    Judge {
        block: Vec<u8>,
        verdicts: Vec<u8>,
    },
    NextField {
        block: Vec<u8>,
        place: usize,
    },
    /// All fields of a block, one call for each: on the whole block from place to place, or each
    /// time on what is left, as the iterator of fields does.
    Walk {
        block: Vec<u8>,
        on_rest: bool,
    },
}

impl Call {
    fn name(&self) -> &'static str {
        match self {
            Call::Mark { .. } => "mark",
            Call::Copy { .. } => "copy",
            Call::Strip { .. } => "strip, both steps",
            Call::Whose { .. } => "whose",
            Call::Report { .. } => "report",
            Call::Write { .. } => "write",
            Call::Judge { .. } => "judge",
            Call::NextField { .. } => "next_field",
            Call::Walk { .. } => "walk",
        }
    }

    /// The bytes that are read, without list and verdicts.
    fn input(&self) -> Vec<u8> {
        match self {
            Call::Whose { body, .. } => body.clone(),
            Call::Report { bodies } => bodies.concat(),
            Call::Write { reports } => reports.concat(),
            Call::Mark { block, .. }
            | Call::Copy { block, .. }
            | Call::Strip { block, .. }
            | Call::Judge { block, .. }
            | Call::NextField { block, .. }
            | Call::Walk { block, .. } => block.clone(),
        }
    }

    /// Runs the library's call; the last answer number.
    fn library(&self, out: &mut [u8]) -> u8 {
        match self {
            Call::Mark { block, list } => black_box(library::mark(block, list, out)).number,
            Call::Copy { block, list, marks } => {
                black_box(library::copy(block, list, marks, out)).number
            }
            Call::Strip { block, list } => black_box(library::strip(block, list, out)).number,
            Call::Whose { list, body } => black_box(library::whose(list, body)).number,
            Call::Report { bodies } => bodies
                .iter()
                .map(|body| black_box(library::report(body, out)).number)
                .fold(0, |_, number| number),
            Call::Write { reports } => reports
                .iter()
                .map(|lines| black_box(library::write(lines, out)).number)
                .fold(0, |_, number| number),
            Call::Judge { block, verdicts } => black_box(library::judge(block, verdicts)).number,
            Call::NextField { block, place } => {
                black_box(library::next_field(block, *place)).number
            }
            Call::Walk { block, on_rest } => walk(block, *on_rest, library::next_field),
        }
    }

    /// The same with the independent implementation.
    fn reference(&self, out: &mut [u8]) -> u8 {
        match self {
            Call::Mark { block, list } => black_box(reference::mark(block, list, out)).number,
            Call::Copy { block, list, marks } => {
                black_box(reference::copy(block, list, marks, out)).number
            }
            Call::Strip { block, list } => black_box(reference::strip(block, list, out)).number,
            Call::Whose { list, body } => black_box(reference::whose(list, body)).number,
            Call::Report { bodies } => bodies
                .iter()
                .map(|body| black_box(reference::report(body, out)).number)
                .fold(0, |_, number| number),
            Call::Write { reports } => reports
                .iter()
                .map(|lines| black_box(reference::write(lines, out)).number)
                .fold(0, |_, number| number),
            Call::Judge { block, verdicts } => black_box(reference::judge(block, verdicts)).number,
            Call::NextField { block, place } => {
                black_box(reference::next_field(block, *place)).number
            }
            Call::Walk { block, on_rest } => walk(block, *on_rest, reference::next_field),
        }
    }
}

fn walk(block: &[u8], on_rest: bool, step: fn(&[u8], usize) -> library::FieldAnswer) -> u8 {
    let mut from = 0;
    let mut place = 0;
    loop {
        let answer = black_box(step(&block[from..], place - from));
        if answer.found == 0 {
            return answer.number;
        }
        place = from + answer.end;
        if on_rest {
            from = place;
        }
    }
}

/// Nanoseconds for one call.
struct Times {
    number: u8,
    bytes: usize,
    library: f64,
    reference: f64,
    copy: f64,
}

/// How often a piece of work fits into a round.
fn repeats<T>(mut work: impl FnMut() -> T) -> u32 {
    let mut times = 1u32;
    loop {
        let start = Instant::now();
        for _ in 0..times {
            black_box(work());
        }
        let taken = start.elapsed().as_nanos().max(1);
        if taken * 4 >= ROUND_NANOSECONDS || times >= 1 << 20 {
            let fitting = u128::from(times) * ROUND_NANOSECONDS / taken;
            return fitting.clamp(1, 1 << 22) as u32;
        }
        times *= 4;
    }
}

fn time<T>(repeats: u32, mut work: impl FnMut() -> T) -> f64 {
    let start = Instant::now();
    for _ in 0..repeats {
        black_box(work());
    }
    start.elapsed().as_nanos() as f64 / f64::from(repeats)
}

/// A call with its buffers and how often it is repeated in a round.
struct Measured<'a> {
    call: &'a Call,
    input: Vec<u8>,
    out: Vec<u8>,
    repeats: [u32; 3],
    times: Times,
}

impl<'a> Measured<'a> {
    fn new(call: &'a Call) -> Self {
        let input = call.input();
        let mut out = vec![0; 3 * input.len() + 8];
        let number = call.library(&mut out);
        let other = call.reference(&mut out);
        assert_eq!(number, other, "the answers to {} differ", call.name());
        let repeats = [
            repeats(|| call.library(&mut out)),
            repeats(|| call.reference(&mut out)),
            repeats(|| black_box(&mut out[..input.len()]).copy_from_slice(black_box(&input))),
        ];
        let times = Times {
            number,
            bytes: input.len(),
            library: f64::MAX,
            reference: f64::MAX,
            copy: f64::MAX,
        };
        Measured {
            call,
            input,
            out,
            repeats,
            times,
        }
    }

    fn round(&mut self) {
        let Measured {
            call, input, out, ..
        } = self;
        let [library, reference, copy] = self.repeats;
        let library = time(library, || call.library(out));
        let reference = time(reference, || call.reference(out));
        let copy = time(copy, || {
            black_box(&mut out[..input.len()]).copy_from_slice(black_box(input));
        });
        self.times.library = self.times.library.min(library);
        self.times.reference = self.times.reference.min(reference);
        self.times.copy = self.times.copy.min(copy);
    }
}

/// Measures calls that take turns.
fn measure<const N: usize>(calls: [&Call; N]) -> [Times; N] {
    let mut measured = calls.map(Measured::new);
    let start = Instant::now();
    let mut rounds = 0;
    while rounds < ROUNDS || start.elapsed() < ROW {
        for one in &mut measured {
            one.round();
        }
        rounds += 1;
    }
    measured.map(|one| one.times)
}

fn print_row(call: &Call, input: &str, times: &Times, growth: Option<f64>) {
    let growth = growth.map_or("-".to_string(), |growth| format!("{growth:.2}"));
    println!(
        "{:<19}{:<40}{:>6}{:>8}{:>13.0}{:>11.2}{:>9.1}{:>12}",
        call.name(),
        input,
        times.number,
        times.bytes,
        times.library,
        times.library / times.reference,
        times.library / times.copy,
        growth
    );
}

fn realistic(input: &str, call: Call) {
    let [times] = measure([&call]);
    print_row(&call, input, &times, None);
}

/// Measures an input of full and of half size.
fn adversarial(input: &str, make: impl Fn(usize) -> Call) {
    let call = make(FULL);
    let [half, full] = measure([&make(FULL / 2), &call]);
    assert!(
        full.bytes <= FULL && full.bytes * 100 > FULL * 95,
        "{input}"
    );
    print_row(&call, input, &full, Some(full.library / half.library));
}

// Inputs.

/// A header block as a mailing list's subscriber may get it: 32 fields, three of them
/// Authentication-Results, and two ARC sets; 6.5 KB.
fn mail() -> Vec<u8> {
    let mut block = String::from(
        "Return-Path: <bounces+user=example.com@lists.example.org>\r\n\
         Delivered-To: user@example.com\r\n\
         Authentication-Results: mx.example.com;\r\n\
         \tdkim=pass (2048-bit key; unprotected) header.d=lists.example.org header.i=@lists.example.org\r\n\
         \t header.a=rsa-sha256 header.s=dk2024 header.b=oINEO8hg;\r\n\
         \tspf=pass (mx.example.com: domain of bounces@lists.example.org designates 192.0.2.17 as\r\n\
         \t permitted sender) smtp.mailfrom=bounces@lists.example.org;\r\n\
         \tdmarc=fail reason=\"altered by the list\" (p=none) header.from=sender.example;\r\n\
         \tarc=pass (as.2.lists.example.org=pass)\r\n",
    );
    let signature = "CU87XzXlNlk5X/yW4l73UvPUcP9ivwYWxyBWcVrRs7\r\n\
         \t +HPx3K05nJhny2fvymbReAmOA9GTH/y+k9kEc59hAKVgo71vwyLsK+Wm4cOSlirXoRwzEvi0vqId\r\n\
         \t /2/GkYFYlSd/GGfKzkAgPqxfK7ccBMP7Zjb/mpeggswHjEMS8x5NQDsoD3n3hiwlrN1ma8IZQFgZ\r\n\
         \t x8EDO7Wah3hUjIEsYKuShRKYB4LwGUiKD5YyHgcIwGHhSc/4+ewYqHMWDnuFxiQTlCCKzgk3TrAa==";
    for (instance, cv, domain) in [
        (2, "pass", "lists.example.org"),
        (1, "none", "relay.example.net"),
    ] {
        block += &format!(
            "ARC-Seal: i={instance}; a=rsa-sha256; d={domain}; s=arc-2024; t=1700000000; cv={cv};\r\n\
             \tb={signature}\r\n\
             ARC-Message-Signature: i={instance}; a=rsa-sha256; c=relaxed/relaxed; d={domain};\r\n\
             \ts=arc-2024; t=1700000000; h=from:to:cc:subject:date:message-id:mime-version:content-type:\r\n\
             \t content-transfer-encoding:in-reply-to:references:list-id;\r\n\
             \tbh=KWSe46TZKCcDbH4klJPo+tjk5LWJnVRlP5pvjXFZYLQ=;\r\n\
             \tb={signature}\r\n\
             ARC-Authentication-Results: i={instance}; {domain};\r\n\
             \tdkim=pass header.d=sender.example; spf=pass smtp.mailfrom=who@sender.example;\r\n\
             \tdmarc=pass header.from=sender.example\r\n"
        );
    }
    for hop in 1..=6 {
        block += &format!(
            "Received: from relay-{hop}.example.net (relay-{hop}.example.net [192.0.2.{hop}])\r\n\
             \t(using TLSv1.3 with cipher TLS_AES_256_GCM_SHA384 (256/256 bits))\r\n\
             \tby mx-{hop}.example.org (Postfix) with ESMTPS id 4S{hop}aBcDeFgHiJ\r\n\
             \tfor <user@example.com>; Tue, 14 Nov 2023 22:1{hop}:20 +0000 (UTC)\r\n"
        );
    }
    block += &format!(
        "Authentication-Results: relay.example.net; dkim=pass header.d=sender.example\r\n\
         Authentication-Results: mail.sender.example;\r\n\
         \tauth=pass (plain) smtp.auth=somebody.else@sender.example\r\n\
         Received-SPF: pass (mx.example.com: the policy that was found asks for no other check than\r\n\
         \tthis one, so it is enough: domain of lists.example.org designates 192.0.2.17 as permitted\r\n\
         \tsender) client-ip=192.0.2.17; envelope-from=\"bounces@lists.example.org\";\r\n\
         \thelo=relay-6.example.net;\r\n\
         DKIM-Signature: v=1; a=rsa-sha256; c=relaxed/relaxed; d=lists.example.org; s=dk2024;\r\n\
         \tt=1700000000; h=from:to:subject:date:list-id; bh=KWSe46TZKCcDbH4klJPo+tjk5LWJnVRlP5pvjXFZYLQ=;\r\n\
         \tb={signature}\r\n\
         DKIM-Signature: v=1; a=rsa-sha256; c=relaxed/relaxed; d=sender.example; s=s1;\r\n\
         \tt=1700000000; h=from:to:subject:date; bh=KWSe46TZKCcDbH4klJPo+tjk5LWJnVRlP5pvjXFZYLQ=;\r\n\
         \tb={signature}\r\n\
         From: Somebody Else <somebody.else@sender.example>\r\n\
         To: The List <list@lists.example.org>\r\n\
         Subject: Re: [list] How the header fields of a forwarded message add up, and\r\n\
         \twhat a gateway between two lists may still rely on when it has read them all\r\n\
         Date: Tue, 14 Nov 2023 23:13:20 +0100\r\n\
         Message-ID: <54B84785.1060301@sender.example>\r\n\
         In-Reply-To: <CAGx7y2@mail.sender.example>\r\n\
         References: <CAGx7y0@mail.sender.example> <CAGx7y1@mail.sender.example>\r\n\
         \t<CAGx7y2@mail.sender.example>\r\n\
         MIME-Version: 1.0\r\n\
         Content-Type: multipart/alternative; boundary=\"----=_Part_1234_567890.1700000000\"\r\n\
         List-Id: The List <list.lists.example.org>\r\n\
         List-Unsubscribe: <https://lists.example.org/unsubscribe/list>\r\n\
         Precedence: list\r\n"
    );
    block.into_bytes()
}

/// One field body as a large receiver writes it, with comments; 384 bytes.
const FIELD: &str = " mx.example.com;\r\n\
     \tdkim=pass (2048-bit key; unprotected) header.d=lists.example.org\r\n\
     \t header.i=@lists.example.org header.s=dk2024 header.b=oINEO8hg;\r\n\
     \tspf=pass (mx.example.com: domain of bounces@lists.example.org designates 192.0.2.17\r\n\
     \t as permitted sender) smtp.mailfrom=bounces@lists.example.org;\r\n\
     \tdmarc=pass (p=none; dis=none) header.from=sender.example;\r\n\
     \tarc=pass (i=2) (as.2)";

/// A piece as often as it fits between a start and an end.
fn filled(size: usize, start: &[u8], piece: &[u8], end: &[u8]) -> Vec<u8> {
    let times = (size - start.len() - end.len()) / piece.len();
    [start, &piece.repeat(times), end].concat()
}

/// Fields that fill the size together; each starts with one of the given and is padded.
fn fields(size: usize, count: usize, start: impl Fn(usize) -> String) -> Vec<u8> {
    let mut block = Vec::new();
    for index in 0..count {
        block.extend(start(index).bytes());
        block.resize(size * (index + 1) / count - 2, b'x');
        block.extend(b"\r\n");
    }
    block
}

/// 16 deep, the most that is read.
const DEEP: &[u8] = b"((((((((((((((((x))))))))))))))))";

fn mark(block: Vec<u8>, list: &[u8]) -> Call {
    let list = list.to_vec();
    Call::Mark { block, list }
}

/// The second step, with the marks of the first.
fn copy(block: Vec<u8>, list: &[u8]) -> Call {
    let mut marks = vec![0; orbendash::limit::FIELDS];
    let answer = reference::mark(&block, list, &mut marks);
    marks.truncate(answer.written);
    let list = list.to_vec();
    Call::Copy { block, list, marks }
}

fn strip(block: Vec<u8>, list: &[u8]) -> Call {
    let list = list.to_vec();
    Call::Strip { block, list }
}

fn report(body: Vec<u8>) -> Call {
    Call::Report { bodies: vec![body] }
}

fn judge(block: Vec<u8>) -> Call {
    Call::Judge {
        block,
        verdicts: vec![3; 50],
    }
}

/// 64 entries that differ from the given in their last byte only.
fn near_misses(id: &str) -> Vec<u8> {
    (0..64u8)
        .flat_map(|n| [id.as_bytes(), &[b'A' + n % 58, b'\n']].concat())
        .collect()
}

/// An A-label of so many bytes that decodes to a long run of one character and a last one, which is
/// another for each number.
fn long_a_label(bytes: usize, number: u32) -> String {
    let last = char::from_u32(0x4e00 + number).expect("a character");
    let mut text = String::from(last);
    while a_label(&text).len() < bytes {
        text.insert(0, '\u{e9}');
    }
    let label = String::from_utf8(a_label(&text)).expect("an A-label is ASCII");
    assert_eq!(label.len(), bytes);
    label
}

/// 64 entries of one A-label each, which decode to the same but for the last character.
fn long_a_labels() -> Vec<u8> {
    (0..64)
        .flat_map(|number| format!("{}\n", long_a_label(255, number)).into_bytes())
        .collect()
}

/// 64 entries of 255 bytes, of A-labels only, which decode to the same but for the last character.
fn many_a_labels() -> Vec<u8> {
    (0..64)
        .flat_map(|number| {
            let last = char::from_u32(0x100 + number).expect("a character");
            let last = String::from_utf8(a_label(&last.to_string())).expect("ASCII");
            let entry = format!("xn--{}-.{}{last}\n", "a".repeat(11), "xn--a-.".repeat(33));
            assert_eq!(entry.len(), 256);
            entry.into_bytes()
        })
        .collect()
}

/// A seal with so many bytes of tags that have nothing but distinct names.
fn tags(size: usize, name: impl Fn(usize) -> String) -> Vec<u8> {
    let mut block = b"ARC-Seal: i=1; a=;b=;d=;s=;cv=none".to_vec();
    for number in 0.. {
        let tag = format!(";{}=", name(number));
        if block.len() + tag.len() + 2 > size {
            break;
        }
        block.extend(tag.bytes());
    }
    block.extend(b"\r\n");
    block
}

/// A number in letters and digits, always four of them.
fn letters(number: usize) -> String {
    const DIGITS: &[u8; 36] = b"abcdefghijklmnopqrstuvwxyz0123456789";
    [46_656, 1296, 36, 1]
        .map(|worth| char::from(DIGITS[number / worth % 36]))
        .iter()
        .collect()
}

/// A number in three digits of base 36, in the order of bytes.
fn rising(number: usize) -> String {
    const DIGITS: &[u8; 36] = b"0123456789abcdefghijklmnopqrstuvwxyz";
    [1296, 36, 1]
        .map(|worth| char::from(DIGITS[number / worth % 36]))
        .iter()
        .collect()
}

/// As many whole fields as fit the size, up to 512.
fn seals(size: usize, start: impl Fn(usize) -> String) -> Vec<u8> {
    let mut block = Vec::new();
    for index in 0..512 {
        let field = start(index) + "\r\n";
        if block.len() + field.len() > size {
            break;
        }
        block.extend(field.bytes());
    }
    block
}

/// An input made of one piece, as often as it fits: name, start, piece, end.
type Filled = (&'static str, &'static [u8], &'static [u8], &'static [u8]);

/// Blocks of one field for strip.
#[rustfmt::skip]
const FIELDS: &[Filled] = &[
    ("one field, one long comment", b"Authentication-Results:(", b"x", b")other.example;none\r\n"),
    ("one field, comments 16 deep", b"Authentication-Results:", DEEP, b"a;none\r\n"),
    ("one field, comment unclosed", b"Authentication-Results:(", b"x", b"\r\n"),
    ("one field, lines of 3 bytes", b"Authentication-Results:", b"\r\n ", b"a;none\r\n"),
    ("one field, long identifier", b"Authentication-Results:", b"x", b";none\r\n"),
    ("one field, long quoted identifier", b"Authentication-Results:\"", b"\\x", b"\";none\r\n"),
    ("one field, thousands of results", b"Authentication-Results:a", b";spf=pass", b"\r\n"),
    ("one field of another name", b"X:", b"x", b"\r\n"),
];

/// The same with A-labels, for a list that has some.
#[rustfmt::skip]
const A_LABELS: &[Filled] = &[
    ("one field, long A-label", b"Authentication-Results:xn--", b"a", b";none\r\n"),
    ("one field, long A-label, quoted", b"Authentication-Results:\"xn--", b"\\a", b"\";none\r\n"),
    ("one field, long basic part", b"Authentication-Results:xn--", b"x", b"-tda;none\r\n"),
    ("one field, thousands of A-labels", b"Authentication-Results:", b"xn--tda.", b"a;none\r\n"),
    ("one field, thousands of empty labels", b"Authentication-Results:", b"xn--.", b"a;none\r\n"),
];

/// Bodies for report.
#[rustfmt::skip]
const BODIES: &[Filled] = &[
    ("one long comment", b"(", b"x", b")a;none"),
    ("comments 16 deep", b"", DEEP, b"a;none"),
    ("comments 16 deep, then one of 17", b"", DEEP, b"(((((((((((((((((x)))))))))))))))))a;none"),
    ("comment unclosed", b"a;spf=pass (", b"x", b""),
    ("lines of 3 bytes", b"", b"\r\n ", b"a;none"),
    ("long identifier, all escaped", b"", b"%", b";none"),
    ("long quoted identifier", b"\"", b"\\\"", b"\";none"),
    ("long header version", b"a ", b"0", b"2;"),
    ("results", b"a", b";spf=pass", b""),
    ("results, the last one broken", b"a", b";spf=pass", b";"),
    ("results of a newer version", b"a", b";spf/2=pass", b""),
    ("properties", b"a;spf=pass", b" smtp.a=b", b""),
    ("properties, the last one unknown", b"a;spf=pass", b" smtp.a=b", b" dns.a=b"),
    ("properties with mailboxes", b"a;spf=pass", b" smtp.a=b.c@d.e", b""),
    ("properties with quoted values", b"a;spf=pass", b" smtp.a=\"b\\c\"", b""),
    ("long local part", b"a;spf=pass smtp.a=", b"x.", b"x@a.b"),
    ("long domain", b"a;spf=pass smtp.a=@a", b".b", b""),
    ("long keyword", b"a;", b"m-", b"m=pass"),
    ("keyword with hyphens at its end", b"a;spf=p", b"-", b""),
];

/// Report lines for write.
#[rustfmt::skip]
const LINES: &[Filled] = &[
    ("long identifier", b"id\t", b"x", b"\nnone\n"),
    ("long identifier, all coded", b"id\t", b"%FF", b"\nnone\n"),
    ("long identifier, quoted", b"id\t%20", b"x", b"\nnone\n"),
    ("long identifier, then nothing", b"id\t", b"x", b"\n"),
    ("results", b"id\ta\n", b"m\tspf\tpass\n", b""),
    ("results, the last one without LF", b"id\ta\n", b"m\tspf\tpass\n", b"m\tspf\tpass"),
    ("properties", b"id\ta\nm\tspf\tpass\n", b"p\tsmtp\ta\tt\tb\n", b""),
    ("properties with mailboxes", b"id\ta\nm\tspf\tpass\n", b"p\tsmtp\ta\tm\tb.c@d.e\n", b""),
    ("properties with quoted values", b"id\ta\nm\tspf\tpass\n", b"p\tsmtp\ta\tq\tb\\c\n", b""),
    ("long local part", b"id\ta\nm\tspf\tpass\np\tsmtp\ta\tm\t", b"x.", b"x@a.b\n"),
    ("long local part of @", b"id\ta\nm\tspf\tpass\np\tsmtp\ta\tm\t", b"@", b"a.b\n"),
    ("long domain", b"id\ta\nm\tspf\tpass\np\tsmtp\ta\ta\t@a", b".b", b"\n"),
];

/// Blocks of one seal for judge.
#[rustfmt::skip]
const SEALS: &[Filled] = &[
    ("one seal, one long comment", b"ARC-Seal:(", b"x", b")i=1;a=;b=;d=;s=;cv=none\r\n"),
    ("one seal, comments 16 deep", b"ARC-Seal:", DEEP, b"i=1;a=;b=;d=;s=;cv=none\r\n"),
    ("one seal, one long value", b"ARC-Seal:i=1;a=;d=;s=;cv=none;b=", b"x", b"\r\n"),
    ("one seal, value of short words", b"ARC-Seal:i=1;a=;d=;s=;cv=none;b=", b"x ", b"x\r\n"),
];

/// Blocks of one field for next_field.
#[rustfmt::skip]
const WALKED: &[Filled] = &[
    ("one field", b"X:", b"x", b"\r\n"),
    ("one field, lines of 3 bytes", b"X:", b"\r\n ", b"\r\n"),
    ("one long name", b"", b"X", b":\r\n"),
];

fn all_filled(rows: &[Filled], call: impl Fn(Vec<u8>) -> Call) {
    for (name, start, piece, end) in rows {
        adversarial(name, |size| call(filled(size, start, piece, end)));
    }
}

fn whose(list: &[u8], body: Vec<u8>) -> Call {
    Call::Whose {
        list: list.to_vec(),
        body,
    }
}

fn whose_rows() {
    realistic(
        "one field of 384 bytes",
        whose(b"mx.example.com\nexample.com\n", FIELD.into()),
    );
    adversarial("comments before the identifier", |size| {
        whose(b"a\n", filled(size, b"", b"((x))", b"a"))
    });
    adversarial("a long quoted identifier", |size| {
        whose(b"a\n", filled(size, b"\"", b"\\x", b"\""))
    });
    adversarial("a long identifier, 64 long A-labels", |size| {
        whose(&long_a_labels(), filled(size, b"", b"xn--tda.", b""))
    });
}

/// One of the steps, or both.
type Step = fn(Vec<u8>, &[u8]) -> Call;

fn strip_rows(mail: &[u8], step: Step) {
    let own = b"mx.example.com\nexample.com\n";
    realistic("mail of 32 fields", step(mail.to_vec(), own));
    let appendix_b = APPENDIX_B.map(|(body, _)| format!("Authentication-Results:{body}\r\n"));
    realistic(
        "Appendix B as a block",
        step(appendix_b.concat().into_bytes(), own),
    );
    let with_a_label = b"mx.example.com\nxn--bcher-kva.example\n";
    realistic(
        "mail of 32 fields, one A-label",
        step(mail.to_vec(), with_a_label),
    );
    let short: Vec<u8> = (0..64)
        .flat_map(|n| format!("xn--bcher-kva.mx-{n}.example\n").into_bytes())
        .collect();
    realistic(
        "mail of 32 fields, 64 A-labels",
        step(mail.to_vec(), &short),
    );
    all_filled(FIELDS, |block| step(block, own));
    all_filled(A_LABELS, |block| step(block, with_a_label));
    for (name, ids) in [
        ("512 fields, all kept", ["other.example", "another.example"]),
        ("512 fields, all removed", ["Example.COM", "example.com"]),
        (
            "512 fields, every other removed",
            ["example.com", "xexample.com"],
        ),
    ] {
        adversarial(name, |size| {
            let start = |n: usize| format!("Authentication-Results: {};", ids[n % 2]);
            step(fields(size, 512, start), own)
        });
    }
    let id = "n".repeat(254);
    adversarial("near misses in 64 long entries", |size| {
        let start = |_| format!("Authentication-Results:{id}!;");
        step(fields(size, size / 282, start), &near_misses(&id))
    });
    adversarial("near misses, quoted", |size| {
        let quoted: String = id.chars().flat_map(|c| ['\\', c]).collect();
        let start = |_| format!("Authentication-Results:\"{quoted}!\";");
        step(fields(size, size / 540, start), &near_misses(&id))
    });
    adversarial("near misses in 64 short entries", |size| {
        let start = |_| "Authentication-Results: mail.example.co!;".to_string();
        step(fields(size, 512, start), &near_misses("mail.example.co"))
    });
    a_label_rows(step);
}

/// Lists of 64 A-labels of 255 bytes.
fn a_label_rows(step: Step) {
    adversarial("512 fields, 64 long A-labels", |size| {
        let start = |n| format!("Authentication-Results: {};", ["other.example", "a"][n % 2]);
        step(fields(size, 512, start), &long_a_labels())
    });
    let id = long_a_label(100, 64);
    adversarial("512 A-labels, 64 long A-labels", |size| {
        let start = |_| format!("Authentication-Results:{id};");
        step(fields(size, size / 128, start), &long_a_labels())
    });
    let id = format!("{}.{}xn--tda", "a".repeat(11), "a.".repeat(33));
    adversarial("512 A-labels, near misses", |size| {
        let start = |_| format!("Authentication-Results:{id};");
        step(fields(size, size / 128, start), &many_a_labels())
    });
    let id = long_a_label(255, 64);
    adversarial("long A-labels, near misses", |size| {
        let start = |_| format!("Authentication-Results:{id};");
        step(fields(size, size / 282, start), &long_a_labels())
    });
    adversarial("long A-labels, near misses, quoted", |size| {
        let quoted: String = id.chars().flat_map(|c| ['\\', c]).collect();
        let start = |_| format!("Authentication-Results:\"{quoted}\";");
        step(fields(size, size / 540, start), &long_a_labels())
    });
}

/// Thirty of them have a report of more than the kilobyte that is written in one pass.
const LONG_RESULT: &[u8] = b";spf=pass smtp.mailfrom=bounces.lists.example.org";

fn report_rows() {
    let bodies = APPENDIX_B
        .map(|(body, _)| body.as_bytes().to_vec())
        .to_vec();
    realistic("Appendix B, all bodies", Call::Report { bodies });
    realistic("one field of 384 bytes", report(FIELD.into()));
    all_filled(BODIES, report);
    for (name, piece) in [
        ("comments 16 deep behind a long report", DEEP),
        ("short comments behind a long report", b"( )"),
        ("folds behind a long report", b"\r\n "),
    ] {
        let start = [b"a".to_vec(), LONG_RESULT.repeat(30)].concat();
        adversarial(name, |size| report(filled(size, &start, piece, b"")));
    }
}

fn write_rows() {
    let reports = APPENDIX_B.map(|(_, report)| report.as_bytes().to_vec());
    let reports = reports.to_vec();
    realistic("Appendix B, all reports", Call::Write { reports });
    all_filled(LINES, |lines| Call::Write {
        reports: vec![lines],
    });
}

fn judge_rows(mail: &[u8]) {
    let (block, verdicts) = (mail.to_vec(), vec![3, 3]);
    realistic("mail of 32 fields, 2 sets", Call::Judge { block, verdicts });
    all_filled(SEALS, judge);
    adversarial("one seal, thousands of tags", |size| {
        judge(tags(size, letters))
    });
    adversarial("one seal, tags in falling order", |size| {
        judge(tags(size, |n| format!("e{}", rising(46_655 - n))))
    });
    adversarial("one seal, tags in mixed order", |size| {
        judge(tags(size, |n| format!("e{}", rising(n * 7919 % 46_656))))
    });
    adversarial("512 seals of 33 tags", |size| {
        let names = || (b'A'..=b'Z').chain([b'x', b'y']).map(char::from);
        let start = |n| {
            let more: String = names().map(|name| format!("{name}=;")).collect();
            format!("ARC-Seal:i={};a=;b=;d=;s=;{more}cv=pass     ", n % 50 + 1)
        };
        judge(seals(size, start))
    });
    adversarial("one seal, tags, the last one twice", |size| {
        let mut block = tags(size - 6, letters);
        block.truncate(block.len() - 2);
        block.extend(b";aaaa=\r\n");
        judge(block)
    });
    adversarial("one seal, tags with long names", |size| {
        judge(tags(size, |n| "t".repeat(60) + &letters(n)))
    });
    adversarial("512 AAR fields", |size| {
        let start = |n| format!("ARC-Authentication-Results: i={};", n % 50 + 1);
        judge(fields(size, 512, start))
    });
    adversarial("512 seals", |size| {
        let start = |n| format!("ARC-Seal: i={};a=;b=;d=;s=;cv=pass;x=", n % 50 + 1);
        judge(fields(size, 512, start))
    });
    adversarial("50 sets", |size| {
        let start = |n: usize| match (n / 3 + 1, n % 3) {
            (instance, 0) => format!("ARC-Authentication-Results: i={instance};"),
            (instance, 1) => format!("ARC-Message-Signature: i={instance};a=;bh=;d=;h=;s=;b="),
            (1, _) => "ARC-Seal: i=1;a=;d=;s=;cv=none;b=".to_string(),
            (instance, _) => format!("ARC-Seal: i={instance};a=;d=;s=;cv=pass;b="),
        };
        judge(fields(size, 150, start))
    });
}

fn field_rows(mail: &[u8]) {
    let to_the_end = |block: Vec<u8>| Call::NextField {
        place: block.len(),
        block,
    };
    realistic("mail of 32 fields, to its end", to_the_end(mail.to_vec()));
    all_filled(WALKED, to_the_end);
    let many = |size| fields(size, 512, |_| "X:".to_string());
    adversarial("512 fields, to the end", |size| to_the_end(many(size)));
    for (on_rest, how) in [(false, "by place"), (true, "on the rest")] {
        let block = mail.to_vec();
        realistic(
            &format!("mail of 32 fields, {how}"),
            Call::Walk { block, on_rest },
        );
        adversarial(&format!("512 fields, {how}"), |size| {
            let block = many(size);
            Call::Walk { block, on_rest }
        });
    }
}

/// The realistic calls, by name.
fn realistic_calls() -> Vec<(&'static str, Call)> {
    let mail = mail();
    let own = b"mx.example.com\nexample.com\n";
    let bodies = APPENDIX_B
        .map(|(body, _)| body.as_bytes().to_vec())
        .to_vec();
    let reports = APPENDIX_B
        .map(|(_, lines)| lines.as_bytes().to_vec())
        .to_vec();
    let (block, place) = (mail.clone(), mail.len());
    let verdicts = vec![3, 3];
    vec![
        ("Appendix B, all bodies", Call::Report { bodies }),
        ("one field of 384 bytes", report(FIELD.into())),
        ("mail of 32 fields", mark(mail.clone(), own)),
        ("mail of 32 fields", copy(mail.clone(), own)),
        ("mail of 32 fields", strip(mail.clone(), own)),
        ("one field of 384 bytes", whose(own, FIELD.into())),
        (
            "mail of 32 fields, 2 sets",
            Call::Judge {
                block: mail,
                verdicts,
            },
        ),
        (
            "mail of 32 fields, to its end",
            Call::NextField { block, place },
        ),
        ("Appendix B, all reports", Call::Write { reports }),
    ]
}

/// What is counted: everything inside this function.
#[unsafe(no_mangle)]
#[inline(never)]
fn bench_counted(call: &Call, out: &mut [u8], independent: bool) -> u8 {
    if independent {
        call.reference(out)
    } else {
        call.library(out)
    }
}

/// The instructions of one realistic call: this program is run once more under valgrind.
fn instructions(number: usize, independent: bool) -> Result<u64, String> {
    let program = std::env::current_exe().map_err(|error| error.to_string())?;
    let which = if independent {
        "independent"
    } else {
        "library"
    };
    let run = Command::new("valgrind")
        .args(["--tool=callgrind", "--callgrind-out-file=/dev/null"])
        .arg("--toggle-collect=bench_counted")
        .arg(program)
        .args(["--one", which, &number.to_string()])
        .output()
        .map_err(|error| format!("valgrind can't be run: {error}"))?;
    let told = String::from_utf8_lossy(&run.stderr);
    if !run.status.success() {
        return Err(format!("valgrind failed:\n{told}"));
    }
    told.lines()
        .find_map(|line| line.split("Collected : ").nth(1))
        .and_then(|count| count.trim().parse().ok())
        .ok_or_else(|| format!("valgrind told no count:\n{told}"))
}

fn print_counts() -> Result<(), String> {
    println!(
        "{:<19}{:<36}{:>14}{:>14}{:>9}",
        "call", "input", "instructions", "reference", "ratio"
    );
    for (number, (input, call)) in realistic_calls().iter().enumerate() {
        let library = instructions(number, false)?;
        let reference = instructions(number, true)?;
        println!(
            "{:<19}{:<36}{:>14}{:>14}{:>9.2}",
            call.name(),
            input,
            library,
            reference,
            library as f64 / reference as f64
        );
    }
    Ok(())
}

/// Runs one realistic call, for valgrind to count.
fn run_one(which: &str, number: &str) -> Option<u8> {
    let calls = realistic_calls();
    let (_, call) = calls.get(number.parse::<usize>().ok()?)?;
    let mut out = vec![0; 3 * call.input().len() + 8];
    Some(bench_counted(call, &mut out, which == "independent"))
}

fn print_times() {
    println!(
        "{:<19}{:<40}{:>6}{:>8}{:>13}{:>11}{:>9}{:>12}",
        "call", "input", "answer", "bytes", "ns per call", "/reference", "/memcpy", "32K to 64K"
    );
    let mail = mail();
    assert_eq!(orbendash::fields(&mail).count(), 32);
    for step in [mark, copy, strip] {
        strip_rows(&mail, step);
    }
    whose_rows();
    report_rows();
    write_rows();
    judge_rows(&mail);
    field_rows(&mail);
}

fn main() -> ExitCode {
    let words: Vec<String> = std::env::args().skip(1).collect();
    let words: Vec<&str> = words.iter().map(String::as_str).collect();
    let told = match words.as_slice() {
        [] => {
            print_times();
            Ok(())
        }
        ["--counts"] => print_counts(),
        ["--one", which, number] => match run_one(which, number) {
            Some(_) => Ok(()),
            None => Err("there is no such call".to_string()),
        },
        _ => Err("usage: bench [--counts]".to_string()),
    };
    match told {
        Ok(()) => ExitCode::SUCCESS,
        Err(error) => {
            eprintln!("bench: {error}");
            ExitCode::FAILURE
        }
    }
}
