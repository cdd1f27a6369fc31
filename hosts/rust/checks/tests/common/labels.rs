//! International labels: names in all their spellings, and cases for stripping whose outcome
//! follows from how they are made.

use super::punycode::{encode, points};
use super::{cased, Rng, LIMIT};
use orbendash_checks::reference::compared;

/// A label's code points; or, where it isn't to decode, any numbers.
type Label = Vec<u128>;

/// What stripping must do with the one Authentication-Results field of a case, if the block isn't
/// too long.
#[derive(Clone, Copy, Debug, PartialEq, Eq)]
pub enum Wanted {
    Removed,
    Kept,
    /// Number 5 at this place.
    BadList(usize),
    /// Only the rules tell.
    Open,
}

/// A block with one Authentication-Results field, and an own list.
pub struct Case {
    pub kind: &'static str,
    pub block: Vec<u8>,
    pub list: Vec<u8>,
    pub wanted: Wanted,
}

/// All kinds of cases, and what comes of them: `removed`, `kept` or `number 5`.
#[rustfmt::skip]
pub const KINDS: &[&str] = &[
    "A-label, U-label listed: removed", "U-label, A-label listed: removed",
    "A-labels in both: removed", "U-labels in both: removed", "spellings mixed: removed",
    "ASCII label as A-label: removed", "another code point: kept", "other than ASCII case: kept",
    "normalisation: kept", "encoded twice: kept", "encoded twice in both: removed",
    "U-label with xn--: removed", "surrogate, same spelling: removed",
    "surrogate, left out: kept", "surrogate, replaced: kept", "surrogate, in its bytes: kept",
    "above 10FFFF, same spelling: removed", "above 10FFFF, replaced: kept",
    "above 10FFFF, in its bytes: kept", "above 10FFFF, wrapped: kept",
    "damaged A-label: kept", "damaged A-label: removed", "damaged in both: removed",
    "random digits: kept", "random digits in both: removed", "random digits, two kinds: kept",
    "random digits, decoded: removed", "long A-label: kept", "many A-labels: kept",
    "U-label near 255: removed", "U-label near 255: number 5", "A-label near 255: removed",
    "A-label near 255: number 5", "A-label over 255, U-label listed: removed",
    "U-label over 255, A-label listed: removed", "identifier no UTF-8: kept",
    "128 up in an A-label: kept", "128 up in both: removed",
    "list, lone continuation: number 5", "list, overlong of 2: number 5",
    "list, overlong of 3: number 5", "list, overlong of 4: number 5",
    "list, surrogate: number 5", "list, above 10FFFF: number 5", "list, F8 to FF: number 5",
    "list, cut short: number 5",
];

// Names and their spellings.

/// What a bare identifier may have from ASCII, but for the dot.
const ASCII: &[u8] = b"abcdefghijklmnopqrstuvwxyzABCXYZ0123456789----!#$%&'*+^_`{|}~";

/// A code point from 128 up.
fn high(rng: &mut Rng, script: usize) -> u128 {
    let (low, high) = match script {
        0 => (0x80, 0x24f),
        1 => (0x400, 0x4ff),
        2 => (0x4e00, 0x9fff),
        3 => (0x1_f600, 0x1_f64f),
        4 => (0x80, 0x10_ffff),
        _ => {
            return rng.pick(&[
                0x80, 0xff, 0x7ff, 0x800, 0xd7ff, 0xe000, 0xffff, 0x1_0000, 0x10_ffff,
            ])
        }
    };
    let point = rng.between(low, high) as u128;
    // In place of a surrogate comes one of the syllables before them.
    if (0xd800..0xe000).contains(&point) {
        point - 0x1000
    } else {
        point
    }
}

fn is_a_label(label: &[u8]) -> bool {
    label.len() >= 4 && label[..4].eq_ignore_ascii_case(b"xn--")
}

/// A label with so many of a hundred from ASCII. It doesn't start with xn--.
fn label(rng: &mut Rng, length: usize, ascii: usize) -> Label {
    let script = rng.below(6);
    loop {
        let label: Label = (0..length)
            .map(|_| {
                if rng.chance(ascii) {
                    u128::from(rng.pick(ASCII))
                } else {
                    high(rng, script)
                }
            })
            .collect();
        if !is_a_label(&utf8(&label)) {
            return label;
        }
    }
}

/// One to four labels; the one given back too has a code point from 128 up.
fn name(rng: &mut Rng) -> (Vec<Label>, usize) {
    let mut labels: Vec<Label> = (0..rng.between(1, 4))
        .map(|_| {
            let (length, ascii) = (rng.below(9), rng.pick(&[0, 50, 80, 100]));
            label(rng, length, ascii)
        })
        .collect();
    let chosen = rng.below(labels.len());
    let point = high(rng, 4);
    let place = rng.below(labels[chosen].len() + 1);
    labels[chosen].insert(place, point);
    (labels, chosen)
}

/// A label in UTF-8, also where it has surrogates or more.
fn utf8(label: &[u128]) -> Vec<u8> {
    let mut out = Vec::new();
    for &point in label {
        let part = |shift: u32| 0x80 | (point >> shift & 0x3f) as u8;
        match point {
            0..=0x7f => out.push(point as u8),
            0x80..=0x7ff => out.extend([0xc0 | (point >> 6) as u8, part(0)]),
            0x800..=0xffff => out.extend([0xe0 | (point >> 12) as u8, part(6), part(0)]),
            _ => out.extend([0xf0 | (point >> 18) as u8, part(12), part(6), part(0)]),
        }
    }
    out
}

fn a_label(label: &[u128]) -> Vec<u8> {
    [b"xn--", &encode(label)[..]].concat()
}

/// How a name's labels are spelled.
#[derive(Clone, Copy)]
enum Spelling {
    A,
    U,
    Mixed,
}

/// A name in one spelling, in any ASCII case. Labels without a code point from 128 up are only
/// spelled as A-labels where they are mixed.
fn spelled(rng: &mut Rng, name: &[Label], spelling: Spelling) -> Vec<u8> {
    let labels: Vec<Vec<u8>> = name
        .iter()
        .map(|label| {
            let plain = label.iter().all(|&point| point < 128);
            let encoded = match spelling {
                Spelling::A => !plain,
                Spelling::U => false,
                Spelling::Mixed => rng.chance(50),
            };
            let mut out = Vec::new();
            let bytes = if encoded { a_label(label) } else { utf8(label) };
            cased(rng, &bytes, &mut out);
            out
        })
        .collect();
    labels.join(&b'.')
}

/// A name in one spelling with one label spelled by hand, in any ASCII case.
fn spelled_with(
    rng: &mut Rng,
    name: &[Label],
    spelling: Spelling,
    chosen: usize,
    by_hand: &[u8],
) -> Vec<u8> {
    let labels: Vec<Vec<u8>> = (0..name.len())
        .map(|index| {
            if index == chosen {
                let mut out = Vec::new();
                cased(rng, by_hand, &mut out);
                out
            } else {
                spelled(rng, &name[index..=index], spelling)
            }
        })
        .collect();
    labels.join(&b'.')
}

fn any_spelling(rng: &mut Rng) -> Spelling {
    rng.pick(&[Spelling::A, Spelling::U, Spelling::Mixed])
}

// Names for the other generators.

/// Names that lists and fields draw from, so that they meet; near misses among them.
const NAMES: [&str; 10] = [
    "b\u{fc}cher.example",
    "b\u{dc}cher.example",
    "bu\u{308}cher.example",
    "bucher.example",
    "mx.b\u{fc}cher.example",
    "\u{4f8b}\u{3048}.\u{30c6}\u{30b9}\u{30c8}",
    "\u{e9}",
    "xn--\u{e9}",
    "a\u{10ffff}.b",
    "example.com",
];

/// A name that others may have too, in any spelling, now and then with a damaged label.
pub fn common_name(rng: &mut Rng) -> Vec<u8> {
    let text = rng.pick(&NAMES);
    let name: Vec<Label> = text.split('.').map(points).collect();
    if rng.chance(15) {
        let chosen = rng.below(name.len());
        let label = damaged_label(rng, &a_label(&name[chosen]));
        spelled_with(rng, &name, Spelling::Mixed, chosen, &label)
    } else {
        spelled(rng, &name, Spelling::Mixed)
    }
}

/// A small change that leaves a label a token, and a list entry UTF-8.
fn damaged_label(rng: &mut Rng, label: &[u8]) -> Vec<u8> {
    let mut out = label.to_vec();
    let at = rng.below(out.len());
    let byte = rng.pick(b"abkz059A-_");
    match rng.below(6) {
        0 => drop(out.pop()),
        1 => drop(out.remove(at)),
        2 | 3 => out[at] = byte,
        4 => out.insert(at, byte),
        _ => out.push(byte),
    }
    out
}

/// Digits, and now and then a basic part before them.
fn digits(rng: &mut Rng, most: usize) -> Vec<u8> {
    let few = rng.chance(50);
    let mut out = Vec::new();
    if rng.chance(40) {
        for _ in 0..rng.below(5) {
            out.push(rng.pick(ASCII));
        }
        out.push(b'-');
    }
    for _ in 0..rng.below(most + 1) {
        out.push(if few {
            rng.pick(b"aaaabc1")
        } else {
            rng.pick(b"abcdefghijklmnopqrstuvwxyz0123456789")
        });
    }
    out
}

// Fields and lists.

/// An identifier, bare where it can be.
pub fn bare_or_quoted(rng: &mut Rng, id: &[u8], out: &mut Vec<u8>) {
    let bare = |b: &u8| *b >= 128 || *b == b'.' || ASCII.contains(b) || b.is_ascii_alphanumeric();
    if !id.is_empty() && id.iter().all(bare) && rng.chance(70) {
        out.extend(id);
        return;
    }
    out.push(b'"');
    for &byte in id {
        if byte < 128 && rng.chance(10) {
            out.push(b'\\');
        }
        out.push(byte);
    }
    out.push(b'"');
}

fn block(rng: &mut Rng, id: &[u8]) -> Vec<u8> {
    const OTHERS: [&[u8]; 3] = [b"", b"From: a@b.example\r\n", b"X: xn--tda\r\n \xff\r\n"];
    let mut out = rng.pick(&OTHERS).to_vec();
    cased(rng, b"authentication-results", &mut out);
    out.extend(rng.pick(&[&b":"[..], b": ", b" : (c)"]));
    bare_or_quoted(rng, id, &mut out);
    out.extend(rng.pick(&[&b""[..], b";", b"; none", b" 1; spf=pass", b" (", b"\t\xff"]));
    out.extend(b"\r\n");
    out.extend(rng.pick(&OTHERS));
    out
}

/// A list with an entry among others, and where it starts.
fn list(rng: &mut Rng, entry: &[u8]) -> (Vec<u8>, usize) {
    const OTHERS: [&str; 4] = [
        "other.example",
        "xn--bcher-kva.other.example",
        "B\u{fc}cher.other.example",
        "xn--99999999.other.example",
    ];
    let others = if rng.chance(1) { 63 } else { rng.below(4) };
    let place = rng.below(others + 1);
    let mut out = Vec::new();
    let mut start = 0;
    for index in 0..=others {
        if index == place {
            start = out.len();
            out.extend(entry);
        } else {
            out.extend(rng.pick(&OTHERS).bytes());
        }
        out.push(b'\n');
    }
    (out, start)
}

/// A case; an entry that is empty or too long changes what is wanted.
fn made(rng: &mut Rng, kind: &'static str, id: &[u8], entry: &[u8], wanted: Wanted) -> Case {
    let (list, start) = list(rng, entry);
    let wanted = match wanted {
        Wanted::BadList(_) => Wanted::BadList(start),
        _ if entry.is_empty() || entry.len() > 255 => Wanted::BadList(start),
        other => other,
    };
    Case {
        kind,
        block: block(rng, id),
        list,
        wanted,
    }
}

/// A case of any kind.
pub fn case(rng: &mut Rng) -> Case {
    match rng.below(100) {
        0..=29 => same_name(rng),
        30..=44 => other_name(rng),
        45..=59 => no_code_point(rng),
        60..=74 => undecodable(rng),
        75..=77 => near_255(rng),
        78..=84 => high_bytes(rng),
        85..=98 => no_utf8(rng),
        _ if rng.chance(20) => long(rng),
        _ => same_name(rng),
    }
}

/// A name in two spellings.
fn same_name(rng: &mut Rng) -> Case {
    let (mut name, chosen) = name(rng);
    let kind = rng.below(9);
    if kind == 5 {
        // An empty label among them.
        let length = rng.below(6);
        name = vec![label(rng, length, 100)];
    }
    if kind == 7 {
        name[chosen].splice(0..0, points("xn--"));
    }
    let (kind, id, entry) = match kind {
        0 => ("A-label, U-label listed", Spelling::A, Spelling::U),
        1 => ("U-label, A-label listed", Spelling::U, Spelling::A),
        2 => ("A-labels in both", Spelling::A, Spelling::A),
        3 => ("U-labels in both", Spelling::U, Spelling::U),
        4 => ("spellings mixed", Spelling::Mixed, Spelling::Mixed),
        5 => {
            let (plain, mut encoded) = (utf8(&name[0]), Vec::new());
            cased(rng, &a_label(&name[0]), &mut encoded);
            let kind = "ASCII label as A-label";
            // No entry is empty.
            return if plain.is_empty() || rng.chance(50) {
                made(rng, kind, &plain, &encoded, Wanted::Removed)
            } else {
                made(rng, kind, &encoded, &plain, Wanted::Removed)
            };
        }
        6 => {
            let twice = [b"xn--", &a_label(&name[chosen])[..], b"-"].concat();
            let spelling = any_spelling(rng);
            let id = spelled_with(rng, &name, spelling, chosen, &twice);
            return if rng.chance(50) {
                let entry = spelled(rng, &name, spelling);
                made(rng, "encoded twice", &id, &entry, Wanted::Kept)
            } else {
                let entry = spelled_with(rng, &name, Spelling::Mixed, chosen, &twice);
                made(rng, "encoded twice in both", &id, &entry, Wanted::Removed)
            };
        }
        7 => ("U-label with xn--", any_spelling(rng), any_spelling(rng)),
        _ => ("A-label, U-label listed", Spelling::Mixed, Spelling::U),
    };
    let (id, entry) = (spelled(rng, &name, id), spelled(rng, &name, entry));
    made(rng, kind, &id, &entry, Wanted::Removed)
}

/// Two names that are nearly the same.
fn other_name(rng: &mut Rng) -> Case {
    const CASES: [(&str, &str); 6] = [
        ("\u{fc}", "\u{dc}"),
        ("\u{44f}", "\u{42f}"),
        ("\u{df}", "\u{1e9e}"),
        ("s", "\u{17f}"),
        ("K", "\u{212a}"),
        ("i", "\u{130}"),
    ];
    const FORMS: [(&str, &str); 7] = [
        ("\u{e9}", "e\u{301}"),
        ("\u{c5}", "\u{212b}"),
        ("fi", "\u{fb01}"),
        ("a", "\u{ff41}"),
        ("", "\u{ad}"),
        ("", "\u{200d}"),
        ("\u{df}", "ss"),
    ];
    let (name, chosen) = name(rng);
    let mut other = name.clone();
    let (mut one, two) = (name, &mut other[chosen]);
    let kind = match rng.below(3) {
        0 => {
            let place = two.iter().position(|&point| point >= 128);
            two[place.expect("it has one")] ^= 1;
            "another code point"
        }
        kind => {
            let (kind, (a, b)) = match kind {
                1 => ("other than ASCII case", rng.pick(&CASES)),
                _ => ("normalisation", rng.pick(&FORMS)),
            };
            let place = rng.below(two.len() + 1);
            one[chosen].splice(place..place, points(a));
            two.splice(place..place, points(b));
            kind
        }
    };
    if rng.chance(50) {
        std::mem::swap(&mut one, &mut other);
    }
    let (a, b) = (any_spelling(rng), any_spelling(rng));
    let (id, entry) = (spelled(rng, &one, a), spelled(rng, &other, b));
    made(rng, kind, &id, &entry, Wanted::Kept)
}

/// Labels that decode to surrogates or to numbers above 10FFFF, which don't count as decoded: they
/// equal themselves, and nothing that a lax decoder might make of them.
fn no_code_point(rng: &mut Rng) -> Case {
    let (name, chosen) = name(rng);
    let place = rng.below(name[chosen].len() + 1);
    let surrogate = rng.chance(50);
    // As a number of 32 or 64 binary digits some of these are the point again.
    let point = rng.pick(&[0xfc, 0x4e00, 0x80, 0x10_ffff]);
    let number = if surrogate {
        rng.pick(&[0xd800, 0xdbff, 0xdc00, 0xdfff, 0xd83d])
    } else if rng.chance(30) {
        0x11_0000
    } else {
        point + rng.pick(&[0x11_0000, 1 << 21, 1 << 31, 1 << 32, 1 << 63, 1 << 64])
    };
    let with = |number: Option<u128>| {
        let mut name = name.clone();
        name[chosen].splice(place..place, number).for_each(drop);
        name
    };
    let wrong = with(Some(number));
    let by_hand = a_label(&wrong[chosen]);
    let spelling = any_spelling(rng);
    let id = spelled_with(rng, &name, spelling, chosen, &by_hand);
    let pick = |kinds: [&'static str; 2]| kinds[usize::from(surrogate)];
    let (kind, other) = match rng.below(7) {
        0..=2 => {
            let entry = spelled_with(rng, &name, Spelling::Mixed, chosen, &by_hand);
            let kind = pick(["above 10FFFF, same spelling", "surrogate, same spelling"]);
            return made(rng, kind, &id, &entry, Wanted::Removed);
        }
        3 => (
            pick(["above 10FFFF, replaced", "surrogate, replaced"]),
            with(Some(rng.pick(&[0xfffd, 0x10_ffff, 0x3f]))),
        ),
        4 => {
            // Only an identifier may have such bytes.
            let number = if surrogate { number } else { 0x11_0000 };
            let mut wrong = with(Some(number));
            let id = spelled(rng, &wrong, Spelling::U);
            let by_hand = a_label(&wrong.swap_remove(chosen));
            let entry = spelled_with(rng, &name, spelling, chosen, &by_hand);
            let kind = pick(["above 10FFFF, in its bytes", "surrogate, in its bytes"]);
            return made(rng, kind, &id, &entry, Wanted::Kept);
        }
        _ if surrogate => ("surrogate, left out", with(None)),
        _ => ("above 10FFFF, wrapped", with(Some(point))),
    };
    let entry = spelled(rng, &other, spelling);
    if rng.chance(70) {
        made(rng, kind, &id, &entry, Wanted::Kept)
    } else {
        made(rng, kind, &entry, &id, Wanted::Kept)
    }
}

/// A-labels that mostly don't decode.
fn undecodable(rng: &mut Rng) -> Case {
    if rng.chance(50) {
        let (name, chosen) = name(rng);
        let by_hand = damaged_label(rng, &a_label(&name[chosen]));
        let spelling = any_spelling(rng);
        let id = spelled_with(rng, &name, spelling, chosen, &by_hand);
        return match rng.below(4) {
            0 => {
                let entry = spelled_with(rng, &name, Spelling::Mixed, chosen, &by_hand);
                made(rng, "damaged in both", &id, &entry, Wanted::Removed)
            }
            // As if what can't be decoded at the end were left out.
            1 => {
                let mut rest = name.clone();
                let last = rest[chosen].iter().copied().max();
                rest[chosen].retain(|&point| point < 128 || Some(point) != last);
                let entry = spelled(rng, &rest, Spelling::U);
                made(rng, "damaged A-label", &id, &entry, Wanted::Open)
            }
            _ => {
                let entry = spelled(rng, &name, spelling);
                made(rng, "damaged A-label", &id, &entry, Wanted::Open)
            }
        };
    }
    let (one, two) = (digits(rng, 12), digits(rng, 12));
    let mut id = Vec::new();
    cased(rng, &[b"xn--", &one[..]].concat(), &mut id);
    match rng.below(5) {
        0 => {
            let entry = [b"XN--", &one[..]].concat();
            made(rng, "random digits in both", &id, &entry, Wanted::Removed)
        }
        1 => {
            let entry = [b"xn--", &two[..]].concat();
            made(rng, "random digits, two kinds", &id, &entry, Wanted::Open)
        }
        2 | 3 => {
            let entry = compared(&id).into_owned();
            made(rng, "random digits, decoded", &id, &entry, Wanted::Open)
        }
        _ => {
            let (name, _) = name(rng);
            let entry = spelled(rng, &name, Spelling::U);
            made(rng, "random digits", &id, &entry, Wanted::Open)
        }
    }
}

/// Entries of about 255 bytes, whose other spelling is longer or shorter.
fn near_255(rng: &mut Rng) -> Case {
    let length = rng.pick(&[253, 254, 255, 255, 256, 257]);
    let script = rng.below(6);
    let u_label_listed = rng.chance(50);
    let size = |label: &[u128]| {
        if u_label_listed {
            utf8(label).len()
        } else {
            a_label(label).len()
        }
    };
    let one = high(rng, script);
    let varied = rng.chance(60);
    let ascii = rng.pick(&[0, 20]);
    let mut name: Vec<Label> = vec![Vec::new()];
    loop {
        let point = if rng.chance(ascii) {
            u128::from(rng.pick(ASCII))
        } else if varied {
            high(rng, script)
        } else {
            one
        };
        name[0].push(point);
        if size(&name[0]) > length - 12 {
            break;
        }
    }
    // The last bytes are ASCII; in an A-label they come first, in one piece with a hyphen.
    while size(&name[0]) < length {
        name[0].push(u128::from(b'l'));
    }
    let (u_label, a_label) = (
        spelled(rng, &name, Spelling::U),
        spelled(rng, &name, Spelling::A),
    );
    let (kind, id, entry) = match (u_label_listed, a_label.len() > 255, u_label.len() > 255) {
        (true, true, false) => ("A-label over 255, U-label listed", a_label, u_label),
        (true, ..) => ("U-label near 255", a_label, u_label),
        (false, false, true) => ("U-label over 255, A-label listed", u_label, a_label),
        (false, ..) => ("A-label near 255", u_label, a_label),
    };
    made(rng, kind, &id, &entry, Wanted::Removed)
}

/// Bytes from 128 up where an identifier has them for the first time.
fn high_bytes(rng: &mut Rng) -> Case {
    let (name, chosen) = name(rng);
    let spelling = any_spelling(rng);
    let mut entry = spelled(rng, &name, spelling);
    if rng.chance(40) {
        let mut id = spelled(rng, &name, spelling);
        for _ in 0..rng.between(1, 3) {
            let (place, piece) = (rng.below(id.len() + 1), no_utf8_piece(rng).1);
            let _: Vec<u8> = id.splice(place..place, piece).collect();
        }
        // What was put into a character may have made it whole again.
        let wanted = if std::str::from_utf8(&id).is_ok() {
            Wanted::Open
        } else {
            Wanted::Kept
        };
        return made(rng, "identifier no UTF-8", &id, &entry, wanted);
    }
    // A character behind the prefix.
    let mut by_hand = a_label(&name[chosen]);
    let script = rng.below(6);
    let (place, point) = (rng.between(4, by_hand.len()), high(rng, script));
    by_hand.splice(place..place, utf8(&[point])).for_each(drop);
    let id = spelled_with(rng, &name, spelling, chosen, &by_hand);
    if rng.chance(50) {
        entry = spelled_with(rng, &name, Spelling::Mixed, chosen, &by_hand);
        made(rng, "128 up in both", &id, &entry, Wanted::Removed)
    } else {
        made(rng, "128 up in an A-label", &id, &entry, Wanted::Kept)
    }
}

/// Bytes that can't be in UTF-8 where ASCII follows.
fn no_utf8_piece(rng: &mut Rng) -> (&'static str, Vec<u8>) {
    let next = |rng: &mut Rng, low, high| rng.between(low, high) as u8;
    match rng.below(8) {
        0 => ("list, lone continuation", vec![next(rng, 0x80, 0xbf)]),
        1 => (
            "list, overlong of 2",
            vec![next(rng, 0xc0, 0xc1), next(rng, 0x80, 0xbf)],
        ),
        2 => (
            "list, overlong of 3",
            vec![0xe0, next(rng, 0x80, 0x9f), next(rng, 0x80, 0xbf)],
        ),
        3 => (
            "list, overlong of 4",
            vec![0xf0, next(rng, 0x80, 0x8f), 0x80, next(rng, 0x80, 0xbf)],
        ),
        4 => (
            "list, surrogate",
            vec![0xed, next(rng, 0xa0, 0xbf), next(rng, 0x80, 0xbf)],
        ),
        5 => {
            let (first, second) = if rng.chance(60) {
                (0xf4, next(rng, 0x90, 0xbf))
            } else {
                (next(rng, 0xf5, 0xf7), next(rng, 0x80, 0xbf))
            };
            let rest = [next(rng, 0x80, 0xbf), next(rng, 0x80, 0xbf)];
            ("list, above 10FFFF", vec![first, second, rest[0], rest[1]])
        }
        6 => {
            let mut piece = vec![next(rng, 0xf8, 0xff)];
            piece.resize(rng.between(1, 6), 0x80);
            ("list, F8 to FF", piece)
        }
        _ => {
            let script = rng.below(6);
            let mut piece = utf8(&[high(rng, script)]);
            piece.truncate(rng.between(1, piece.len() - 1));
            ("list, cut short", piece)
        }
    }
}

/// A list that is no UTF-8.
fn no_utf8(rng: &mut Rng) -> Case {
    let (name, _) = name(rng);
    let spelling = any_spelling(rng);
    let id = spelled(rng, &name, spelling);
    // The piece stands behind whole characters or none, and before ASCII or the LF.
    let mut entry = Vec::new();
    if rng.chance(70) {
        entry = spelled(rng, &name, Spelling::U);
    }
    let (kind, piece) = no_utf8_piece(rng);
    entry.extend(piece);
    if rng.chance(50) {
        entry.extend(spelled(rng, &name, Spelling::A));
    }
    made(rng, kind, &id, &entry, Wanted::BadList(0))
}

/// A label or a name as long as a body may be.
fn long(rng: &mut Rng) -> Case {
    let length = rng.pick(&[300, 1000, 5000, 20_000, 60_000, LIMIT - 200]);
    let one = rng.pick(b"abz09");
    let (kind, mut id): (_, Vec<u8>) = match rng.below(6) {
        0 => ("long A-label", vec![one; length]),
        1 => ("long A-label", vec![b'a'; length]),
        2 => {
            let random = (0..length).map(|_| rng.pick(b"aaaaaaabc0")).collect();
            ("long A-label", random)
        }
        3 => {
            let mut id = vec![b'x'; length];
            id[length / 2] = b'-';
            id[length / 2 + 1..].fill(b'a');
            ("long A-label", id)
        }
        4 => ("many A-labels", b"tda.xn--".repeat(length / 8)),
        _ => ("many A-labels", b".xn--".repeat(length / 5)),
    };
    if rng.chance(20) {
        id.push(rng.pick(b"!-\xff9"));
    }
    id.splice(0..0, *b"xn--").for_each(drop);
    let (name, _) = name(rng);
    let spelling = any_spelling(rng);
    let entry = match rng.below(3) {
        0 => spelled(rng, &name, spelling),
        1 => id[..255].to_vec(),
        _ => "\u{80}".repeat(127).into_bytes(),
    };
    made(rng, kind, &id, &entry, Wanted::Kept)
}
