//! The gateway's way: a block is stripped, and a field of ours is put in front. Then nobody else
//! speaks there in our name, and stripping takes just that field away again.

use super::common::lines::{coded, ended, lines};
use super::common::punycode::a_label;
use super::common::{cased, gap, space};
use super::*;
use orbendash::{limit::FIELDS, Field};

// Our own field.

/// A field of ours, and what its report has to be.
struct Own {
    field: Vec<u8>,
    lines: Vec<u8>,
    ignored: usize,
    kinds: [&'static str; 4],
}

fn entries(list: &[u8]) -> impl Iterator<Item = &[u8]> {
    list.split(|&b| b == b'\n')
        .filter(|entry| !entry.is_empty())
}

fn equal(one: &[u8], two: &[u8]) -> bool {
    reference::compared(one).eq_ignore_ascii_case(&reference::compared(two))
}

/// An identifier that equals an entry of the list, and how it is spelled.
fn identifier(rng: &mut Rng, list: &[u8]) -> (&'static str, Vec<u8>) {
    let entry = rng.pick(&entries(list).collect::<Vec<_>>());
    let decoded = reference::compared(entry).into_owned();
    let swapped = |byte: &u8| match byte {
        b'a'..=b'z' => byte.to_ascii_uppercase(),
        _ => byte.to_ascii_lowercase(),
    };
    let (spelling, id) = match rng.below(4) {
        0 => ("identifier as listed", entry.to_vec()),
        1 => (
            "identifier in another case",
            entry.iter().map(swapped).collect(),
        ),
        2 => {
            let text = std::str::from_utf8(&decoded).expect("entries are UTF-8");
            let labels: Vec<Vec<u8>> = text.split('.').map(a_label).collect();
            ("identifier in A-labels", labels.join(&b'.'))
        }
        _ => ("identifier in U-labels", decoded),
    };
    // A U-label that starts with xn-- itself would be decoded once more.
    if id == entry || !equal(&id, entry) {
        ("identifier as listed", entry.to_vec())
    } else {
        (spelling, id)
    }
}

/// A text as a quoted string, with more escapes than it needs.
fn in_quotes(rng: &mut Rng, text: &[u8]) -> Vec<u8> {
    let mut out = vec![b'"'];
    for &byte in text {
        if byte == b'"' || byte == b'\\' || byte < 127 && rng.chance(10) {
            out.push(b'\\');
        }
        out.push(byte);
    }
    out.push(b'"');
    out
}

/// A body folded at some of its blanks. In a quoted string too that changes no text.
fn folded(rng: &mut Rng, body: &[u8]) -> Vec<u8> {
    let mut out = Vec::new();
    for (at, &byte) in body.iter().enumerate() {
        if matches!(byte, b' ' | b'\t') && (at == 0 || rng.chance(50)) {
            out.extend(b"\r\n");
        }
        out.push(byte);
    }
    out
}

/// Report lines with this identifier, and the body that `write` gives for them: the part up to the
/// end of the identifier, and the rest.
fn written(rng: &mut Rng, id: &[u8], results: usize) -> (Vec<u8>, Vec<u8>, Vec<u8>) {
    let mut lines = lines(rng, results);
    lines[0] = [b"id\t", &coded(id)[..]].concat();
    let lines = ended(&lines);
    let mut lead = vec![0; LIMIT];
    let answer = library::write(&lines, &mut lead);
    assert_eq!(answer.number, 0, "{}", shown(&lines));
    lead.truncate(answer.written);
    let quotes = match lead[1] {
        b'"' => 2 + id.iter().filter(|b| b"\"\\".contains(b)).count(),
        _ => 0,
    };
    let rest = lead.split_off(1 + id.len() + quotes);
    (lines, lead, rest)
}

/// Any well-formed body with this identifier, and its report.
fn any_body(rng: &mut Rng, id: &[u8], results: usize) -> (Vec<u8>, Vec<u8>, usize) {
    let mut body = body(rng, results, false);
    body.lead.clear();
    space(rng, &mut body.lead);
    body.lead.extend(id);
    if rng.chance(20) {
        gap(rng, &mut body.lead);
        body.lead.push(b'1');
    }
    let body = body.bytes();
    let mut lines = vec![0; orbendash::limit::report_room(body.len())];
    let answer = reference::report(&body, &mut lines);
    assert_eq!(answer.number, 0, "{}", shown(&body));
    lines.truncate(answer.written);
    (body, lines, answer.ignored)
}

/// A field with an identifier from the list: its body as `write` gives it, in another layout with
/// the same report, or any well-formed one.
fn own_field(rng: &mut Rng, list: &[u8]) -> Own {
    let (spelling, id) = identifier(rng, list);
    let results = rng.below(4);
    let (mut lines, lead, rest) = written(rng, &id, results);
    let mut ignored = 0;
    let mut body = [&lead[..], &rest].concat();
    let layout = match rng.below(5) {
        0 => {
            body = [b" ", &in_quotes(rng, &id)[..], &rest].concat();
            "identifier in quotes"
        }
        1 => {
            body = folded(rng, &body);
            "folded"
        }
        2 => {
            (body, lines, ignored) = any_body(rng, &lead[1..], results);
            "any well-formed body"
        }
        _ if lead[1] == b'"' => "as written, in quotes",
        _ => "as written, bare",
    };
    let mut name = Vec::new();
    cased(rng, b"Authentication-Results", &mut name);
    let case = match &name[..] {
        b"Authentication-Results" => "name as usual",
        _ => "name in another case",
    };
    let colon = rng.pick(&[&b":"[..], b":", b" :", b" \t :"]);
    let blanks = match colon {
        b":" => "no blank before the colon",
        _ => "blanks before the colon",
    };
    Own {
        field: [&name[..], colon, &body, b"\r\n"].concat(),
        lines,
        ignored,
        kinds: [spelling, layout, case, blanks],
    }
}

// What holds of it.

/// Both steps of stripping: number and place of each, the marks, the bytes and fields removed, and
/// what is kept.
#[derive(PartialEq, Eq)]
struct Steps {
    numbers: [(u8, usize); 2],
    marks: Vec<u8>,
    removed: (usize, usize),
    kept: Vec<u8>,
}

/// Both steps by the library, with just enough room.
fn both_steps(block: &[u8], list: &[u8]) -> Steps {
    let mut marks = vec![0; FIELDS];
    let marked = library::mark(block, list, &mut marks);
    marks.truncate(marked.written);
    let needed = library::copy(block, list, &marks, &mut []);
    let room = if needed.number == 6 { needed.place } else { 0 };
    let mut kept = vec![0; room];
    let copied = library::copy(block, list, &marks, &mut kept);
    kept.truncate(copied.kept);
    Steps {
        numbers: [(marked.number, marked.place), (copied.number, copied.place)],
        marks,
        removed: (copied.removed, copied.fields),
        kept,
    }
}

fn walk(block: &[u8]) -> Result<Vec<Field<'_>>, String> {
    let fields: Result<Vec<_>, _> = orbendash::fields(block).collect();
    fields.map_err(|refusal| format!("the walk ends with {refusal:?}: {}", shown(block)))
}

fn ensure(holds: bool, what: &str, bytes: &[u8]) -> Result<(), String> {
    holds
        .then_some(())
        .ok_or_else(|| format!("it is not so that {what}: {}", shown(bytes)))
}

/// Whose a field is, by both.
fn owner(list: &[u8], field: &Field<'_>) -> Result<u8, String> {
    let ours = library::whose(list, field.body);
    let same = ours.number == 0 && ours == reference::whose(list, field.body);
    ensure(same, "both say whose the field is", field.bytes)?;
    Ok(ours.whose)
}

/// The fields of the new block: ours, which alone speaks in our name, and those that were kept.
fn check_front(front: &[u8], list: &[u8], own: &Own, kept: &[Field<'_>]) -> Result<(), String> {
    let fields = walk(front)?;
    let wanted = std::iter::once(&own.field[..]).chain(kept.iter().map(|field| field.bytes));
    ensure(
        fields.iter().map(|field| field.bytes).eq(wanted),
        "the kept fields follow ours",
        front,
    )?;
    let (mut ours, mut said) = (Vec::new(), Vec::new());
    for field in fields {
        if !field.is_named("Authentication-Results") {
            continue;
        }
        match owner(list, &field)? {
            library::whose::OURS => ours.push(field.start),
            whose => ensure(
                whose == library::whose::OTHERS,
                "each field can be read",
                field.bytes,
            )?,
        }
        if let Ok(report) = orbendash::report(field.body) {
            let id = report.identifier().bytes();
            if entries(list).any(|entry| equal(entry, &id)) {
                said.push((report.ignored(), report.as_str().as_bytes().to_vec()));
            }
        }
    }
    ensure(ours == [0], "just the first field is ours", front)?;
    ensure(
        said == [(own.ignored, own.lines.clone())],
        "the report lines in our name are those of our field",
        front,
    )
}

/// The fields that stripping keeps: all but those of ours and those that can't be read.
fn kept_fields<'a>(
    block: &'a [u8],
    list: &[u8],
    steps: &Steps,
    seen: &mut Vec<String>,
) -> Result<Vec<Field<'a>>, String> {
    let mut kept = Vec::new();
    let mut marks = Vec::new();
    for field in walk(block)? {
        let (what, mark) = match field.is_named("Authentication-Results") {
            true => match owner(list, &field)? {
                library::whose::OURS => ("a field in our name goes", 1),
                library::whose::OTHERS => ("a field of another stays", 0),
                _ => ("a field that can't be read goes", 1),
            },
            false => ("a field with another name stays", 0),
        };
        seen.push(what.to_string());
        marks.push(mark);
        if mark == 0 {
            kept.push(field);
        }
    }
    ensure(steps.marks == marks, "those fields are marked", block)?;
    let bytes: Vec<u8> = kept.iter().flat_map(|field| field.bytes).copied().collect();
    ensure(steps.kept == bytes, "the others are kept", block)?;
    Ok(kept)
}

fn check_own(block: &[u8], list: &[u8], own: &Own) -> Result<Vec<String>, String> {
    let first = both_steps(block, list);
    let number = first.numbers[0].0;
    let mut seen = vec![format!("stripping, number {number:>2}")];
    if number != 0 {
        return Ok(seen);
    }
    let kept = kept_fields(block, list, &first, &mut seen)?;
    let stripped = &first.kept;
    let done = |marks: Vec<u8>, removed| Steps {
        numbers: [(0, 0); 2],
        marks,
        removed,
        kept: stripped.clone(),
    };
    let none = vec![0; kept.len()];
    let again = both_steps(stripped, list) == done(none.clone(), (0, 0));
    ensure(again, "stripping again removes nothing", stripped)?;

    let front = [&own.field[..], stripped].concat();
    let new = both_steps(&front, list);
    let limit = match kept.last() {
        _ if front.len() > LIMIT => Some((1, 0)),
        Some(last) if kept.len() == FIELDS => Some((4, front.len() - last.bytes.len())),
        _ => None,
    };
    if let Some(refusal) = limit {
        let end = orbendash::fields(&front).find_map(Result::err);
        let walked = end.map(|end| (end.number(), end.place())) == Some(refusal);
        let refused = Steps {
            numbers: [refusal; 2],
            marks: Vec::new(),
            removed: (0, 0),
            kept: Vec::new(),
        };
        ensure(walked && new == refused, "the limits are kept", &front)?;
        seen.push(format!("with our field, number {:>2}", refusal.0));
        return Ok(seen);
    }
    check_front(&front, list, own, &kept)?;
    let just_ours = new == done([&[1], &none[..]].concat(), (own.field.len(), 1));
    ensure(just_ours, "stripping removes just our field", &front)?;
    seen.push("with our field, number  0".to_string());
    seen.extend(own.kinds.map(String::from));
    if kept.len() + 1 == FIELDS {
        seen.push("with our field, 512 fields".to_string());
    }
    if front.len() == LIMIT {
        seen.push("with our field, 65,536 bytes".to_string());
    }
    Ok(seen)
}

fn run_own(tally: &mut Tally, block: &[u8], list: &[u8], own: &Own) {
    tally.inputs += 1;
    let with = || format!("\n list {}\n ours {}", shown(list), shown(&own.field));
    match check_own(block, list, own) {
        Ok(mut seen) => {
            seen.sort();
            seen.dedup();
            seen.into_iter().for_each(|kind| tally.count(kind));
        }
        Err(_) => disagree(tally, block, &with(), |block| {
            check_own(block, list, own).map(drop)
        }),
    }
}

/// A block, and a list that isn't refused and has an entry.
fn block_and_list(rng: &mut Rng) -> (Vec<u8>, Vec<u8>) {
    loop {
        let (block, list) = if rng.chance(30) {
            let case = labels::case(rng);
            (case.block, case.list)
        } else {
            (any_block(rng, false).0, list(rng))
        };
        if !list.is_empty() && reference::whose(&list, b"").number == 0 {
            return (block, list);
        }
    }
}

#[test]
fn ownfield() {
    let mut tally = Tally::new("ownfield");
    let mut rng = tally.rng();
    const LISTS: [&str; 3] = [
        "example.com\na\n",
        "b\u{fc}cher.example\nxn--tda.a\n",
        "a\"b\\c;\nA\n",
    ];
    for block in edges::blocks() {
        for list in LISTS.map(str::as_bytes) {
            let own = own_field(&mut rng, list);
            run_own(&mut tally, &block, list, &own);
        }
    }
    // About as many fields as there may be, with and without forged ones among them, and about as
    // many bytes with our field.
    for list in LISTS.map(str::as_bytes) {
        for (kept, forged) in [(510, 2), (511, 0), (511, 1), (512, 0)] {
            let mut block = b"Authentication-Results:\r\n".repeat(forged);
            block.extend(b"A: b\r\n c\r\n".repeat(kept));
            let own = own_field(&mut rng, list);
            run_own(&mut tally, &block, list, &own);
        }
        for over in 0..4 {
            let own = own_field(&mut rng, list);
            let mut kept = b"From: a@b.example\r\n".to_vec();
            pad_block(&mut kept, LIMIT - 2 - own.field.len() + over);
            run_own(&mut tally, &kept, list, &own);
            let block = [b"Authentication-Results:\r\n", &kept[..]].concat();
            run_own(&mut tally, &block, list, &own);
        }
    }
    tally.generated = true;
    for _ in 0..tally.cases() / 4 {
        let (block, list) = block_and_list(&mut rng);
        let own = own_field(&mut rng, &list);
        run_own(&mut tally, &block, &list, &own);
    }
    let wanted = [
        "stripping, number  0",
        "stripping, number  1",
        "stripping, number  2",
        "stripping, number  3",
        "stripping, number  4",
        "a field in our name goes",
        "a field that can't be read goes",
        "a field of another stays",
        "a field with another name stays",
        "identifier as listed",
        "identifier in another case",
        "identifier in A-labels",
        "identifier in U-labels",
        "as written, bare",
        "as written, in quotes",
        "identifier in quotes",
        "folded",
        "any well-formed body",
        "name as usual",
        "name in another case",
        "no blank before the colon",
        "blanks before the colon",
        "with our field, number  0",
        "with our field, 512 fields",
        "with our field, 65,536 bytes",
        "with our field, number  1",
        "with our field, number  4",
    ];
    tally.finish(&wanted.map(String::from));
}
