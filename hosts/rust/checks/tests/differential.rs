//! The linked library against the independent implementation, on edge cases and on generated
//! inputs: sound, damaged, short and long.
//!
//! `ORBENDASH_SEED` sets the seed, `ORBENDASH_CASES` how many inputs are generated in all.

mod common;
#[path = "differential/ownfield.rs"]
mod ownfield;
#[path = "differential/steps.rs"]
mod steps;
#[path = "differential/write.rs"]
mod write;

use std::collections::BTreeMap;
use std::fmt::{Debug, Write};
use std::time::{Duration, Instant};

use common::edges::{self, plain_chain};
use common::labels::{self, Wanted};
use common::versions::{self, version};
use common::{
    arc_field, block, body, chain, damaged, high_bytes, list, pad_block, setting, shown, tell, Rng,
    DEFAULT_SEED, HIGH_BYTES, LIMIT,
};
use orbendash::raw as library;
use orbendash_checks::reference;

const DEFAULT_CASES: u64 = 560_000;

/// How often each answer came, from the edge cases and from the generated inputs.
struct Tally {
    call: &'static str,
    seed: u64,
    generated: bool,
    inputs: usize,
    counts: BTreeMap<String, [usize; 2]>,
}

impl Tally {
    fn new(call: &'static str) -> Self {
        Tally {
            call,
            seed: setting("ORBENDASH_SEED", DEFAULT_SEED),
            generated: false,
            inputs: 0,
            counts: BTreeMap::new(),
        }
    }

    /// How many inputs this test generates: the seven share the count.
    fn cases(&self) -> usize {
        (setting("ORBENDASH_CASES", DEFAULT_CASES) as usize).div_ceil(7)
    }

    fn rng(&self) -> Rng {
        let stream = self.call.bytes().fold(0, |sum, b| sum * 256 + u64::from(b));
        Rng::new(self.seed, stream)
    }

    fn count(&mut self, answer: String) {
        self.counts.entry(answer).or_default()[usize::from(self.generated)] += 1;
    }

    /// Prints the counts, and fails if one of the wanted answers never came.
    fn finish(self, wanted: &[String]) {
        let mut text = format!(
            "{}: seed {}, {} inputs; answers from edge cases and from generated inputs\n",
            self.call, self.seed, self.inputs
        );
        for (answer, [edge, generated]) in &self.counts {
            let _ = writeln!(text, "    {answer:<42}{edge:>9}{generated:>9}");
        }
        tell(&text);
        for answer in wanted {
            assert!(
                self.counts.contains_key(answer),
                "{} never gave {answer}",
                self.call
            );
        }
    }
}

fn numbers(wanted: &[u8]) -> Vec<String> {
    wanted.iter().map(|n| format!("number {n:>2}")).collect()
}

/// What a lent buffer holds before the call.
fn pattern(index: usize) -> u8 {
    (index as u8).wrapping_mul(37) ^ 0xa5
}

/// Bytes on both sides of the lent room, which no call may touch.
const GUARD: usize = 24;

/// Runs a call with a lent room inside a larger buffer, and gives its answer and the buffer.
fn lend<A>(room: usize, call: impl FnOnce(&mut [u8]) -> A) -> (A, Vec<u8>) {
    let mut buffer: Vec<u8> = (0..room + 2 * GUARD).map(pattern).collect();
    let answer = call(&mut buffer[GUARD..GUARD + room]);
    (answer, buffer)
}

/// Compares two runs of a call: the answers, all of the buffers, and that nothing but the bytes
/// written has changed.
fn compare<A: PartialEq + Debug>(
    room: usize,
    written: impl Fn(&A) -> usize,
    (ours, our_buffer): &(A, Vec<u8>),
    (theirs, their_buffer): &(A, Vec<u8>),
) -> Result<(), String> {
    let both = || format!("room {room}\n library {ours:?}\n reference {theirs:?}");
    if ours != theirs {
        return Err(format!("the answers differ: {}", both()));
    }
    if our_buffer != their_buffer {
        let at = (0..our_buffer.len())
            .find(|&i| our_buffer[i] != their_buffer[i])
            .unwrap_or(0);
        return Err(format!(
            "the lent bytes differ from place {} on: {}\n library {}\n reference {}",
            at as isize - GUARD as isize,
            both(),
            shown(&our_buffer[GUARD..GUARD + room]),
            shown(&their_buffer[GUARD..GUARD + room])
        ));
    }
    let written = GUARD..GUARD + written(ours);
    let untouched =
        |(index, &byte): (usize, &u8)| written.contains(&index) || byte == pattern(index);
    if !our_buffer.iter().enumerate().all(untouched) {
        return Err(format!("bytes that weren't written changed: {}", both()));
    }
    Ok(())
}

/// Rooms for an output of `need` bytes: none, one too few, exact, larger. A refusal needs none,
/// so it gets one that would be enough for any output, to show that it writes nothing.
fn rooms(need: usize, enough: usize) -> Vec<usize> {
    if need == 0 {
        vec![0, 1, enough]
    } else {
        vec![0, need - 1, need, need + 1, need + 77]
    }
}

/// How long an input is cut down: long ones take their time.
const SHRINKING: Duration = Duration::from_secs(10);

/// Cuts pieces out of an input for as long as it still fails.
fn shrink(input: &[u8], fails: impl Fn(&[u8]) -> bool) -> Vec<u8> {
    let start = Instant::now();
    let mut input = input.to_vec();
    let mut piece = input.len() / 2;
    while piece > 0 {
        let mut at = 0;
        while at + piece <= input.len() && start.elapsed() < SHRINKING {
            let shorter = [&input[..at], &input[at + piece..]].concat();
            if fails(&shorter) {
                input = shorter;
            } else {
                at += piece;
            }
        }
        piece /= 2;
    }
    input
}

/// Fails with the input, cut down to what still fails.
fn disagree(
    tally: &Tally,
    input: &[u8],
    with: &str,
    check: impl Fn(&[u8]) -> Result<(), String>,
) -> ! {
    let small = shrink(input, |input| check(input).is_err());
    let message = check(&small).expect_err("it still fails");
    panic!(
        "{} of {}{with}\n (seed {}, input {}, cut down)\n {message}",
        tally.call,
        shown(&small),
        tally.seed,
        tally.inputs
    );
}

/// A block for the calls that read one, and the instances that its chain was meant to have.
fn any_block(rng: &mut Rng, arc: bool) -> (Vec<u8>, usize) {
    let (mut bytes, instances) = block(rng, arc);
    if rng.chance(20) {
        let (other, _) = block(rng, arc);
        bytes = damaged(rng, &bytes, &other);
    }
    if rng.below(200) == 0 {
        let length = rng.pick(&[LIMIT - 1, LIMIT, LIMIT, LIMIT + 1, 3000, 20_000]);
        pad_block(&mut bytes, length);
    }
    (bytes, instances)
}

// strip

/// Whose each field is that stripping looks at: the same by both, and the fields that go are those
/// that are not another's. It is asked field by field, so not of long blocks.
fn check_whose(block: &[u8], list: &[u8], whole: &library::StripAnswer) -> Result<(), String> {
    let mut gone = 0;
    for field in orbendash::fields(block).flatten() {
        if !field.is_named("Authentication-Results") {
            continue;
        }
        let ours = library::whose(list, field.body);
        let theirs = reference::whose(list, field.body);
        if ours != theirs {
            return Err(format!(
                "whose differs: {}\n library {ours:?}\n reference {theirs:?}",
                shown(field.body)
            ));
        }
        if whole.number == 5 && (ours.number, ours.whose, ours.place) != (5, 0, whole.place) {
            return Err(format!("whose refuses another list: {ours:?}"));
        }
        gone += usize::from(ours.whose != library::whose::OTHERS);
    }
    if whole.number == 0 && gone != whole.fields {
        return Err(format!("{gone} fields are ours or unreadable: {whole:?}"));
    }
    Ok(())
}

fn check_strip(block: &[u8], list: &[u8]) -> Result<Vec<u8>, String> {
    let whole = reference::strip(block, list, &mut vec![0; block.len()]);
    assert_ne!(whole.number, 6, "a room of the block's length is enough");
    if block.len() < 4000 {
        check_whose(block, list, &whole)?;
    }
    let mut seen = Vec::new();
    for room in rooms(whole.kept, block.len()) {
        let ours = lend(room, |out| library::strip(block, list, out));
        let theirs = lend(room, |out| reference::strip(block, list, out));
        compare(room, |answer| answer.kept, &ours, &theirs)?;
        seen.push(ours.0.number);
    }
    Ok(seen)
}

fn run_strip(tally: &mut Tally, block: &[u8], list: &[u8]) {
    tally.inputs += 1;
    match check_strip(block, list) {
        Ok(seen) => {
            for number in seen {
                tally.count(format!("number {number:>2}"));
            }
        }
        Err(_) => disagree(tally, block, &format!("\n list {}", shown(list)), |block| {
            check_strip(block, list).map(drop)
        }),
    }
}

#[test]
fn strip() {
    let mut tally = Tally::new("strip");
    for block in edges::blocks() {
        for list in [&b""[..], b"example.com\na\n", b"A\n\n"] {
            run_strip(&mut tally, &block, list);
        }
    }
    // Identifiers about as long as a list's entries may be, and about as long as a body may be.
    for list in edges::lists() {
        for length in [1, 254, 255, 256] {
            let id = b"L".repeat(length);
            let block = [b"Authentication-Results: ", &id[..], b"\r\nA:\r\n"].concat();
            run_strip(&mut tally, &block, &list);
        }
        run_strip(&mut tally, b"Authentication-Results: a;\r\nA:\r\n", &list);
        run_strip(&mut tally, b"A\r\n", &list);
        run_strip(&mut tally, &b"A:\r\n".repeat(LIMIT / 4 + 1), &list);
    }
    for quote in ["", "\""] {
        let mut block = format!("Authentication-Results: {quote}").into_bytes();
        block.resize(LIMIT - 2 - quote.len(), b'l');
        block.extend(quote.bytes());
        block.extend(b"\r\n");
        run_strip(&mut tally, &block, b"l\n");
    }
    tally.generated = true;
    let mut rng = tally.rng();
    for _ in 0..tally.cases() {
        let (block, _) = any_block(&mut rng, false);
        let mut list = list(&mut rng);
        if rng.chance(3) {
            list = damaged(&mut rng, &list, &block);
        }
        run_strip(&mut tally, &block, &list);
    }
    tally.finish(&numbers(&[0, 1, 2, 3, 4, 5, 6]));
}

// strip, by international labels

/// What came of the field of a case.
fn outcome(answer: &library::StripAnswer) -> String {
    match (answer.number, answer.fields) {
        (0, 0) => "kept".to_string(),
        (0, 1) => "removed".to_string(),
        (number, _) => format!("number {number}"),
    }
}

/// A field with an identifier, and an entry: what comes of the field. No room is lent here; the
/// other tests try all rooms.
fn run_pair(tally: &mut Tally, what: &str, id: &[u8], entry: &[u8]) {
    let block = [b"Authentication-Results: \"", id, b"\"\r\n"].concat();
    let list = [b"a\n", entry, b"\n"].concat();
    tally.inputs += 1;
    let ours = library::strip(&block, &list, &mut []);
    let theirs = reference::strip(&block, &list, &mut []);
    assert_eq!(
        ours,
        theirs,
        "{}\n list {}\n library and reference",
        shown(&block),
        shown(&list)
    );
    // A field that is kept needs room.
    let came = match ours.number {
        0 => "removed",
        6 => "kept",
        _ => "number 5",
    };
    tally.count(format!("{what}: {came}"));
}

fn run_labels(tally: &mut Tally, case: &labels::Case) {
    tally.inputs += 1;
    let (block, list) = (&case.block, &case.list);
    let with = |list: &[u8]| format!("\n list {}\n {}", shown(list), case.kind);
    if check_strip(block, list).is_err() {
        disagree(tally, block, &with(list), |block| {
            check_strip(block, list).map(drop)
        });
    }
    let answer = library::strip(block, list, &mut vec![0; block.len()]);
    let (number, place, fields) = match case.wanted {
        _ if block.len() > LIMIT => (1, 0, 0),
        Wanted::Removed => (0, 0, 1),
        Wanted::Kept => (0, 0, 0),
        Wanted::BadList(place) => (5, place, 0),
        Wanted::Open => (answer.number, answer.place, answer.fields),
    };
    assert_eq!(
        (answer.number, answer.place, answer.fields),
        (number, place, fields),
        "{}{}",
        shown(block),
        with(list)
    );
    tally.count(format!("{}: {}", case.kind, outcome(&answer)));
}

#[test]
fn international_labels() {
    let mut tally = Tally::new("strip, international labels");
    for punycode in edges::punycode() {
        let id = [b"xn--", &punycode[..]].concat();
        run_pair(&mut tally, "same spelling", &id, &id.to_ascii_uppercase());
        let decoded = reference::compared(&id).into_owned();
        run_pair(&mut tally, "short label, decoded", &id, &decoded);
        run_pair(&mut tally, "short label, to decode", &decoded, &id);
    }
    let names = edges::long_names();
    for (name, decoded) in &names {
        run_pair(&mut tally, "long name, decoded", name, decoded);
        run_pair(&mut tally, "long name, to decode", decoded, name);
        run_pair(&mut tally, "long name, same spelling", name, name);
        run_pair(&mut tally, "long name, another", name, &names[0].0);
    }
    // Lists with as many of them as there may be.
    for entries in names.windows(64).step_by(5) {
        let list: Vec<u8> = entries
            .iter()
            .flat_map(|(name, _)| [&name[..], b"\n"].concat())
            .collect();
        for at in [0, 31, 62, 63] {
            for id in [&entries[at].0, &entries[at].1] {
                let other = [&id[..id.len() - 1], b"!"].concat();
                let block = [
                    b"Authentication-Results: ",
                    &id[..],
                    b"\r\nAuthentication-Results: ",
                    &other[..],
                    b";\r\n",
                ];
                run_strip(&mut tally, &block.concat(), &list);
            }
        }
    }
    for bytes in edges::utf8() {
        let entry = [b"x", &bytes[..], b".a"].concat();
        run_pair(&mut tally, "bytes in the list", &entry, &entry);
    }
    tally.generated = true;
    let mut rng = tally.rng();
    for _ in 0..tally.cases() {
        let case = labels::case(&mut rng);
        run_labels(&mut tally, &case);
    }
    let mut wanted: Vec<String> = labels::KINDS.iter().map(|kind| kind.to_string()).collect();
    for answer in [
        "same spelling: removed",
        "short label, decoded: removed",
        "short label, to decode: removed",
        "long name, decoded: removed",
        "long name, decoded: number 5",
        "long name, to decode: removed",
        "long name, same spelling: removed",
        "long name, another: kept",
        "bytes in the list: removed",
        "bytes in the list: number 5",
    ] {
        wanted.push(answer.to_string());
    }
    tally.finish(&wanted);
}

// whose

#[test]
fn whose() {
    let mut tally = Tally::new("whose");
    let run = |tally: &mut Tally, list: &[u8], body: &[u8]| {
        tally.inputs += 1;
        let ours = library::whose(list, body);
        let theirs = reference::whose(list, body);
        let inputs = || format!("list {}\n body {}", shown(list), shown(body));
        assert_eq!(ours, theirs, "{}\n library and reference", inputs());
        tally.count(match ours.number {
            0 => format!("number  0, whose {}", ours.whose),
            number => format!("number {number:>2}"),
        });
    };
    for list in edges::lists() {
        for body in edges::bodies() {
            run(&mut tally, &list, &body);
        }
        for length in [LIMIT, LIMIT + 1] {
            run(&mut tally, &list, &vec![b'a'; length]);
        }
    }
    tally.generated = true;
    let mut rng = tally.rng();
    for _ in 0..tally.cases() {
        let mut bytes = body(&mut rng, 1, true).bytes();
        if rng.chance(20) {
            bytes = damaged(&mut rng, &bytes, b"example.com;");
        }
        let mut list = list(&mut rng);
        if rng.chance(3) {
            list = damaged(&mut rng, &list, &bytes);
        }
        run(&mut tally, &list, &bytes);
    }
    let mut wanted = numbers(&[1, 5]);
    wanted.extend((0..3).map(|whose| format!("number  0, whose {whose}")));
    tally.finish(&wanted);
}

// report

fn check_report(body: &[u8]) -> Result<Vec<(u8, usize)>, String> {
    let enough = 3 * body.len() + 8;
    let whole = reference::report(body, &mut vec![0; enough]);
    assert_ne!(whole.number, 6, "this room is enough");
    let mut seen = Vec::new();
    for room in rooms(whole.written, enough) {
        let ours = lend(room, |out| library::report(body, out));
        let theirs = lend(room, |out| reference::report(body, out));
        compare(room, |answer| answer.written, &ours, &theirs)?;
        seen.push((ours.0.number, ours.0.ignored));
    }
    Ok(seen)
}

fn run_report(tally: &mut Tally, body: &[u8]) {
    tally.inputs += 1;
    match check_report(body) {
        Ok(seen) => {
            for (number, ignored) in seen {
                tally.count(format!("number {number:>2}"));
                if number == 0 {
                    tally.count(format!(
                        "number  0, ignored {}",
                        ["0", "more"][ignored.min(1)]
                    ));
                }
            }
        }
        Err(_) => disagree(tally, body, "", |body| check_report(body).map(drop)),
    }
}

#[test]
fn report() {
    let mut tally = Tally::new("report");
    for body in edges::bodies() {
        run_report(&mut tally, &body);
    }
    for length in [4000, LIMIT - 1, LIMIT, LIMIT + 1] {
        for body in edges::long_bodies(length) {
            run_report(&mut tally, &body);
        }
    }
    tally.generated = true;
    let mut rng = tally.rng();
    for _ in 0..tally.cases() {
        let long = rng.below(1000) == 0;
        let results = if long {
            rng.between(100, 900)
        } else {
            rng.below(5)
        };
        let mut bytes = body(&mut rng, results, true).bytes();
        if rng.chance(35) {
            let other = body(&mut rng, 2, true).bytes();
            bytes = damaged(&mut rng, &bytes, &other);
        }
        if rng.below(1000) == 0 {
            // Long with space at the end, which changes no answer but 1.
            bytes.resize(rng.pick(&[LIMIT, LIMIT + 1]).max(bytes.len()), b' ');
        }
        run_report(&mut tally, &bytes);
        if rng.chance(5) {
            let (part, bytes, number) = high_bytes(&mut rng);
            run_report(&mut tally, &bytes);
            let answer = library::report(&bytes, &mut vec![0; 3 * bytes.len() + 8]);
            assert_eq!(answer.number, number, "{}", shown(&bytes));
            tally.count(part.to_string());
        }
        if rng.chance(5) {
            let version = version(&mut rng);
            let header = version.in_header(&mut rng);
            let method = version.in_method(&mut rng);
            for (place, (bytes, number, report)) in [("header", header), ("method", method)] {
                run_report(&mut tally, &bytes);
                let mut out = vec![0; 3 * bytes.len() + 8];
                let answer = library::report(&bytes, &mut out);
                assert_eq!(answer.number, number, "{}", shown(&bytes));
                assert!(out[..answer.written] == report, "{}", shown(&bytes));
                tally.count(format!("{place} version {}", version.kind));
            }
        }
    }
    let mut wanted = numbers(&[0, 1, 6, 7, 8, 9]);
    wanted.extend(HIGH_BYTES.iter().map(|(part, ..)| part.to_string()));
    for kind in versions::KINDS {
        wanted.extend(["header", "method"].map(|place| format!("{place} version {kind}")));
    }
    wanted.push("number  0, ignored 0".to_string());
    wanted.push("number  0, ignored more".to_string());
    tally.finish(&wanted);
}

// judge

fn check_judge(block: &[u8], verdicts: &[u8]) -> Result<library::JudgeAnswer, String> {
    let ours = library::judge(block, verdicts);
    let theirs = reference::judge(block, verdicts);
    if ours == theirs {
        Ok(ours)
    } else {
        Err(format!(
            "the answers differ:\n library {ours:?}\n reference {theirs:?}"
        ))
    }
}

fn run_judge(tally: &mut Tally, block: &[u8], verdicts: &[u8]) {
    tally.inputs += 1;
    match check_judge(block, verdicts) {
        Ok(answer) => {
            tally.count(format!("number {:>2}", answer.number));
            if answer.number == 0 {
                tally.count(format!(
                    "outcome {} reason {}",
                    answer.outcome, answer.reason
                ));
                let oldest = match (answer.has_oldest_pass, answer.oldest_pass) {
                    (0, _) => "no oldest-pass",
                    (_, 0) => "oldest-pass 0",
                    _ => "oldest-pass above 0",
                };
                tally.count(format!("status {} {oldest}", answer.status));
            }
        }
        Err(_) => disagree(
            tally,
            block,
            &format!("\n verdicts {}", shown(verdicts)),
            |block| check_judge(block, verdicts).map(drop),
        ),
    }
}

fn verdicts(rng: &mut Rng, instances: usize) -> Vec<u8> {
    let good = rng.pick(&[0, 50, 90, 100]);
    let mut verdicts: Vec<u8> = (0..instances)
        .map(|_| {
            if rng.chance(good) {
                3
            } else {
                rng.pick(&[0, 1, 2, 2, 3])
            }
        })
        .collect();
    if rng.chance(5) {
        match rng.below(3) {
            0 => verdicts.push(3),
            1 => drop(verdicts.pop()),
            _ => verdicts
                .iter_mut()
                .take(1)
                .for_each(|v| *v = rng.pick(&[4, 7, 255])),
        }
    }
    verdicts
}

#[test]
fn judge() {
    let mut tally = Tally::new("judge");
    for block in edges::blocks() {
        run_judge(&mut tally, &block, &[]);
    }
    for block in edges::chains() {
        for verdicts in [
            &[][..],
            &[3],
            &[3, 3],
            &[2, 3],
            &[3, 2],
            &[1, 3],
            &[4, 3],
            &[3; 3],
            &[3; 50],
        ] {
            run_judge(&mut tally, &block, verdicts);
        }
    }
    // All verdicts on chains of one to three instances, and one bad verdict in the longest.
    for instances in 1..=3 {
        let block = plain_chain(instances);
        for code in 0..5usize.pow(instances as u32) {
            let verdicts: Vec<u8> = (0..instances as u32)
                .map(|n| (code / 5usize.pow(n) % 5) as u8)
                .collect();
            run_judge(&mut tally, &block, &verdicts);
        }
    }
    let block = plain_chain(50);
    for bad in 0..50 {
        for verdict in 0..5 {
            let mut verdicts = [3; 50];
            verdicts[bad] = verdict;
            run_judge(&mut tally, &block, &verdicts);
            verdicts[bad / 2] = 2;
            run_judge(&mut tally, &block, &verdicts);
        }
    }
    for length in [0, 49, 51, 300] {
        run_judge(&mut tally, &block, &vec![3; length]);
    }
    tally.generated = true;
    let mut rng = tally.rng();
    for _ in 0..tally.cases() {
        let (block, instances) = any_block(&mut rng, true);
        let verdicts = verdicts(&mut rng, instances);
        run_judge(&mut tally, &block, &verdicts);
    }
    let mut wanted = numbers(&[0, 1, 2, 3, 4, 10]);
    for answer in [
        "outcome 0 reason 0",
        "outcome 1 reason 1",
        "outcome 1 reason 2",
        "outcome 1 reason 3",
        "outcome 1 reason 4",
        "outcome 1 reason 5",
        "outcome 2 reason 0",
        "status 0 no oldest-pass",
        "status 1 oldest-pass 0",
        "status 1 oldest-pass above 0",
        "status 2 no oldest-pass",
    ] {
        wanted.push(answer.to_string());
    }
    tally.finish(&wanted);
}

// next_field

fn check_next_field(block: &[u8], place: usize) -> Result<library::FieldAnswer, String> {
    let ours = library::next_field(block, place);
    let theirs = reference::next_field(block, place);
    if ours == theirs {
        Ok(ours)
    } else {
        Err(format!(
            "the answers differ: place {place}\n library {ours:?}\n reference {theirs:?}"
        ))
    }
}

fn run_next_field(tally: &mut Tally, block: &[u8], place: usize) {
    tally.inputs += 1;
    match check_next_field(block, place) {
        Ok(answer) => {
            let found = if answer.found == 1 { ", a field" } else { "" };
            tally.count(format!("number {:>2}{found}", answer.number));
        }
        Err(_) => disagree(tally, block, "", |block| {
            [0, place, block.len() / 2, block.len()]
                .into_iter()
                .try_for_each(|place| check_next_field(block, place).map(drop))
        }),
    }
}

/// The whole walk, and what it must be by the answers of the reference.
fn run_walk(tally: &mut Tally, block: &[u8]) {
    let mut place = 0;
    let mut walk = orbendash::fields(block).map(|step| step.map_err(|r| (r.number(), r.place())));
    loop {
        run_next_field(tally, block, place);
        let answer = reference::next_field(block, place);
        let step = walk.next();
        if answer.found == 1 {
            let field = orbendash::Field {
                start: answer.start,
                name: &block[answer.start..answer.name_end],
                body: &block[answer.body_start..answer.end - 2],
                bytes: &block[answer.start..answer.end],
            };
            assert_eq!(step, Some(Ok(field)));
            place = answer.end;
        } else {
            let refusal = (answer.number, answer.place);
            assert_eq!(step, (answer.number != 0).then_some(Err(refusal)));
            assert_eq!(walk.next(), None);
            return;
        }
    }
}

#[test]
fn next_field() {
    let mut tally = Tally::new("next_field");
    for block in edges::blocks() {
        for place in [
            0,
            1,
            2,
            3,
            4,
            5,
            block.len() / 2,
            block.len(),
            block.len() + 1,
            LIMIT,
            LIMIT + 1,
            usize::MAX,
        ] {
            run_next_field(&mut tally, &block, place);
        }
        if block.len() < 100 {
            for place in 0..block.len() {
                run_next_field(&mut tally, &block, place);
            }
            run_walk(&mut tally, &block);
        }
    }
    run_walk(&mut tally, &b"A: b\r\n c\r\n".repeat(512));
    run_walk(&mut tally, &b"A: b\r\n c\r\n".repeat(513));
    tally.generated = true;
    let mut rng = tally.rng();
    let all = tally.inputs + tally.cases();
    while tally.inputs < all {
        let arc = rng.chance(20);
        let (block, _) = any_block(&mut rng, arc);
        if block.len() < 500 && rng.chance(30) {
            run_walk(&mut tally, &block);
        }
        for _ in 0..3 {
            let place = match rng.below(20) {
                0 => rng.pick(&[LIMIT, LIMIT + 1, usize::MAX, block.len() + 1]),
                1 => block.len(),
                _ => rng.below(block.len() + 1),
            };
            run_next_field(&mut tally, &block, place);
        }
    }
    let mut wanted = numbers(&[0, 1, 2, 3, 4]);
    wanted.push("number  0, a field".to_string());
    tally.finish(&wanted);
}

// The generators themselves.

/// What the tests rely on: the generators make sound inputs where they aren't told otherwise.
#[test]
fn generators_are_sound() {
    let mut rng = Rng::new(setting("ORBENDASH_SEED", DEFAULT_SEED), 1);
    for _ in 0..2000 {
        let results = rng.below(5);
        let bytes = body(&mut rng, results, false).bytes();
        let answer = reference::report(&bytes, &mut vec![0; 3 * bytes.len() + 8]);
        assert_eq!(answer.number, 0, "{}", shown(&bytes));
        // A field that reads lacks the others of its set; one that doesn't is reason 1.
        let (kind, instance) = (rng.below(3), rng.between(1, 50));
        let field = arc_field(&mut rng, kind, instance, b"none", false);
        assert_eq!(reference::judge(&field, &[]).reason, 3, "{}", shown(&field));
    }
    // Some chains are broken on purpose.
    let mut built = 0;
    for _ in 0..1000 {
        let (fields, instances) = chain(&mut rng);
        let answer = reference::judge(&fields.concat(), &vec![3; instances]);
        built += usize::from(answer.outcome == 2);
    }
    assert!(built > 400, "only {built} of 1000 chains are built");
}
