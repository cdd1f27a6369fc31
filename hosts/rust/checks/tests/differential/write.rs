//! `write`: both implementations on report lines, and the way back by `report`.

use super::common::lines::{ended, flawed, lines, long, sequences, FLAWS};
use super::*;

/// What may follow lines that can begin a report: one of these completes them.
const COMPLETIONS: [&[u8]; 4] = [b"", b"none\n", b"m\tspf\tpass\n", b"id\ta\nnone\n"];

/// The whole lines of some bytes, with their LFs, up to so many of them.
fn first_lines(bytes: &[u8], count: usize) -> &[u8] {
    let end = bytes.split_inclusive(|&b| b == b'\n').take(count);
    &bytes[..end.map(<[u8]>::len).sum()]
}

fn count_lines(bytes: &[u8]) -> usize {
    bytes.split_inclusive(|&b| b == b'\n').count()
}

/// The report of a body that was written.
fn report_of(body: &[u8]) -> (u8, usize, Vec<u8>) {
    let mut out = vec![0; orbendash::limit::report_room(body.len())];
    let answer = library::report(body, &mut out);
    out.truncate(answer.written);
    (answer.number, answer.ignored, out)
}

/// The place of 11 by what it means: the lines before it can begin a report, and those up to it
/// can't.
fn check_place(bytes: &[u8], place: usize) -> Result<(), String> {
    let answers = |begun: &[u8]| {
        COMPLETIONS.map(|rest| {
            let answer = library::write(&[begun, rest].concat(), &mut []);
            (answer.number, answer.place)
        })
    };
    let before = answers(first_lines(bytes, place - 1));
    if before.iter().all(|&(number, _)| number == 11) {
        return Err(format!("the lines before line {place} begin no report"));
    }
    // Behind a last line without LF nothing is a line of its own.
    let upto = first_lines(bytes, place);
    let whole = upto.last() == Some(&b'\n') && place <= count_lines(bytes);
    if whole && answers(upto) != [(11, place); 4] {
        return Err(format!("the lines up to line {place} begin a report"));
    }
    Ok(())
}

fn check_write(bytes: &[u8]) -> Result<Vec<library::WriteAnswer>, String> {
    // A body has at most two bytes for each of its lines': a quote or backslash makes two.
    let enough = (2 * bytes.len()).min(orbendash::limit::BYTES);
    let mut body = vec![0; enough];
    let whole = reference::write(bytes, &mut body);
    assert_ne!(whole.number, 6, "this room is enough");
    let mut seen = Vec::new();
    for room in rooms(whole.written, enough) {
        let ours = lend(room, |out| library::write(bytes, out));
        let theirs = lend(room, |out| reference::write(bytes, out));
        compare(room, |answer| answer.written, &ours, &theirs)?;
        seen.push(ours.0);
    }
    let body = &body[..whole.written];
    if whole.number == 0 && report_of(body) != (0, 0, bytes.to_vec()) {
        return Err(format!("the report of {} is another", shown(body)));
    }
    if whole.number == 11 && bytes.len() < 3000 {
        check_place(bytes, whole.place)?;
    }
    Ok(seen)
}

fn run_write(tally: &mut Tally, bytes: &[u8]) -> library::WriteAnswer {
    tally.inputs += 1;
    let Ok(seen) = check_write(bytes) else {
        disagree(tally, bytes, "", |bytes| check_write(bytes).map(drop));
    };
    for answer in &seen {
        tally.count(format!("number {:>2}", answer.number));
    }
    let last = *seen.last().expect("some room was tried");
    if last.number == 11 {
        let count = count_lines(bytes);
        tally.count(match last.place {
            place if place > count => "number 11, behind the last line".to_string(),
            place if place > 3 => "number 11, at a later line".to_string(),
            place => format!("number 11, at line {place}"),
        });
    }
    last
}

/// Long lines: around the limit of a body and far beyond it, sound and with a flaw behind them.
fn run_long(tally: &mut Tally) {
    for length in [4000, LIMIT - 1, LIMIT, LIMIT + 1, 2 * LIMIT, 16 * LIMIT] {
        for bytes in long(length) {
            let answer = run_write(tally, &bytes);
            let number = u8::from(length > LIMIT);
            assert_eq!(answer.number, number, "{length}: {}", shown(&bytes));
            let written = if number == 0 { length } else { 0 };
            assert_eq!(answer.written, written, "{}", shown(&bytes));
            let count = count_lines(&bytes);
            for (flaw, place) in [("none\n", 1), ("m\tspf\tpass", 1), ("m\tspf\tpass\n\n", 2)] {
                let bytes = [&bytes[..], flaw.as_bytes()].concat();
                let answer = run_write(tally, &bytes);
                // Behind none the first of two lines is the flaw.
                let place = if count == 2 { 1 } else { place };
                assert_eq!((answer.number, answer.place), (11, count + place));
            }
        }
    }
}

#[test]
fn write() {
    let mut tally = Tally::new("write");
    for bytes in sequences() {
        let _ = run_write(&mut tally, &bytes);
    }
    // Every byte in every column of every line, raw and as a percent form.
    let whole = b"id\ta\nm\tspf\tpass\nr\tb\np\tsmtp\tc\tt\td\np\tbody\te\tq\tf\n\
                  p\theader\tg\tm\th@i.j\np\tpolicy\tk\ta\t@l.m\n";
    for at in 0..=whole.len() {
        for byte in 0..=255u8 {
            let (before, behind) = whole.split_at(at);
            let _ = run_write(&mut tally, &[before, &[byte], behind].concat());
            let form = format!("%{byte:02X}").into_bytes();
            let _ = run_write(&mut tally, &[before, &form, behind].concat());
            if at < whole.len() {
                let _ = run_write(&mut tally, &[before, &[byte], &behind[1..]].concat());
            }
        }
    }
    run_long(&mut tally);
    tally.generated = true;
    let mut rng = tally.rng();
    for _ in 0..tally.cases() {
        let results = if rng.below(1000) == 0 {
            rng.between(100, 3000)
        } else {
            rng.below(5)
        };
        let sound = lines(&mut rng, results);
        let bytes = ended(&sound);
        match rng.below(10) {
            0..=2 => {
                let answer = run_write(&mut tally, &bytes);
                let fits = bytes.len() < LIMIT / 2;
                assert!(answer.number == 0 || answer.number == 1 && !fits);
            }
            3 | 4 => {
                let other = ended(&lines(&mut rng, 2));
                let damaged = damaged(&mut rng, &bytes, &other);
                let _ = run_write(&mut tally, &damaged);
            }
            _ => {
                let flaw = &FLAWS[rng.below(FLAWS.len())];
                let (bytes, place) = flawed(&mut rng, flaw);
                let answer = run_write(&mut tally, &bytes);
                let seen = (answer.number, answer.place);
                assert_eq!(seen, (11, place), "{}: {}", flaw.0, shown(&bytes));
                tally.count(flaw.0.to_string());
            }
        }
    }
    let mut wanted = numbers(&[0, 1, 6, 11]);
    wanted.extend(FLAWS.iter().map(|(name, _)| name.to_string()));
    for answer in [
        "number 11, at line 1",
        "number 11, at line 2",
        "number 11, at line 3",
        "number 11, at a later line",
        "number 11, behind the last line",
    ] {
        wanted.push(answer.to_string());
    }
    tally.finish(&wanted);
}

/// The other way: what a body without ignored results reports can be written, and is reported in
/// the same way again.
fn run_back(tally: &mut Tally, bytes: &[u8]) {
    let (number, ignored, report) = report_of(bytes);
    if number != 0 || ignored != 0 {
        return;
    }
    tally.inputs += 1;
    let mut out = vec![0; orbendash::limit::BYTES];
    let answer = library::write(&report, &mut out);
    // The layout that is written may be longer than the one that was read.
    assert!(
        answer.number == 0 || answer.number == 1 && bytes.len() > LIMIT / 2,
        "{answer:?} to the report of {}",
        shown(bytes)
    );
    tally.count(format!("number {:>2}", answer.number));
    if answer.number == 0 {
        let back = report_of(&out[..answer.written]);
        assert_eq!(back, (0, 0, report), "{}", shown(bytes));
    }
}

#[test]
fn write_of_reports() {
    let mut tally = Tally::new("write of reports");
    for bytes in edges::bodies() {
        run_back(&mut tally, &bytes);
    }
    for length in [4000, LIMIT - 1, LIMIT] {
        for bytes in edges::long_bodies(length) {
            run_back(&mut tally, &bytes);
        }
    }
    tally.generated = true;
    let mut rng = tally.rng();
    let all = tally.inputs + tally.cases() / 4;
    while tally.inputs < all {
        let results = rng.below(4);
        let mut bytes = body(&mut rng, results, false).bytes();
        if rng.chance(20) {
            bytes = damaged(&mut rng, &bytes, b"; spf=pass smtp.a=\"b c\"@d.e");
        }
        run_back(&mut tally, &bytes);
    }
    tally.finish(&numbers(&[0, 1]));
}
