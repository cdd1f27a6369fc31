//! What the package `orbendash` says with enums, lists and lines against the raw answers, on edge
//! cases and on generated inputs.
//!
//! `ORBENDASH_SEED` sets the seed, `ORBENDASH_PACKAGE_CASES` how many inputs are generated.

mod common;

use common::{block, body, damaged, edges, lines, list, setting, shown, Rng, DEFAULT_SEED};
use orbendash::{limit, raw, Line, List, Outcome, Reason, Refusal, Status, Verdict, Whose};

fn cases() -> u64 {
    setting("ORBENDASH_PACKAGE_CASES", 20_000)
}

fn rng(stream: u64) -> Rng {
    Rng::new(setting("ORBENDASH_SEED", DEFAULT_SEED), stream)
}

/// A refusal as the raw answer has it.
fn told(refusal: Refusal) -> (u8, usize) {
    assert!(refusal
        .to_string()
        .starts_with(&format!("{}: ", refusal.number())));
    (refusal.number(), refusal.place())
}

fn check_strip(block: &[u8], lines: &[u8]) {
    let mut out = vec![0; block.len()];
    let answer = raw::strip(block, lines, &mut out);
    let checked = raw::strip(b"", lines, &mut []);
    let own = match List::parse(lines) {
        Ok(own) => own,
        Err(refusal) => return assert_eq!(told(refusal), (5, checked.place), "{}", shown(lines)),
    };
    assert_eq!(checked.number, 0, "{}", shown(lines));
    assert_eq!(own.as_bytes(), lines);
    assert_eq!(List::of(own.entries()).as_ref(), Ok(&own));
    match orbendash::strip(block, &own) {
        Ok(stripped) => {
            assert_eq!(answer.number, 0);
            assert_eq!(stripped.block, out[..answer.kept]);
            assert_eq!(
                (stripped.removed, stripped.fields),
                (answer.removed, answer.fields)
            );
        }
        Err(refusal) => assert_eq!(told(refusal), (answer.number, answer.place)),
    }
    check_steps(block, &own);
    let mut short = vec![0; answer.kept.saturating_sub(1)];
    let shorter = raw::strip(block, lines, &mut short.clone());
    match orbendash::strip_into(block, &own, &mut short) {
        Ok(counts) => assert_eq!((0, counts.kept), (shorter.number, shorter.kept)),
        Err(refusal) => assert_eq!(told(refusal), (shorter.number, shorter.place)),
    }
}

/// Both steps: what `Marks` says of the bytes, and what the copy does with these and with others.
fn check_steps(block: &[u8], own: &List) {
    let mut bytes = vec![0; limit::FIELDS];
    let answer = raw::mark(block, own.as_bytes(), &mut bytes);
    let marks = match orbendash::mark(block, own) {
        Ok(marks) => marks,
        Err(refusal) => return assert_eq!(told(refusal), (answer.number, answer.place)),
    };
    assert_eq!(answer.number, 0);
    assert_eq!(marks.as_bytes(), &bytes[..answer.written]);
    let mut fields = 0;
    for (number, field) in orbendash::fields(block).enumerate() {
        let field = field.unwrap();
        let goes = field.is_named("Authentication-Results")
            && orbendash::whose(own, field.body) != Ok(Whose::Others);
        assert_eq!(marks.goes(number), goes, "{}", shown(block));
        fields += 1;
    }
    assert_eq!(
        (marks.as_bytes().len(), marks.goes(fields)),
        (fields, false)
    );
    let going: Vec<usize> = (0..fields).filter(|&field| marks.goes(field)).collect();
    assert!(marks.going().eq(going.iter().copied()));
    let stripped = orbendash::strip(block, own).unwrap();
    assert_eq!(stripped.fields, going.len());
    let mut out = vec![b'?'; block.len()];
    let counts = orbendash::copy_into(block, own, marks.as_bytes(), &mut out).unwrap();
    assert_eq!(out[..counts.kept], stripped.block);
    assert!(out[counts.kept..].iter().all(|&byte| byte == b'?'));
    assert_eq!(
        (counts.removed, counts.fields),
        (stripped.removed, stripped.fields)
    );
    assert_eq!(
        orbendash::copy(block, own, marks.as_bytes()).as_ref(),
        Ok(&stripped)
    );
    // The marks of what is left are others, but where nothing went.
    let left = orbendash::mark(&stripped.block, own).unwrap();
    assert_eq!(left.going().count(), 0);
    let again = orbendash::copy(block, own, left.as_bytes());
    match going.len() {
        0 => assert_eq!(again, Ok(stripped)),
        _ => assert_eq!(again.map_err(told), Err((13, 0))),
    }
}

fn check_whose(lines: &[u8], body: &[u8]) {
    let Ok(own) = List::parse(lines) else { return };
    let answer = raw::whose(lines, body);
    match orbendash::whose(&own, body) {
        Ok(whose) => assert_eq!(
            (whose, 0),
            (
                [Whose::Ours, Whose::Others, Whose::Unreadable][usize::from(answer.whose)],
                answer.number
            )
        ),
        Err(refusal) => assert_eq!(told(refusal), (answer.number, answer.place)),
    }
}

fn check_report(body: &[u8]) {
    let mut out = vec![0; limit::report_room(body.len())];
    let answer = raw::report(body, &mut out);
    let report = match orbendash::report(body) {
        Ok(report) => report,
        Err(refusal) => return assert_eq!(told(refusal), (answer.number, answer.place)),
    };
    assert_eq!(report.as_str().as_bytes(), &out[..answer.written]);
    assert_eq!(report.ignored(), answer.ignored);
    assert_eq!(report.other_version().is_some(), answer.number == 8);
    let printed: String = report.lines().map(|line| line.to_string()).collect();
    assert_eq!(printed, report.as_str());
    for line in report.lines() {
        if let Line::Identifier(text) | Line::Reason(text) | Line::Property { value: text, .. } =
            line
        {
            assert_eq!(orbendash::coded(text.bytes()), text.coded());
        }
    }
    let mut lent = vec![0; answer.written];
    let into = orbendash::report_into(body, &mut lent).map(orbendash::Report::into_owned);
    assert_eq!(into, Ok(report.clone()));
    if answer.written > 0 {
        lent.pop();
        let refusal = orbendash::report_into(body, &mut lent).unwrap_err();
        assert_eq!(told(refusal), (6, answer.written));
    }
    check_write(report.as_str().as_bytes());
}

fn check_write(lines: &[u8]) {
    let mut out = vec![0; limit::BYTES];
    let answer = raw::write(lines, &mut out);
    match orbendash::write(lines) {
        Ok(body) => assert_eq!((&body[..], 0), (&out[..answer.written], answer.number)),
        Err(refusal) => assert_eq!(told(refusal), (answer.number, answer.place)),
    }
}

fn check_judge(block: &[u8], verdicts: &[Verdict]) {
    let bytes: Vec<u8> = verdicts
        .iter()
        .map(|v| 2 * u8::from(v.seal()) + u8::from(v.signature()))
        .collect();
    let answer = raw::judge(block, &bytes);
    let judged = match orbendash::judge(block, verdicts) {
        Ok(judged) => judged,
        Err(refusal) => return assert_eq!(told(refusal), (answer.number, answer.place)),
    };
    assert_eq!(answer.number, 0);
    let (outcome, reason, field, instances) = match judged.outcome {
        Outcome::None => (0, 0, 0, 0),
        Outcome::Failed(Reason::Unreadable { field }) => (1, 1, field, 0),
        Outcome::Failed(Reason::Repeated { field }) => (1, 2, field, 0),
        Outcome::Failed(Reason::Missing) => (1, 3, 0, 0),
        Outcome::Failed(Reason::CvFail) => (1, 4, 0, 0),
        Outcome::Failed(Reason::CvOrder) => (1, 5, 0, 0),
        Outcome::Built { instances } => (2, 0, 0, instances),
    };
    assert_eq!(
        (outcome, reason, field, instances),
        (
            answer.outcome,
            answer.reason,
            answer.field,
            answer.instances
        )
    );
    let (status, oldest) = match judged.status {
        Status::None => (0, None),
        Status::Pass { oldest } => (1, Some(oldest)),
        Status::Fail => (2, None),
    };
    assert_eq!(status, answer.status);
    assert_eq!(
        oldest,
        (answer.has_oldest_pass == 1).then_some(answer.oldest_pass)
    );
}

#[test]
fn stripping() {
    for block in edges::blocks() {
        for list in [&b""[..], b"example.com\na\n", b"A\n\n"] {
            check_strip(&block, list);
        }
    }
    for list in edges::lists() {
        check_strip(b"Authentication-Results: a;\r\nA:\r\n", &list);
        check_whose(&list, b"a");
        check_whose(&list, &vec![b'a'; limit::BYTES + 1]);
    }
    let mut rng = rng(11);
    for _ in 0..cases() {
        let (mut block, _) = block(&mut rng, false);
        let mut list = list(&mut rng);
        if rng.chance(10) {
            block = damaged(&mut rng, &block, b"A:\r\n");
            list = damaged(&mut rng, &list, &block);
        }
        check_strip(&block, &list);
        check_whose(&list, &body(&mut rng, 1, true).bytes());
    }
}

#[test]
fn bodies() {
    for body in edges::bodies() {
        check_report(&body);
    }
    for body in edges::long_bodies(limit::BYTES + 1) {
        check_report(&body);
    }
    let mut rng = rng(12);
    for _ in 0..cases() {
        let results = rng.below(5);
        let mut bytes = body(&mut rng, results, true).bytes();
        if rng.chance(20) {
            let other = body(&mut rng, 2, true).bytes();
            bytes = damaged(&mut rng, &bytes, &other);
        }
        check_report(&bytes);
        let lines = lines::lines(&mut rng, results);
        let mut lines = lines::ended(&lines);
        if rng.chance(20) {
            lines = damaged(&mut rng, &lines, &bytes);
        }
        check_write(&lines);
    }
    for lines in lines::long(limit::BYTES + 1) {
        check_write(&lines);
    }
}

#[test]
fn chains() {
    for block in edges::chains() {
        for count in [0, 1, 2, 3, 50, 51] {
            check_judge(&block, &vec![Verdict::new(true, true); count]);
        }
    }
    let mut rng = rng(13);
    for _ in 0..cases() {
        let (mut bytes, instances) = block(&mut rng, true);
        if rng.chance(10) {
            bytes = damaged(&mut rng, &bytes, b"A:\r\n");
        }
        let verdicts: Vec<_> = (0..instances)
            .map(|_| Verdict::new(rng.chance(90), rng.chance(80)))
            .collect();
        check_judge(&bytes, &verdicts);
    }
}
