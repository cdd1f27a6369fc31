//! Each refusal and each case of an enum, by the rules. The answers themselves are compared with an
//! implementation of its own in the package `checks`.

use std::error::Error;

use orbendash::{
    copy, copy_into, judge, limit, mark, report, strip, strip_into, whose, write, Line, List,
    Outcome, Reason, Refusal, Status, ValueKind, Verdict, Whose,
};

fn list(entries: &[&str]) -> List {
    List::of(entries).unwrap()
}

#[test]
fn refusals() {
    let own = list(&["example.com"]);
    let long = vec![b'a'; limit::BYTES + 1];
    let many = b"A:\r\n".repeat(limit::FIELDS + 1);
    let cases: [(Refusal, u8, usize, &str); 17] = [
        (strip(&long, &own).unwrap_err(), 1, 0, "1: more than 65536 bytes"),
        (whose(&own, &long).unwrap_err(), 1, 0, "1: more than 65536 bytes"),
        (strip(b"A:\rB\r\n", &own).unwrap_err(), 2, 2, "2: a CR without LF, an LF without CR, or a last line without CRLF, at 2"),
        (strip(b"A:\r\nB\r\n", &own).unwrap_err(), 3, 4, "3: an empty line, a first line that starts with space or tab, or a field without name or colon, at 4"),
        (strip(&many, &own).unwrap_err(), 4, 2048, "4: more than 512 fields, at 2048"),
        (List::parse("a\n\n").unwrap_err(), 5, 2, "5: a bad entry of the own list, at 2"),
        (strip_into(b"A:\r\n", &own, &mut []).unwrap_err(), 6, 4, "6: the output is too short: 4 bytes are needed"),
        (report(b"").unwrap_err(), 7, 0, "7: the identifier can't be read"),
        (report(b"example.com").unwrap_err(), 9, 0, "9: the body isn't well-formed"),
        (judge(CHAIN, &[]).unwrap_err(), 10, 0, "10: the verdicts don't fit the chain"),
        (write("id\ta\n").unwrap_err(), 11, 2, "11: no body has that report, at line 2"),
        (judge(b"\n", &[]).unwrap_err(), 2, 0, "2: a CR without LF, an LF without CR, or a last line without CRLF, at 0"),
        (mark(&many, &own).unwrap_err(), 4, 2048, "4: more than 512 fields, at 2048"),
        (copy(&long, &own, &[]).unwrap_err(), 1, 0, "1: more than 65536 bytes"),
        (copy(b"A:\r\nB\r\n", &own, &[]).unwrap_err(), 3, 4, "3: an empty line, a first line that starts with space or tab, or a field without name or colon, at 4"),
        (copy_into(b"A:\r\n", &own, &[1], &mut []).unwrap_err(), 13, 0, "13: the marks aren't those of this block and list"),
        (copy_into(b"A:\r\n", &own, &[0], &mut []).unwrap_err(), 6, 4, "6: the output is too short: 4 bytes are needed"),
    ];
    for (refusal, number, place, text) in cases {
        assert_eq!((refusal.number(), refusal.place()), (number, place));
        assert_eq!(refusal.to_string(), text);
        let error: Box<dyn Error + Send + Sync> = refusal.into();
        assert!(error.source().is_none());
    }
}

#[test]
fn steps() {
    let own = list(&["example.com"]);
    let block = b"From: a\r\nAuthentication-Results: Example.COM; none\r\nTo: b\r\nauthentication-results:\r\n";
    let marks = mark(block, &own).unwrap();
    assert_eq!(marks.as_bytes(), [0, 1, 0, 1]);
    assert_eq!(
        [0, 1, 2, 3, 4].map(|field| marks.goes(field)),
        [false, true, false, true, false]
    );
    assert!(!marks.goes(usize::MAX));
    assert!(marks.going().eq([1, 3]));
    let copied = copy(block, &own, marks.as_bytes()).unwrap();
    assert_eq!(copied.block, b"From: a\r\nTo: b\r\n");
    assert_eq!((copied.removed, copied.fields), (block.len() - 16, 2));
    assert_eq!(strip(block, &own), Ok(copied.clone()));
    let mut out = [b'?'; 20];
    let counts = copy_into(block, &own, marks.as_bytes(), &mut out).unwrap();
    assert_eq!(
        (counts.kept, counts.removed, counts.fields),
        (16, copied.removed, 2)
    );
    assert_eq!(&out, b"From: a\r\nTo: b\r\n????");

    let none = mark(b"", &own).unwrap();
    assert_eq!((none.as_bytes(), none.going().count()), (&b""[..], 0));
    assert_eq!(copy(b"", &own, none.as_bytes()).unwrap().block, b"");
}

/// Marks that were asked for before something was changed remove nothing.
#[test]
fn stale_marks() {
    let own = list(&["example.com"]);
    let block =
        b"Authentication-Results: a.example\r\nAuthentication-Results: example.com\r\nTo: b\r\n";
    let marks = mark(block, &own).unwrap();
    assert!(marks.going().eq([1]));
    let before = [b"From: a\r\n", &block[..]].concat();
    let behind = [&block[..], b"From: a\r\n"].concat();
    let without = &block[35..];
    let exchanged = [&block[35..72], &block[..35], &block[72..]].concat();
    for changed in [&before[..], &behind, without, &exchanged, b""] {
        let mut out = [b'?'; 100];
        assert_eq!(
            copy(changed, &own, marks.as_bytes()),
            Err(Refusal::OtherMarks)
        );
        assert_eq!(
            copy_into(changed, &own, marks.as_bytes(), &mut out),
            Err(Refusal::OtherMarks)
        );
        assert_eq!(out, [b'?'; 100]);
        assert!(mark(changed, &own).is_ok());
    }
    for other in [
        list(&[]),
        list(&["a.example"]),
        list(&["example.com", "a.example"]),
    ] {
        assert_eq!(
            copy(block, &other, marks.as_bytes()),
            Err(Refusal::OtherMarks)
        );
    }
    for damaged in [
        &[][..],
        &[0, 1],
        &[0, 1, 0, 0],
        &[0, 2, 0],
        &[1, 1, 0],
        &[0, 0, 0],
        b"010",
    ] {
        assert_eq!(copy(block, &own, damaged), Err(Refusal::OtherMarks));
    }
    // An entry more that no field has doesn't change them.
    let wider = list(&["example.com", "b.example"]);
    assert_eq!(copy(block, &wider, marks.as_bytes()), strip(block, &own));
}

#[test]
fn lists() {
    assert_eq!(List::default(), list(&[]));
    assert_eq!(List::default().entries().count(), 0);
    let own = list(&["mx.example.com", "xn--bcher-kva.example"]);
    assert_eq!(own.as_bytes(), b"mx.example.com\nxn--bcher-kva.example\n");
    assert!(own
        .entries()
        .eq([&b"mx.example.com"[..], b"xn--bcher-kva.example"]));
    assert_eq!(whose(&own, "bücher.EXAMPLE".as_bytes()), Ok(Whose::Ours));
    assert_eq!(whose(&own, b"b.example"), Ok(Whose::Others));
    assert_eq!(whose(&own, b"/"), Ok(Whose::Unreadable));
    // An LF in an entry doesn't make two of it, and what stands before it is told first.
    assert_eq!(List::of(["a", "b\nc"]), Err(Refusal::BadList { place: 2 }));
    assert_eq!(
        List::of(["a b", "b\nc"]),
        Err(Refusal::BadList { place: 0 })
    );
    assert_eq!(List::of(["a"; 65]), Err(Refusal::BadList { place: 128 }));
    assert_eq!(List::of([[b'a'; 256]]), Err(Refusal::BadList { place: 0 }));
    assert!(List::of([[b'a'; 255]; 64]).is_ok());
}

#[test]
fn lines() {
    let body = b" \"a b\"; spf=pass reason=\"100 %\" smtp.mailfrom=\"x y\"@b.example header.from=@c.example \
        policy.iprev=t body.x=\"q\"; dkim=none";
    let report = report(body).unwrap();
    let lines: Vec<_> = report.lines().collect();
    let [Line::Identifier(id), Line::Method {
        method: "spf",
        result: "pass",
    }, Line::Reason(reason), properties @ .., Line::Method {
        method: "dkim",
        result: "none",
    }] = &lines[..]
    else {
        panic!("{lines:?}")
    };
    assert_eq!((id.coded(), &id.bytes()[..]), ("a%20b", &b"a b"[..]));
    assert_eq!(
        (reason.coded(), &reason.bytes()[..]),
        ("100%20%25", &b"100 %"[..])
    );
    let values: Vec<_> = properties
        .iter()
        .map(|line| match line {
            Line::Property {
                ptype,
                property,
                kind,
                value,
            } => (*ptype, *property, *kind, value.coded()),
            line => panic!("{line:?}"),
        })
        .collect();
    assert_eq!(
        values,
        [
            ("smtp", "mailfrom", ValueKind::Mailbox, "x%20y@b.example"),
            ("header", "from", ValueKind::AtDomain, "@c.example"),
            ("policy", "iprev", ValueKind::Token, "t"),
            ("body", "x", ValueKind::Quoted, "q"),
        ]
    );
    let written = write(report.as_str()).unwrap();
    assert_eq!(orbendash::report(&written).unwrap(), report);

    let mut lines = report.lines();
    assert_eq!(lines.by_ref().count(), 8);
    assert_eq!(lines.next(), None);
}

#[test]
fn newer_versions() {
    let newer = report(b"a 002 ;;;").unwrap();
    assert_eq!((newer.other_version(), newer.ignored()), (Some("2"), 0));
    assert_eq!(newer.to_string(), "id\ta\nv\t2\n");
    let ignored = report(b"a; dkim/2=pass").unwrap();
    assert_eq!((ignored.other_version(), ignored.ignored()), (None, 1));
    assert_eq!(write(newer.as_str()), Err(Refusal::BadLines { line: 2 }));
}

const CHAIN: &[u8] = b"ARC-Seal: i=1; a=rsa-sha256; cv=none; d=a.example; s=k; b=AA\r\n\
    ARC-Message-Signature: i=1; a=rsa-sha256; d=a.example; s=k; h=from; bh=AA; b=AA\r\n\
    ARC-Authentication-Results: i=1; a.example; none\r\n";

#[test]
fn chains() {
    let judged = |block: &[u8], verdicts: &[Verdict]| {
        let judged = judge(block, verdicts).unwrap();
        (judged.outcome, judged.status)
    };
    let good = Verdict::new(true, true);
    let fails = |reason| (Outcome::Failed(reason), Status::Fail);
    let with = |from: &str, to: &str| {
        let text = std::str::from_utf8(CHAIN).unwrap();
        text.replacen(from, to, 1).into_bytes()
    };
    let built = Outcome::Built { instances: 1 };
    assert_eq!(judged(b"", &[good]), (Outcome::None, Status::None));
    assert_eq!(judged(CHAIN, &[good]), (built, Status::Pass { oldest: 0 }));
    assert_eq!(
        judged(CHAIN, &[Verdict::new(true, false)]),
        (built, Status::Fail)
    );
    assert_eq!(
        judged(CHAIN, &[Verdict::new(false, true)]),
        (built, Status::Fail)
    );
    assert_eq!(
        judged(&with("; bh=AA", ""), &[]),
        fails(Reason::Unreadable { field: 2 })
    );
    let twice = [CHAIN, b"X: y\r\n", CHAIN].concat();
    assert_eq!(judged(&twice, &[]), fails(Reason::Repeated { field: 5 }));
    assert_eq!(judged(&CHAIN[..62], &[]), fails(Reason::Missing));
    assert_eq!(
        judged(&with("cv=none", "cv=fail"), &[]),
        fails(Reason::CvFail)
    );
    assert_eq!(
        judged(&with("cv=none", "cv=pass"), &[]),
        fails(Reason::CvOrder)
    );
    // Of two sets the first signature may be bad: then the oldest that is good is the second.
    let text = std::str::from_utf8(CHAIN).unwrap();
    let second = text.replace("i=1", "i=2").replace("cv=none", "cv=pass");
    let two = [CHAIN, second.as_bytes()].concat();
    assert_eq!(
        judged(&two, &[Verdict::new(true, false), good]),
        (Outcome::Built { instances: 2 }, Status::Pass { oldest: 2 })
    );
}

#[test]
fn versions() {
    assert_eq!(orbendash::library_version(), orbendash::VERSION);
}
