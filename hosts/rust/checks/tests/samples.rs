//! The samples of document 01 and the examples of RFC 8601 and RFC 8617, run by the linked
//! library and by the independent implementation.

mod common;

use common::appendix_b::APPENDIX_B;
use common::deep;
use common::rfc_3492::SAMPLES;
use orbendash::raw as library;
use orbendash::raw::{
    outcome, reason, status, FieldAnswer, JudgeAnswer, MarkAnswer, ReportAnswer, StripAnswer,
};
use orbendash_checks::reference;

type Copy = fn(&[u8], &[u8], &[u8], &mut [u8]) -> StripAnswer;

/// The same calls from both.
struct Calls {
    strip: fn(&[u8], &[u8], &mut [u8]) -> StripAnswer,
    mark: fn(&[u8], &[u8], &mut [u8]) -> MarkAnswer,
    copy: Copy,
    report: fn(&[u8], &mut [u8]) -> ReportAnswer,
    judge: fn(&[u8], &[u8]) -> JudgeAnswer,
    next_field: fn(&[u8], usize) -> FieldAnswer,
}

const BOTH: [Calls; 2] = [
    Calls {
        strip: library::strip,
        mark: library::mark,
        copy: library::copy,
        report: library::report,
        judge: library::judge,
        next_field: library::next_field,
    },
    Calls {
        strip: reference::strip,
        mark: reference::mark,
        copy: reference::copy,
        report: reference::report,
        judge: reference::judge,
        next_field: reference::next_field,
    },
];

/// The number, the ignored count and the report of a body.
fn reported(calls: &Calls, body: &[u8]) -> (u8, usize, String) {
    let mut out = vec![b'?'; 3 * body.len() + 8];
    let answer = (calls.report)(body, &mut out);
    assert_eq!(answer.place, 0);
    assert!(out[answer.written..].iter().all(|&b| b == b'?'));
    out.truncate(answer.written);
    (
        answer.number,
        answer.ignored,
        String::from_utf8(out).expect("a report is ASCII"),
    )
}

fn expect_report(body: &str, number: u8, ignored: usize, report: &str) {
    for calls in &BOTH {
        assert_eq!(
            reported(calls, body.as_bytes()),
            (number, ignored, report.to_string()),
            "{body:?}"
        );
    }
}

#[test]
fn bodies() {
    expect_report("", 7, 0, "");
    expect_report("example.com", 9, 0, "");
    expect_report("example.com; none", 0, 0, "id\texample.com\nnone\n");
    expect_report("example.com/x; none", 7, 0, "");
    expect_report("example.com 2 ;;;", 8, 0, "id\texample.com\nv\t2\n");
    expect_report("example.com 01; none", 0, 0, "id\texample.com\nnone\n");
    expect_report("a; dkim/2=pass", 0, 1, "id\ta\n");
    expect_report("a; none=pass", 0, 1, "id\ta\n");
    expect_report("a; spf=pass-", 9, 0, "");
    expect_report("(x)a;none", 0, 0, "id\ta\nnone\n");
}

/// 02, ticket [3]: the number decides, and the `v` line has all the digits that count.
#[test]
fn version_numbers() {
    let many = "1234567890".repeat(6_000);
    let zeros = "0".repeat(59_999);
    for (run, counted) in [
        ("0", "0"),
        ("00", "0"),
        ("999999", "999999"),
        ("0999999", "999999"),
        ("1000000", "1000000"),
        ("1000001", "1000001"),
        (&many, &many),
        (&format!("{zeros}2"), "2"),
    ] {
        let newer = format!("id\ta\nv\t{counted}\n");
        expect_report(&format!("a {run}; none"), 8, 0, &newer);
        expect_report(&format!("a; spf/{run}=pass"), 0, 1, "id\ta\n");
    }
    for run in ["1", "01", &format!("{zeros}1")] {
        expect_report(&format!("a {run}; none"), 0, 0, "id\ta\nnone\n");
        let understood = "id\ta\nm\tspf\tpass\n";
        expect_report(&format!("a; spf/{run}=pass"), 0, 0, understood);
    }
}

#[test]
fn the_report_of_56_bytes() {
    let body = b" example.com; spf=pass smtp.mailfrom=example.net";
    let report = b"id\texample.com\nm\tspf\tpass\np\tsmtp\tmailfrom\tt\texample.net\n";
    assert_eq!(report.len(), 56);
    for calls in &BOTH {
        let mut out = [b'?'; 56];
        let refused = (calls.report)(body, &mut out[..55]);
        assert_eq!((refused.number, refused.place), (6, 56));
        assert_eq!((refused.written, refused.ignored), (0, 0));
        assert_eq!(out, [b'?'; 56]);
        let done = (calls.report)(body, &mut out);
        assert_eq!((done.number, done.place), (0, 0));
        assert_eq!((done.written, done.ignored), (56, 0));
        assert_eq!(&out, report);
    }
}

#[test]
fn kinds_of_values_and_escapes() {
    expect_report(
        "\"a \\\"b%\r\n\tc\x7e\"; dkim=pass header.i=@d.e smtp.x=\"y z\"@d.e body.y=\"\" policy.z=1+1",
        0,
        0,
        "id\ta%20\"b%25%09c~\nm\tdkim\tpass\n\
         p\theader\ti\ta\t@d.e\np\tsmtp\tx\tm\ty%20z@d.e\np\tbody\ty\tq\t\np\tpolicy\tz\tt\t1+1\n",
    );
    expect_report("a 000", 8, 0, "id\ta\nv\t0\n");
    // A result with one unknown ptype goes as a whole.
    expect_report(
        "a; spf=pass smtp.a=b dns.a=b; arc=fail",
        0,
        1,
        "id\ta\nm\tarc\tfail\n",
    );
    // ";" in a comment or quoted string ends nothing.
    expect_report(
        "a; spf=pass (; none) reason=\"; none\"",
        0,
        0,
        "id\ta\nm\tspf\tpass\nr\t;%20none\n",
    );
}

#[test]
fn comments_16_deep_read() {
    for (depth, number) in [(16, 0), (17, 7)] {
        let body = [&deep(depth)[..], b"a;none"].concat();
        for calls in &BOTH {
            assert_eq!(reported(calls, &body).0, number, "depth {depth}");
        }
    }
}

#[test]
fn appendix_b() {
    for (body, report) in APPENDIX_B {
        expect_report(body, 0, 0, report);
    }
}

fn expect_strip(block: &[u8], list: &[u8], kept: &[u8], fields: usize) {
    let done = StripAnswer {
        number: 0,
        place: 0,
        kept: kept.len(),
        removed: block.len() - kept.len(),
        fields,
    };
    for calls in &BOTH {
        let mut out = vec![b'?'; block.len()];
        assert_eq!((calls.strip)(block, list, &mut out), done);
        assert_eq!(&out[..kept.len()], kept);
        assert!(out[kept.len()..].iter().all(|&b| b == b'?'));
    }
}

#[test]
fn stripping() {
    let from = b"From: a@b.example\r\n";
    let forged = b"Authentication-Results : Example.COM; none\r\n";
    assert_eq!((from.len(), forged.len()), (19, 44));
    expect_strip(&[&forged[..], from].concat(), b"example.com\n", from, 1);
    // An own identifier before rubbish, and none that can be read.
    for body in [
        "example.com rubbish;;;",
        "",
        "\"example.com\" 2",
        "a/b; none",
    ] {
        let forged = format!("authentication-results:{body}\r\n");
        expect_strip(
            &[from, forged.as_bytes(), from].concat(),
            b"x\nEXAMPLE.com\n",
            &[&from[..], from].concat(),
            1,
        );
    }
    // The fields of Appendix B by the identifier of their last hop.
    let fields: Vec<String> = APPENDIX_B
        .iter()
        .map(|(body, _)| format!("Authentication-Results:{body}\r\n"))
        .collect();
    let kept: Vec<&str> = fields
        .iter()
        .map(String::as_str)
        .filter(|field| !field.contains(": example.com;"))
        .collect();
    assert_eq!((fields.len(), kept.len()), (9, 3));
    expect_strip(
        fields.concat().as_bytes(),
        b"example.com\n",
        kept.concat().as_bytes(),
        6,
    );
}

/// 02, ticket [7]: a byte for each field, and a copy that asks for exactly these bytes.
#[test]
fn two_steps() {
    let own = b"example.com\n";
    let block = b"From: a@b.example\r\nAuthentication-Results : Example.COM; none\r\n";
    for calls in &BOTH {
        let mut marks = [b'?'; 3];
        let short = (calls.mark)(block, own, &mut marks[..1]);
        assert_eq!((short.number, short.place, short.written), (6, 2, 0));
        assert_eq!(&marks, b"???");
        let marked = (calls.mark)(block, own, &mut marks);
        assert_eq!((marked.number, marked.place, marked.written), (0, 0, 2));
        assert_eq!(&marks, &[0, 1, b'?']);
        let mut out = [b'?'; 20];
        // 13 comes before 6, and 5 and 2 before both; then nothing is written.
        for (list, handed, room, number, place) in [
            (&own[..], &[0, 1][..], 18, 6, 19),
            (own, &[0, 0], 18, 13, 0),
            (own, &[1, 1], 20, 13, 0),
            (own, &[0], 20, 13, 0),
            (own, &[0, 1, 0], 20, 13, 0),
            (b"", &[0, 1], 20, 13, 0),
            (b"\n", &[0, 0], 0, 5, 0),
        ] {
            let refused = StripAnswer {
                number,
                place,
                ..StripAnswer::default()
            };
            let answer = (calls.copy)(block, list, handed, &mut out[..room]);
            assert_eq!(answer, refused, "{handed:?}");
            assert_eq!(out, [b'?'; 20]);
        }
        assert_eq!((calls.copy)(b"A:\n", own, &[1], &mut []).number, 2);
        let copied = (calls.copy)(block, own, &[0, 1], &mut out);
        let done = StripAnswer {
            number: 0,
            place: 0,
            kept: 19,
            removed: 44,
            fields: 1,
        };
        assert_eq!(copied, done);
        assert_eq!(&out, b"From: a@b.example\r\n?");
    }
}

/// Whether a field with this identifier is removed where this entry is on the list.
fn expect_listed(id: &str, entry: &str, listed: bool) {
    let field = format!("Authentication-Results: {id}; none\r\n");
    let list = format!("a\n{entry}\nb\n");
    let kept = if listed { &b""[..] } else { field.as_bytes() };
    expect_strip(field.as_bytes(), list.as_bytes(), kept, usize::from(listed));
}

#[test]
fn samples_of_rfc_3492() {
    for (text, punycode) in SAMPLES {
        if text.contains(' ') {
            // (S): no entry has a space, and its dot parts two labels.
            expect_listed(&format!("\"xn--{punycode}\""), "->$1.00<-", false);
            continue;
        }
        let a_label = format!("xn--{punycode}");
        expect_listed(&a_label, text, true);
        expect_listed(text, &a_label, true);
        expect_listed(&format!("\"{a_label}\""), &a_label.to_uppercase(), true);
        expect_listed(&format!("mx.{a_label}"), &format!("MX.{text}"), true);
        expect_listed(&format!("mx.{a_label}"), text, false);
        expect_listed(&format!("x{a_label}"), &format!("x{text}"), false);
    }
}

#[test]
fn international_labels() {
    for (id, entry, listed) in [
        ("xn--bcher-kva.example", "B\u{fc}cher.Example", true),
        ("b\u{fc}cher.example", "XN--BCHER-KVA.EXAMPLE", true),
        ("\"xn--\\bcher-kva\"", "b\u{fc}cher", true),
        // Labels at the edges of the decoding.
        ("\"\"", "xn--", true),
        ("xn--example-.com", "example.com", true),
        ("-", "xn----", true),
        ("xn----", "xn-----", false),
        ("xn---", "-", false),
        ("xn---", "XN---", true),
        ("xn--bcher-kv", "bcher", false),
        ("xn--bcher-kva.", "b\u{fc}cher", false),
        ("a.xn--.b", "a..b", true),
        // Decoded once; and what can't be decoded is compared as it stands.
        ("xn--xn--bcher-kva-", "b\u{fc}cher", false),
        ("xn--xn--bcher-kva-", "xn--bcher-kva", false),
        ("xn--b\u{fc}", "xn--xn--b-ova", true),
        ("xn--b\u{fc}cher-kva", "XN--b\u{fc}CHER-KVA", true),
        // The last code point, the number above it, and a surrogate.
        ("xn--a-h023p", "A\u{10ffff}", true),
        ("xn--a-j023p", "XN--A-J023P", true),
        ("xn--a-j023p", "a", false),
        ("xn--a-rc4g", "XN--A-RC4G", true),
        ("xn--a-rc4g", "a", false),
        // No case but ASCII's, no normalisation, no other dot.
        ("xn--bcher-kva", "b\u{dc}cher", false),
        ("\u{e9}", "e\u{301}", false),
        ("a\u{3002}b", "a.b", false),
    ] {
        expect_listed(id, entry, listed);
    }
}

fn expect_judge(block: &[u8], verdicts: &[u8], answer: JudgeAnswer) {
    for calls in &BOTH {
        assert_eq!((calls.judge)(block, verdicts), answer);
    }
}

#[test]
fn instances_1_to_50_read() {
    for (instance, reason, field) in [
        ("50", reason::MISSING, 0),
        ("0", reason::UNREADABLE, 2),
        ("51", reason::UNREADABLE, 2),
    ] {
        let block = format!("X:\r\nARC-Authentication-Results: i={instance};\r\n");
        expect_judge(
            block.as_bytes(),
            &[],
            JudgeAnswer {
                outcome: outcome::FAILED,
                reason,
                status: status::FAIL,
                field,
                ..JudgeAnswer::default()
            },
        );
    }
}

/// The chain of RFC 8617's Appendix B.
const CHAIN: &[u8] = b"\
ARC-Seal: i=3; a=rsa-sha256; cv=pass; d=clochette.example.org; s=\r\n \
clochette; t=12345; b=CU87XzXlNlk5X/yW4l73UvPUcP9ivwYWxyBWcVrRs7\r\n \
+HPx3K05nJhny2fvymbReAmOA9GTH/y+k9kEc59hAKVg==\r\n\
ARC-Message-Signature: i=3; a=rsa-sha256; c=relaxed/relaxed; d=\r\n \
clochette.example.org; h=message-id:date:from:to:subject; s=\r\n \
clochette; t=12345; bh=KWSe46TZKCcDbH4klJPo+tjk5LWJnVRlP5pvjXFZY\r\n \
LQ=; b=o71vwyLsK+Wm4cOSlirXoRwzEvi0vqIjd/2/GkYFYlSd/GGfKzkAgPqxf\r\n \
K7ccBMP7Zjb/mpeggswHjEMS8x5NQ==\r\n\
ARC-Authentication-Results: i=3; clochette.example.org; spf=fail\r\n \
smtp.from=jqd@d1.example; dkim=fail (512-bit key)\r\n \
header.i=@d1.example; dmarc=fail; arc=pass (as.2.gmail.example=pass,\r\n \
ams.2.gmail.example=pass, as.1.lists.example.org=pass,\r\n \
ams.1.lists.example.org=fail (message has been altered))\r\n\
ARC-Seal: i=2; a=rsa-sha256; cv=pass; d=gmail.example; s=20120806; t=\r\n \
12345; b=Zpukh/kJL4Q7Kv391FKwTepgS56dgHIcdhhJZjsalhqkFIQQAJ4T9BE\r\n \
8jjLXWpRNuh81yqnT1/jHn086RwezGw==\r\n\
ARC-Message-Signature: i=2; a=rsa-sha256; c=relaxed/relaxed; d=\r\n \
gmail.example; h=message-id:date:from:to:subject; s=20120806; t=\r\n \
12345; bh=KWSe46TZKCcDbH4klJPo+tjk5LWJnVRlP5pvjXFZYLQ=; b=CVoG44\r\n \
cVZvoSs2mMig2wwqPaJ4OZS5XGMCegWqQs1wvRZJS894tJM0xO1RJLgCPsBOxdA5\r\n \
9WSqI9s9DfyKDfWg==\r\n\
ARC-Authentication-Results: i=2; gmail.example; spf=fail\r\n \
smtp.from=jqd@d1.example; dkim=fail (512-bit key)\r\n \
header.i=@example.org; dmarc=fail; arc=pass\r\n \
(as.1.lists.example.org=pass, ams.1.lists.example.org=pass)\r\n\
ARC-Seal: i=1; a=rsa-sha256; cv=none; d=lists.example.org; s=dk-lists;\r\n \
t=12345; b=TlCCKzgk3TrAa+G77gYYO8Fxk4q/Ml0biqduZJeOYh6+0zhwQ8u/\r\n \
lHxLi21pxu347isLSuNtvIagIvAQna9a5A==\r\n\
ARC-Message-Signature: i=1; a=rsa-sha256; c=relaxed/relaxed; d=\r\n \
lists.example.org; h=message-id:date:from:to:subject; s=\r\n \
dk-lists; t=12345; bh=KWSe46TZKCcDbH4klJPo+tjk5LWJnVRlP5pvjXFZYL\r\n \
Q=; b=DsoD3n3hiwlrN1ma8IZQFgZx8EDO7Wah3hUjIEsYKuShRKYB4LwGUiKD5Y\r\n \
yHgcIwGHhSc/4+ewYqHMWDnuFxiQ==\r\n\
ARC-Authentication-Results: i=1; lists.example.org; spf=pass\r\n \
smtp.mfrom=jqd@d1.example; dkim=pass (512-bit key)\r\n \
header.i=@d1.example; dmarc=pass\r\n\
Message-ID: <54B84785.1060301@d1.example>\r\n";

#[test]
fn the_chain_of_rfc_8617() {
    let built = JudgeAnswer {
        outcome: outcome::BUILT,
        instances: 3,
        ..JudgeAnswer::default()
    };
    let pass = |oldest_pass| JudgeAnswer {
        status: status::PASS,
        has_oldest_pass: 1,
        oldest_pass,
        ..built
    };
    let fail = JudgeAnswer {
        status: status::FAIL,
        ..built
    };
    let bad = JudgeAnswer {
        number: 10,
        ..JudgeAnswer::default()
    };
    expect_judge(CHAIN, &[3, 3, 3], pass(0));
    // As the RFC tells it: the list altered the message after the first signature.
    expect_judge(CHAIN, &[2, 3, 3], pass(2));
    expect_judge(CHAIN, &[3, 2, 3], pass(3));
    expect_judge(CHAIN, &[3, 3, 2], fail);
    expect_judge(CHAIN, &[1, 3, 3], fail);
    expect_judge(CHAIN, &[3, 3], bad);
    expect_judge(CHAIN, &[3, 3, 4], bad);
    // cv none is right at instance 1, and nowhere else.
    let text = String::from_utf8(CHAIN.to_vec()).expect("ASCII");
    let broken = |reason, field| JudgeAnswer {
        outcome: outcome::FAILED,
        reason,
        status: status::FAIL,
        field,
        ..JudgeAnswer::default()
    };
    let judged = |block: String, answer| expect_judge(block.as_bytes(), &[], answer);
    judged(
        text.replace("cv=none", "cv=pass"),
        broken(reason::CV_ORDER, 0),
    );
    judged(
        text.replacen("cv=pass", "cv=fail", 1),
        broken(reason::CV_FAIL, 0),
    );
    judged(
        text.replacen("ARC-Seal", "X", 1),
        broken(reason::MISSING, 0),
    );
    judged(format!("{text}{text}"), broken(reason::REPEATED, 11));
    judged(
        text.replacen("; b=CVoG44", "", 1),
        broken(reason::UNREADABLE, 5),
    );
    expect_judge(b"From: a@b.example\r\n", &[7], JudgeAnswer::default());
}

#[test]
fn fields() {
    let block = b"A: x\r\nB\t:\r\n y\r\nbad\r\n";
    let first = FieldAnswer {
        found: 1,
        start: 0,
        name_end: 1,
        body_start: 2,
        end: 6,
        ..FieldAnswer::default()
    };
    let second = FieldAnswer {
        found: 1,
        start: 6,
        name_end: 7,
        body_start: 9,
        end: 15,
        ..FieldAnswer::default()
    };
    let stop = FieldAnswer {
        number: 3,
        place: 15,
        ..FieldAnswer::default()
    };
    for calls in &BOTH {
        for (place, answer) in [
            (0, first),
            (1, second),
            (6, second),
            (7, stop),
            (usize::MAX, stop),
        ] {
            assert_eq!((calls.next_field)(block, place), answer);
        }
        assert_eq!((calls.next_field)(&block[..15], 7), FieldAnswer::default());
    }
    let names: Vec<_> = orbendash::fields(block)
        .map(|step| {
            step.map(|field| field.name)
                .map_err(|r| (r.number(), r.place()))
        })
        .collect();
    assert_eq!(names, [Ok(&b"A"[..]), Ok(b"B"), Err((3, 15))]);
}
