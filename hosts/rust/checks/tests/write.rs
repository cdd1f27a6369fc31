//! Our own field from report lines, ticket [1] of document 02: what is written, what is refused and
//! where, by the linked library and by the independent implementation.

mod common;

use common::appendix_b::APPENDIX_B;
use common::lines::ROWS;
use orbendash::limit;
use orbendash::raw as library;
use orbendash::raw::WriteAnswer;
use orbendash_checks::reference;

const BOTH: [fn(&[u8], &mut [u8]) -> WriteAnswer; 2] = [library::write, reference::write];

/// The bodies that are written from the reports of RFC 8601's Appendix B.
const WRITTEN: [&str; 9] = [
    // B.2
    " example.org; none",
    // B.3
    " example.com; spf=pass smtp.mailfrom=example.net",
    // B.4
    " example.com; auth=pass smtp.auth=sender@example.net; spf=pass smtp.mailfrom=example.net",
    " example.com; iprev=pass policy.iprev=192.0.2.200",
    // B.5
    " example.com; dkim=pass header.d=example.com",
    " example.com; auth=pass smtp.auth=sender@example.com; spf=fail smtp.mailfrom=example.com",
    // B.6
    " example.com; dkim=pass reason=\"good signature\" header.i=@mail-router.example.net; \
     dkim=fail reason=\"bad signature\" header.i=@newyork.example.com",
    " example.net; dkim=pass header.i=@newyork.example.com",
    // B.7
    " foo.example.net; dkim=fail policy.expired=1362471462",
];

/// The lines are written as this body, in no less room than it has bytes.
#[track_caller]
fn written(lines: impl AsRef<[u8]>, body: impl AsRef<[u8]>) {
    let (lines, body) = (lines.as_ref(), body.as_ref());
    for write in BOTH {
        let mut out = vec![b'?'; body.len() + 3];
        let answer = write(lines, &mut out[..body.len() - 1]);
        let refused = WriteAnswer {
            number: 6,
            place: body.len(),
            written: 0,
        };
        assert_eq!(answer, refused, "{}", lines.escape_ascii());
        assert!(out.iter().all(|&b| b == b'?'));
        let answer = write(lines, &mut out);
        let done = WriteAnswer {
            number: 0,
            place: 0,
            written: body.len(),
        };
        assert_eq!(answer, done, "{}", lines.escape_ascii());
        assert_eq!(
            out.escape_ascii().to_string(),
            [body, b"???"].concat().escape_ascii().to_string()
        );
    }
    let mut out = vec![0; limit::report_room(body.len())];
    let answer = library::report(body, &mut out);
    assert_eq!((answer.number, answer.ignored), (0, 0));
    assert_eq!(&out[..answer.written], lines);
}

/// No body has these lines as its report, which shows at this line.
#[track_caller]
fn refused(lines: impl AsRef<[u8]>, place: usize) {
    let lines = lines.as_ref();
    for write in BOTH {
        for room in [0, 1, 2 * lines.len() + 8] {
            let mut out = vec![b'?'; room];
            let refused = WriteAnswer {
                number: 11,
                place,
                written: 0,
            };
            let answer = write(lines, &mut out);
            assert_eq!(answer, refused, "{}", lines.escape_ascii());
            assert!(out.iter().all(|&b| b == b'?'));
        }
    }
}

/// A property of this kind and text is written so.
#[track_caller]
fn property(kind: char, text: &str, value: impl AsRef<[u8]>) {
    written(
        format!("id\ta\nm\tdkim\tpass\np\theader\tx\t{kind}\t{text}\n"),
        [b" a; dkim=pass header.x=", value.as_ref()].concat(),
    );
}

#[track_caller]
fn no_property(kind: &str, text: &str) {
    refused(
        format!("id\ta\nm\tdkim\tpass\np\theader\tx\t{kind}\t{text}\n"),
        3,
    );
}

#[test]
fn appendix_b() {
    for ((_, report), body) in APPENDIX_B.iter().zip(WRITTEN) {
        written(report, body);
    }
}

#[test]
fn the_report_of_56_bytes() {
    written(
        "id\texample.com\nm\tspf\tpass\np\tsmtp\tmailfrom\tt\texample.net\n",
        " example.com; spf=pass smtp.mailfrom=example.net",
    );
}

#[test]
fn layout() {
    written(
        "id\ta\nm\tspf\tpass\nr\tb\np\tsmtp\tc\tt\td\np\tbody\te\tq\tf\nm\tarc\tfail\nm\tiprev\tpass\nr\t\n",
        " a; spf=pass reason=b smtp.c=d body.e=\"f\"; arc=fail; iprev=pass reason=\"\"",
    );
}

#[test]
fn places() {
    // Where lines only stop too early, one more than their count.
    refused("", 1);
    refused("id\ta\n", 2);
    refused("id\ta\nnone\nnone\n", 3);
    refused("id\ta\nnone\nm\tspf\tpass\n", 3);
    refused("id\ta\nnone\nx", 3);
    // A line without LF is bad at its own number.
    refused("id\ta", 1);
    refused("i", 1);
    refused("id\ta\nnone", 2);
    refused("id\ta\nm\tspf\tpass\nr\tb", 3);
    // The first of several flaws.
    refused("id\t%0a\nnone\nx", 1);
    refused("id\ta\nm\tspf\tpass\n\nm\tspf\tmaybe\n", 3);
}

#[test]
fn order_of_lines() {
    for lines in [
        "none\n",
        "m\tspf\tpass\n",
        "r\ta\n",
        "\n",
        "v\t2\n",
        "field\t1\town\t0\t0\n",
    ] {
        refused(lines, 1);
    }
    for line in [
        "id\ta\n",
        "r\tb\n",
        "p\tsmtp\ta\tt\tb\n",
        "v\t2\n",
        "v\t1\n",
        "\n",
        "none\t\n",
    ] {
        refused(format!("id\ta\n{line}"), 2);
    }
    for line in ["id\ta\n", "none\n", "v\t2\n", "\n"] {
        refused(format!("id\ta\nm\tspf\tpass\n{line}"), 3);
        refused(format!("id\ta\nm\tspf\tpass\nr\tb\n{line}"), 4);
        refused(format!("id\ta\nm\tspf\tpass\np\tsmtp\ta\tt\tb\n{line}"), 4);
    }
    // One reason at most, before the properties.
    refused("id\ta\nm\tspf\tpass\nr\tb\nr\tb\n", 4);
    refused("id\ta\nm\tspf\tpass\np\tsmtp\ta\tt\tb\nr\tb\n", 4);
}

#[test]
fn columns() {
    for line in [
        "m",
        "m\t",
        "m\tspf",
        "m\tspf\t",
        "m\t\tpass",
        "m\tspf\tpass\t",
        "m\tspf\tpass\tx",
        "m\t\tspf\tpass",
        "m spf pass",
        " m\tspf\tpass",
        "m\tspf \tpass",
        "m\tspf\tpass ",
        "m\tspf\tpass\r",
        "m\tspf/1\tpass",
        "none ",
    ] {
        refused(format!("id\ta\n{line}\n"), 2);
    }
    for line in [
        "r",
        "r\ta\t",
        "r\t\ta",
        "p",
        "p\tsmtp\ta\tt",
        "p\tsmtp\ta\tt\tb\t",
        "p\tsmtp\ta\tb",
        "p\tsmtp\t\tt\tb",
        "p\t\ta\tt\tb",
        "p\tsmtp\ta\t\tb",
    ] {
        refused(format!("id\ta\nm\tspf\tpass\n{line}\n"), 3);
    }
    for lines in [
        "id\nnone\n",
        "id\ta\t\nnone\n",
        "id\t\ta\nnone\n",
        "id a\nnone\n",
        "\tid\ta\nnone\n",
    ] {
        refused(lines, 1);
    }
}

#[test]
fn percent_forms() {
    // Bytes that a report codes, where a quoted string can have them.
    for byte in 0..=255u8 {
        let line = format!("id\t%{byte:02X}\nnone\n");
        match byte {
            b'%' | 128.. => written(line, [b" ", &[byte][..], b"; none"].concat()),
            b'\t' | b' ' => written(line, [b" \"", &[byte][..], b"\"; none"].concat()),
            _ => refused(line, 1),
        }
        // And those that it doesn't.
        let line = [b"id\t", &[byte][..], b"\nnone\n"].concat();
        match byte {
            // An empty identifier, and then an empty line.
            b'\n' => refused(line, 2),
            b'%' | 0..=32 | 127.. => refused(line, 1),
            b'"' | b'\\' => written(line, [b" \"\\", &[byte][..], b"\"; none"].concat()),
            _ if b"()<>@,;:/[]?=".contains(&byte) => {
                written(line, [b" \"", &[byte][..], b"\"; none"].concat())
            }
            _ => written(line, [b" ", &[byte][..], b"; none"].concat()),
        }
    }
    for text in [
        "%", "%2", "a%", "%%25", "%G0", "%0G", "%c3", "%Cc", "%fF", "%41", "%0a", "%+9", "%2525%",
        "%25%4",
    ] {
        refused(format!("id\t{text}\nnone\n"), 1);
        refused(format!("id\ta\nm\tspf\tpass\nr\t{text}\n"), 3);
        for kind in ["t", "q"] {
            no_property(kind, text);
        }
        no_property("m", &format!("{text}@a.b"));
    }
    written("id\t%2525%2520\nnone\n", " %25%20; none");
}

#[test]
fn keywords() {
    for (method, results) in ROWS {
        for result in [
            "none",
            "pass",
            "fail",
            "softfail",
            "policy",
            "neutral",
            "temperror",
            "permerror",
            "hardfail",
            "x",
            "",
        ] {
            let lines = format!("id\ta\nm\t{method}\t{result}\n");
            if results.contains(&result) {
                written(&lines, format!(" a; {method}={result}"));
                refused(lines.replace(method, &method.to_uppercase()), 2);
                refused(lines.replace(result, &result.to_uppercase()), 2);
            } else {
                refused(lines, 2);
            }
        }
    }
    for method in ["none", "x", "", "dkim/1", "dki", "dkimx"] {
        refused(format!("id\ta\nm\t{method}\tpass\n"), 2);
    }
    for (ptype, known) in [
        ("smtp", true),
        ("header", true),
        ("body", true),
        ("policy", true),
        ("dns", false),
        ("reason", false),
        ("none", false),
        ("SMTP", false),
        ("Smtp", false),
        ("smt", false),
        ("smtpp", false),
        ("", false),
    ] {
        let lines = format!("id\ta\nm\tspf\tpass\np\t{ptype}\tx\tt\ty\n");
        if known {
            written(lines, format!(" a; spf=pass {ptype}.x=y"));
        } else {
            refused(lines, 3);
        }
    }
    for (property, good) in [
        ("x", true),
        ("0", true),
        ("-x", true),
        ("---x", true),
        ("x--1", true),
        ("reason", true),
        ("none", true),
        ("smtp", true),
        ("", false),
        ("-", false),
        ("x-", false),
        ("X", false),
        ("xY", false),
        ("x.y", false),
        ("x_y", false),
        ("x%20", false),
        ("x y", false),
        ("x=y", false),
        ("\u{fc}", false),
    ] {
        let lines = format!("id\ta\nm\tspf\tpass\np\tsmtp\t{property}\tt\ty\n");
        if good {
            written(lines, format!(" a; spf=pass smtp.{property}=y"));
        } else {
            refused(lines, 3);
        }
    }
}

#[test]
fn bare_or_quoted() {
    for (text, id, reason) in [
        ("", "\"\"", "\"\""),
        ("a.b", "a.b", "a.b"),
        ("..", "..", ".."),
        ("1", "1", "1"),
        ("none", "none", "none"),
        ("a%25", "a%", "a%"),
        ("a%20b", "\"a b\"", "\"a b\""),
        ("%09", "\"\t\"", "\"\t\""),
        ("a\\", "\"a\\\\\"", "\"a\\\\\""),
        ("\"", "\"\\\"\"", "\"\\\"\""),
        ("a@b", "\"a@b\"", "\"a@b\""),
        ("(a)", "\"(a)\"", "\"(a)\""),
        ("a;", "\"a;\"", "\"a;\""),
        // The identifier's token alone may have bytes from 128 up.
        ("b%C3%BCcher", "b\u{fc}cher", "\"b\u{fc}cher\""),
        ("%C3%BC%20", "\"\u{fc} \"", "\"\u{fc} \""),
    ] {
        written(format!("id\t{text}\nnone\n"), format!(" {id}; none"));
        written(
            format!("id\ta\nm\tspf\tpass\nr\t{text}\np\tsmtp\tb\tt\tc\n"),
            format!(" a; spf=pass reason={reason} smtp.b=c"),
        );
    }
    written(b"id\t%FF%80\nnone\n", b" \xff\x80; none");
}

#[test]
fn property_values() {
    // A token and a quoted string as the letter says.
    property('t', "a", "a");
    property('t', "%25", "%");
    property('t', "192.0.2.1", "192.0.2.1");
    property('q', "a", "\"a\"");
    property('q', "", "\"\"");
    property('q', "a%20\"b\\%FF", b"\"a \\\"b\\\\\xff\"");
    property('q', "a@b.c", "\"a@b.c\"");
    for text in ["", "a@b.c", "a%20", "%FF", "a=b", "a/b", "\"a\"", "(a)"] {
        no_property("t", text);
    }
    // A local part is bare where it is runs parted by single dots.
    for (text, value) in [
        ("a@b.c", "a@b.c"),
        ("a.b@c.d", "a.b@c.d"),
        ("a/b=c?@d.e", "a/b=c?@d.e"),
        ("%25@a.b", "%@a.b"),
        ("A@B.C-d", "A@B.C-d"),
        ("@a.b", "\"\"@a.b"),
        (".a@b.c", "\".a\"@b.c"),
        ("a.@b.c", "\"a.\"@b.c"),
        ("a..b@c.d", "\"a..b\"@c.d"),
        (".@a.b", "\".\"@a.b"),
        ("a@b@c.d", "\"a@b\"@c.d"),
        ("@@a.b", "\"@\"@a.b"),
        ("a%20b@c.d", "\"a b\"@c.d"),
        ("a\"@b.c", "\"a\\\"\"@b.c"),
        ("%C3%BC@a.b", "\"\u{fc}\"@a.b"),
    ] {
        property('m', text, value);
    }
    for domain in [
        "", "a", "a.", ".a", "a..b", "-a.b", "a-.b", "a.b-", "a.b_", "a_b.c", "a.%62", "a.b%20",
        "a.%C3%BC", "a.b.",
    ] {
        no_property("m", &format!("x@{domain}"));
        no_property("a", &format!("@{domain}"));
    }
    no_property("m", "x");
    no_property("m", "a.b");
    no_property("m", "x%40a.b");
    property('a', "@a.b", "@a.b");
    property('a', "@0-1.A.b", "@0-1.A.b");
    for text in ["", "a.b", "x@a.b", "@@a.b", "@a.b@c.d", "%40a.b"] {
        no_property("a", text);
    }
    for kind in ["", "T", "x", "tt", "qt", " t"] {
        no_property(kind, "a");
    }
}

#[test]
fn lengths() {
    // 11, then 1 for the body to be written, then 6.
    for (length, number) in [
        (limit::BYTES - 1, 0),
        (limit::BYTES, 0),
        (limit::BYTES + 1, 1),
        (1_000_000, 1),
    ] {
        let id = "x".repeat(length - 7);
        for write in BOTH {
            let answer = |lines: &str, room: usize| {
                let answer = write(lines.as_bytes(), &mut vec![0; room]);
                (answer.number, answer.place, answer.written)
            };
            let sound = format!("id\t{id}\nnone\n");
            if number == 0 {
                assert_eq!(answer(&sound, 0), (6, length, 0));
                assert_eq!(answer(&sound, length - 1), (6, length, 0));
                assert_eq!(answer(&sound, length), (0, 0, length));
            } else {
                assert_eq!(answer(&sound, 0), (1, 0, 0));
                assert_eq!(answer(&sound, length), (1, 0, 0));
            }
            assert_eq!(answer(&format!("{sound}none\n"), 0), (11, 3, 0));
            assert_eq!(answer(&format!("id\t{id}\n"), length), (11, 2, 0));
        }
    }
}
