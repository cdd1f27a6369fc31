//! What identifiers are compared by and what digit runs tell, on the reference alone.

#[path = "../../tests/common/punycode.rs"]
mod encoder;
#[path = "../../tests/common/rfc_3492.rs"]
mod rfc_3492;

use super::punycode::{decode, Failure};
use super::{compared, own_list, u_labels, Cursor, VersionNumber};
use encoder::{a_label, encode, points};
use rfc_3492::SAMPLES;

fn decoded(input: &[u8]) -> Option<String> {
    decode(input, usize::MAX)
        .ok()
        .map(|points| points.into_iter().collect())
}

/// `xn--` and the Punycode of any numbers.
fn labelled(numbers: &[u128]) -> Vec<u8> {
    [b"xn--", &encode(numbers)[..]].concat()
}

#[track_caller]
fn expect(text: &str, to: &str) {
    assert_eq!(compared(text.as_bytes()), to.as_bytes(), "{text:?}");
}

#[test]
fn samples_of_rfc_3492() {
    for (text, punycode) in SAMPLES {
        assert_eq!(decoded(punycode.as_bytes()).as_deref(), Some(text));
        // The case of letters says nothing but in the basic part.
        let basic = punycode.rfind('-').map_or(0, |last| last + 1);
        let (basic, digits) = punycode.split_at(basic);
        for digits in [digits.to_uppercase(), digits.to_lowercase()] {
            assert_eq!(
                decoded(format!("{basic}{digits}").as_bytes()).as_deref(),
                Some(text)
            );
            let encoded = encode(&points(text));
            assert!(encoded.eq_ignore_ascii_case(punycode.as_bytes()));
        }
        if !text.contains('.') {
            expect(&format!("a.xN--{punycode}.b"), &format!("a.{text}.b"));
        }
    }
}

#[test]
fn labels_at_the_edges() {
    expect("", "");
    expect("xn-", "xn-");
    expect("xn--", "");
    expect("XN--.xn--.a", "..a");
    expect("xn--example-", "example");
    expect("xn--Example-.com", "Example.com");
    expect("xn----", "-");
    expect("xn-----", "--");
    // "-" is no digit, and nothing stands before it.
    expect("xn---", "xn---");
    expect("xn---a", "xn---a");
    expect("xn--bcher-kva", "b\u{fc}cher");
    expect("Xn--bCHER-KVA", "b\u{fc}CHER");
    expect("xn--bcher-kv", "xn--bcher-kv");
    expect("xn--bcher-kv_", "xn--bcher-kv_");
    expect("xn--bcher-kva0", "xn--bcher-kva0");
    // Only the front of a label is a prefix, and only a dot parts labels.
    expect("axn--bcher-kva", "axn--bcher-kva");
    expect("a@xn--bcher-kva", "a@xn--bcher-kva");
    expect("a\u{3002}xn--bcher-kva", "a\u{3002}xn--bcher-kva");
    expect(".xn--bcher-kva.", ".b\u{fc}cher.");
    // The basic part takes any basic code point, as a quoted identifier can have it.
    expect("xn--a b\t-", "a b\t");
    expect("xn--@-0fa", "@\u{e4}");
}

#[test]
fn labels_are_decoded_once() {
    let once = a_label("b\u{fc}cher");
    let twice = [b"xn--", &once[..], b"-"].concat();
    assert_eq!(compared(&twice), once);
    // A U-label may look like an A-label.
    let odd = "xn--b\u{fc}cher";
    assert_eq!(compared(&a_label(odd)), odd.as_bytes());
    expect(odd, odd);
}

#[test]
fn bytes_from_128_up_in_a_label() {
    for text in [
        &b"xn--\x80"[..],
        b"xn--b\xc3\xbccher-kva",
        b"xn--bcher-kva\xff",
        b"xn--bcher-\xc3\xbc",
        b"\xc3xn--bcher-kva",
    ] {
        assert_eq!(compared(text), text);
    }
    assert_eq!(
        compared(b"\xc3\xbc.\xff.xn--tda"),
        &b"\xc3\xbc.\xff.\xc3\xbc"[..]
    );
}

#[test]
fn numbers_that_are_no_code_points() {
    for point in [
        0x80, 0x7ff, 0x800, 0xd7ff, 0xe000, 0xffff, 0x1_0000, 0x10_ffff,
    ] {
        let text = char::from_u32(point).expect("a code point").to_string();
        assert_eq!(compared(&a_label(&text)), text.as_bytes());
    }
    let high = (1 << 32) + 0xfc;
    for number in [
        0xd800,
        0xdbff,
        0xdc00,
        0xdfff,
        0x11_0000,
        0x11_0001,
        0x7fff_ffff,
        u128::from(u32::MAX),
        high,
        (1 << 64) + 0xfc,
        (1 << 96) + 0xfc,
    ] {
        for numbers in [
            &[number][..],
            &[number, 0x10_ffff],
            &[0x61, number],
            &[number, number, 0x80],
        ] {
            let label = labelled(numbers);
            assert_eq!(compared(&label), label);
            assert_eq!(
                compared(&label.to_ascii_uppercase()),
                label.to_ascii_uppercase()
            );
        }
    }
    // Both halves of a pair are no character either.
    let pair = labelled(&[0xd83d, 0xde00]);
    assert_eq!(compared(&pair), pair);
    // Numbers far beyond any that a machine has.
    for digits in ["9".repeat(60), "z".repeat(60_000), "9".repeat(65_000)] {
        expect(&format!("xn--{digits}"), &format!("xn--{digits}"));
        expect(&format!("xn--{digits}a"), &format!("xn--{digits}a"));
    }
}

#[test]
fn a_bound_on_the_length_changes_no_answer() {
    let long = "xn--".to_string() + &"a".repeat(2000);
    let mut texts: Vec<Vec<u8>> = SAMPLES
        .iter()
        .flat_map(|(text, punycode)| [text.to_string(), format!("xn--{punycode}.xn--tda.a")])
        .map(String::into_bytes)
        .collect();
    for text in [
        "",
        "xn--",
        "xn----",
        "xn--a-",
        "xn--abc-!",
        "xn--aaaaaaaa9",
        &long,
        "a.b.xn--a",
        "aaa.xn--",
        "aaa.xn--.xn--.",
        "aaaa.xn--a.b",
        "aaaaaaaaaaaaaaaaaaaa",
    ] {
        texts.push(text.as_bytes().to_vec());
    }
    for text in texts {
        let whole = compared(&text);
        for most in (0..text.len() + 3).chain([usize::MAX - 1, usize::MAX]) {
            let wanted = (whole.len() <= most).then_some(whole.clone());
            assert_eq!(u_labels(&text, most), wanted, "at most {most}");
        }
    }
    assert_eq!(decode(b"aaaa", 3), Err(Failure::Longer));
    assert_eq!(decode(b"abc-", 2), Err(Failure::Longer));
    assert_eq!(decode(b"aaaa!", 9), Err(Failure::Undecodable));
}

#[test]
fn equality() {
    let same = |id: &str, entry: &str| {
        let list = format!("{entry}\n");
        own_list(list.as_bytes())
            .expect("a sound list")
            .has(id.as_bytes())
    };
    for (a, b) in [
        ("xn--bcher-kva.example", "B\u{fc}CHER.Example"),
        ("b\u{fc}cher.example", "XN--BCHER-KVA.EXAMPLE"),
        ("xn--a-.com", "A.xn--COM-"),
        ("xn--9999", "XN--9999"),
        ("xn--b\u{fc}", "xn--xn--b-ova"),
    ] {
        assert!(same(a, b) && same(b, a), "{a} {b}");
        assert!(same(a, a) && same(b, b), "{a} {b}");
    }
    for (a, b) in [
        // No case but ASCII's, and no normalisation.
        ("xn--bcher-kva", "b\u{dc}cher"),
        ("\u{e9}", "e\u{301}"),
        ("xn--bcher-kva", "bucher"),
        ("xn--xn--bcher-kva-", "b\u{fc}cher"),
        ("xn--xn--bcher-kva-", "xn--bcher-kva"),
        ("xn--bcher-kva", "b\u{fc}cher."),
    ] {
        assert!(!same(a, b) && !same(b, a), "{a} {b}");
    }
    // No entry is empty, but one can be compared as if it were.
    assert!(same("", "xn--") && !same("", "a"));
}

#[test]
fn lists_take_utf_8() {
    for (entry, good) in [
        (&b"\xc2\x80"[..], true),
        (b"a\xdf\xbf", true),
        (b"\xe0\xa0\x80", true),
        (b"\xed\x9f\xbf\xee\x80\x80", true),
        (b"\xf0\x90\x80\x80\xf4\x8f\xbf\xbf", true),
        // Overlong forms, surrogates, above 10FFFF.
        (b"\xc0\x80", false),
        (b"\xc1\xbf", false),
        (b"\xe0\x9f\xbf", false),
        (b"\xed\xa0\x80", false),
        (b"\xed\xbf\xbf", false),
        (b"\xf0\x8f\xbf\xbf", false),
        (b"\xf4\x90\x80\x80", false),
        (b"\xf5\x80\x80\x80", false),
        (b"\xff", false),
        // Too few bytes, and too many.
        (b"\x80", false),
        (b"\xc3", false),
        (b"\xe2\x82", false),
        (b"\xf0\x9f\x98", false),
        (b"\xc3\xbc\xbc", false),
    ] {
        for list in [
            [&b"a\n"[..], entry, b"\nb\n"].concat(),
            [&b"a\nx."[..], entry, b"y\n"].concat(),
        ] {
            assert_eq!(own_list(&list).err(), (!good).then_some(2), "{list:?}");
        }
    }
    // An LF is no continuation byte.
    assert_eq!(own_list(b"a\n\xc3\n\xbc\n").err(), Some(2));
    for (length, good) in [(127, true), (128, false)] {
        let list = "\u{fc}".repeat(length) + "\n";
        assert_eq!(own_list(list.as_bytes()).is_ok(), good);
        // The limit is for what stands there, not for what it is compared as.
        let list = format!("xn--{}\n", "a".repeat(2 * length - 4));
        assert_eq!(own_list(list.as_bytes()).is_ok(), good);
    }
}

#[test]
fn tokens_from_128_up() {
    let id = |body: &[u8]| Some(Cursor::new(body).identifier()?.text().into_owned());
    assert_eq!(
        id(b" \xff\x80a.\xc3;").as_deref(),
        Some(&b"\xff\x80a.\xc3"[..])
    );
    assert_eq!(id(b"b\xc3\xbccher").as_deref(), Some(&b"b\xc3\xbccher"[..]));
    assert_eq!(id(b"a\x7f\x80"), None);
    for (body, number) in [
        (&b"\xff;spf=pass"[..], 6),
        (b"\xff 2", 6),
        (b"a \xff;spf=pass", 9),
        (b"a;\xff=pass", 9),
        (b"a;spf=\xff", 9),
        (b"a;spf=pass reason=\xff", 9),
        (b"a;spf=pass reason=\"\xff\"", 6),
        (b"a;spf=pass smtp.a=\xff", 9),
        (b"a;spf=pass smtp.a=x\xff", 9),
        (b"a;spf=pass smtp.a=x\xff@b.c", 9),
        (b"a;spf=pass smtp.a=x@b\xff.c", 9),
    ] {
        assert_eq!(super::report(body, &mut []).number, number, "{body:?}");
    }
    // The report shows what stands there.
    let mut out = [0; 40];
    let written = super::report(b"b\xfc.xn--tda;none", &mut out).written;
    assert_eq!(&out[..written], b"id\tb%FC.xn--tda\nnone\n");
}

#[test]
fn numbers_of_digit_runs() {
    use VersionNumber::{Large, Number};
    for (run, number) in [
        ("0", Number(0)),
        ("00", Number(0)),
        ("1", Number(1)),
        ("01", Number(1)),
        ("10", Number(10)),
        ("999999", Number(999_999)),
        ("0999999", Number(999_999)),
        ("1000000", Large),
        ("01000000", Large),
        ("4294967297", Large),
        ("18446744073709551617", Large),
        (&"1234567890".repeat(6_000), Large),
        (&("0".repeat(60_000) + "12"), Number(12)),
    ] {
        assert_eq!(VersionNumber::of(run.as_bytes()), number, "{run:.40}");
    }
    let digits = Cursor::new(b"0012x").digits().unwrap();
    assert_eq!((digits.counted, digits.number), (&b"12"[..], Number(12)));
    assert!(Cursor::new(b"x1").digits().is_none());
}
