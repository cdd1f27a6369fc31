//! Inputs at the edges of document 01's rules: each limit and one more, each byte in each place,
//! each rule kept and broken.

use super::appendix_b::APPENDIX_B;
use super::punycode::a_label;
use super::rfc_3492::SAMPLES;
use super::{deep, pad_block, LIMIT};

/// Short blocks: line ends, lines, names, colons, continuation lines; identifiers to strip.
#[rustfmt::skip]
const BLOCKS: &[&[u8]] = &[
    b"", b"\r", b"\n", b"\r\n", b"\r\r\n", b"\n\r\n", b" \r\n", b"\t\r\n", b"A", b"A:", b"A:\r",
    b"A:\n", b"A:\r\n", b"A:\r\n\r\n", b"A:\r\n\r\nB:\r\n", b"A:\r\r\n", b"A:\rB:\r\n",
    b"A:\nB:\r\n", b":\r\n", b" :\r\n", b"A\r\n", b"A \r\n :\r\n", b"A\r\n :x\r\n",
    b"A \t :x\r\n", b"A B:x\r\n", b"A\x7f:x\r\n", b"\x80:x\r\n", b"A:x\r\n \r\n",
    b"A:x\r\n\t\r\n \r\nB:\r\n", b"A:x\r\n y\r", b"A:x\r\n y", b"A:x\r\n y\n", b"A:x\r\n\r",
    b"A:x\r\nB", b"A:x\r\nB\n", b"A:x\r\nB\r\nC:\r", b"A:x\r\n ", b"A:\x00\r\n",
    b"Authentication-Results:\r\n", b"Authentication-Results: \r\n",
    b"Authentication-Results : Example.COM; none\r\nFrom: a@b.example\r\n",
    b"authentication-results:example.com rubbish\r\n",
    b"Authentication-Results: (;) \"example.com\";\r\n",
    b"Authentication-Results: example.com\x00;\r\n",
    b"Authentication-Results:\r\n example.com\r\n \r\nX:y\r\n",
    b"Authentication-Results: (example.com\r\n", b"Authentication-Results: other.example (\r\n",
    b"Authentication-Result: example.com\r\n",
];

/// Short own lists.
#[rustfmt::skip]
const LISTS: &[&[u8]] = &[
    b"", b"\n", b"a", b"a\n", b"a\n\n", b"a\nb", b"a\r\n", b"a b\n", b"a\n b\n", b"!~\n",
    b"a\x7f\n", b"a\n\x80\n", b"\x00\n", b"example.com\nexample.com\n", b"EXAMPLE.COM\n",
    b"\xc3\xbc\n", b"a\n\xc3\n\xbc\n", b"a\n\xc3\xbc", b"xn--tda\n\xc3\xbc\n", b"xn--\n", b"xn---\n",
];

/// Short bodies: identifiers, header versions, the word none, methods and their versions,
/// reasons, properties and the four kinds of values.
#[rustfmt::skip]
const BODIES: &[&[u8]] = &[
    b"", b" ", b"\r\n", b"\r\n ", b"a", b"a ", b"a;", b"a;none", b"a; none ", b"a; none\r\n",
    b"a; none\r\n ", b"a;none;", b"a;none;none", b"a;none;spf=pass", b"a;spf=pass;none",
    b"a;none=pass", b"a;none (x) =pass", b"a;none/1=pass", b"a;none /x", b"a;none.x=y",
    b"a;none-", b"a;none-x=pass", b"a;NONE", b"a;nonesuch", b"a;nonesuch=pass", b"\"\";none",
    b"\"a\";none", b"\"a\"b;none", b"a\"b\";none", b"a\r;none", b"a\n;none", b"a\x00;none",
    b"a\r\n ;none", b"a\r\n;none", b"a(;none", b"a(x);none", b"(a;none", b"a/x; none",
    b"\"\\\x80\";none", b"\"\\\t\\ \\~\";none", b"\"\\\x7f\";none", b"\"\x7f\";none",
    b"\"\t\x80\xff\";none", b"\"a\r\nb\";none", b"\"a\r\n b\";none", b"\"a\r\n\tb\r\n\";none",
    b"\"a;none", b"a 1;none", b"a 01;none", b"a 0;none", b"a 00;none", b"a 2", b"a 2x",
    b"a 1x;none", b"a 1/;none", b"a 2(", b"a 2;;;", b"a 2\r", b"a 2\n", b"a 2\x00", b"a 2\"",
    b"a 1(;none", b"a 1 1;none", b"a(x)1;none", b"a(x)2", b"\"a\"1;none", b"a 002 ;", b"a 000",
    b"a 1", b"a 1 ;", b"a 1 none", b"a 11;none", b"a 10;none", b"a 18446744073709551617;none",
    b"a 999999;none", b"a 0999999;none", b"a 1000000;none", b"a 01000000;none", b"a 1000001;none",
    b"a;spf=pass-", b"a;spf=-pass", b"a;-spf=pass", b"a;spf-=pass", b"a;---=pass", b"a;spf=",
    b"a;=pass", b"a;spf", b"a;spf pass", b"a;spf==pass", b"a;spf=pass;", b"a;spf=pass;;spf=fail",
    b"a;spf/=pass", b"a;spf/1=pass", b"a;spf / 1 = pass", b"a;spf/01=pass", b"a;spf/2=pass",
    b"a;spf/1x=pass", b"a;spf/x=pass", b"a;spf/1/1=pass", b"a;spf/0=pass",
    b"a;spf/00=pass", b"a;spf/999999=pass", b"a;spf/0999999=pass", b"a;spf/1000000=pass",
    b"a;spf/01000000=pass", b"a;spf/1000001=pass",
    b"a;spf/18446744073709551617=pass", b"a;spf/-1=pass", b"a;SPF=PASS", b"a;iprev=none",
    b"a;arc=neutral", b"a;spf=softfail", b"a;dkim=softfail", b"a;spf=pass.", b"a;spf=pass reason",
    b"a;spf=pass reason=", b"a;spf=pass reason=x", b"a;spf=pass Reason = (c) \"x y\"",
    b"a;spf=passreason=x", b"a;spf=pass(c)reason=x", b"a;spf=pass reason=x reason=y",
    b"a;spf=pass reason.x=y", b"a;spf=pass reason .x=y", b"a;spf=pass reason=x reason.x=y",
    b"a;spf=pass smtp.a=b reason=x", b"a;spf=pass reason=x smtp.a=b",
    b"a;spf=pass reason=\"x\"smtp.a=b", b"a;spf=pass reason=x@y.z",
    b"a;spf=pass smtp.a=\"x\"smtp.b=c", b"a;spf=pass smtp.a=\"x\"(c)smtp.b=c",
    b"a;spf=pass smtp.a=x(c)smtp.b=c", b"a;spf=pass smtp.a=x;", b"a;spf=pass smtp.a=",
    b"a;spf=pass smtp.=x", b"a;spf=pass .a=x", b"a;spf=pass smtp a=x", b"a;spf=pass smtp-.a=x",
    b"a;spf=pass smtp.a-=x", b"a;spf=pass smtp.-a=x", b"a;spf=pass dns.a=x",
    b"a;spf=pass SMTP.MailFrom=X", b"a;spf=pass smtp.a=x dns.a=y", b"a;spf=pass smtp.a=x/y",
    b"a;spf=pass smtp.a=x=y", b"a;spf=pass smtp.a=x/y@a.b", b"a;spf=pass smtp.a=@a.b",
    b"a;spf=pass smtp.a=@a", b"a;spf=pass smtp.a=@", b"a;spf=pass smtp.a=.@a.b",
    b"a;spf=pass smtp.a=.x@a.b", b"a;spf=pass smtp.a=x.@a.b", b"a;spf=pass smtp.a=x..y@a.b",
    b"a;spf=pass smtp.a=x.y@a.b", b"a;spf=pass smtp.a=x@a..b", b"a;spf=pass smtp.a=x@.a.b",
    b"a;spf=pass smtp.a=x@a.b.", b"a;spf=pass smtp.a=x@a.b-", b"a;spf=pass smtp.a=x@a.-b",
    b"a;spf=pass smtp.a=x@a-.b", b"a;spf=pass smtp.a=x@a.b_", b"a;spf=pass smtp.a=x@a.b@c.d",
    b"a;spf=pass smtp.a=x @a.b", b"a;spf=pass smtp.a=x@ a.b", b"a;spf=pass smtp.a=(c)@a.b",
    b"a;spf=pass smtp.a=\"\"@a.b", b"a;spf=pass smtp.a=\"x y\"@a.b",
    b"a;spf=pass smtp.a=\"x\" @a.b", b"a;spf=pass smtp.a=\"x\"@a",
    b"a;spf=pass smtp.a=\"x\r\n y\"@A.B", b"a;spf=pass smtp.a=x@a-b.0-1",
    b"a;spf=pass smtp.a=x@1.2", b"a;spf=pass smtp.a=..x", b"a;spf=pass smtp.a=%20", b"%;none",
    b"\"%\";none", b"a;spf=pass(;)", b"a;spf=pass(", b"a;spf=pass\r\n ", b"a;spf=pass\r\n",
];

/// A body in parts that may have space between them.
#[rustfmt::skip]
const PARTS: &[&[u8]] = &[
    b"a", b" 1", b";", b"spf", b"/", b"1", b"=", b"pass", b" reason", b"=", b"x", b" smtp", b".",
    b"b", b"=", b"c",
];

/// Comments to put between them, some that can't be read.
#[rustfmt::skip]
const COMMENTS: &[&[u8]] = &[
    b"(", b"(\\", b"(\x7f)", b"(\\\x7f)", b"(\\\x80)", b"(\\))", b"(\r\n)", b"(\r\n\t)",
    b"(\x80\xff\t)", b"((a)(b(c)))(d)", b"(a)(b", b")", b"\r\n",
];

/// What may come after sound fields, and what may not.
#[rustfmt::skip]
const BLOCK_ENDS: &[&[u8]] = &[
    b"", b"B\r\n", b"\r\n", b"B:", b"B:\r", b" c\r\n", b" c\r", b"B:\r\n",
];

/// What may come after a sound tag list, and what may not.
#[rustfmt::skip]
const TAG_LIST_ENDS: &[&str] = &[
    ";", ";;", "; ", " ", "\r\n ", " ;", ";x", ";x=", ";x =", ";x= ", ";x=a b", ";x=a\r\n b",
    ";x=(c)", ";(c)x=y", ";x(c)=y", ";x=\u{7f}", ";x=\0", ";x=\u{80}", ";\u{80}=x", ";i=1",
    ";I=1", ";h=x", ";H=x", ";a=", ";A=", ";cv=pass", ";bh=x", ";x=;x=", ";x=;X=", ";_x=", ";1x=",
    ";x_1=", ";x-1=", ";=x", ";x==", ";x=:,\"\\", ";x=a;y=b;", ";\tx\t=\ty\t;", "; h=", ";h =",
];

/// How an ARC body may start, and how it may not.
#[rustfmt::skip]
const INSTANCES: &[&str] = &[
    "i=1;", "I=1;", "i=1", "i =1;", "i= 1;", "i=1 ;", "(c)i(c)=(c)1(c);", "(i=1;", "i=1(;",
    "i=\r\n 1;", "i=+1;", "i=1 0;", "i=10;", "i=99;", "i=100;", "i=;", "=1;", "j=1;", "i=1,",
    "i=1;;", "ii=1;", "i==1;", "i=\"1\";", "", " ",
];

/// Values of cv.
#[rustfmt::skip]
const CVS: &[&str] = &[
    "none", "PASS", "Fail", "", "pas", "passs", "pass x", " pass ", "\r\n pass\r\n ", "p\r\n ass",
    "(c)pass", "none;",
];

/// Blocks for every call that reads one.
pub fn blocks() -> Vec<Vec<u8>> {
    let mut blocks: Vec<Vec<u8>> = BLOCKS.iter().map(|bytes| bytes.to_vec()).collect();
    // Every byte in a name, before the colon, and in a body.
    for byte in 0..=255 {
        for (before, after) in [
            (&b"A:\r\n"[..], &b"A:x\r\n"[..]),
            (b"A", b":x\r\n"),
            (b"A ", b":x\r\n"),
            (b"A:", b"\r\n"),
            (b"A:\r\n", b"\r\n"),
            (b"A:\r", b"B:\r\n"),
        ] {
            blocks.push([before, &[byte], after].concat());
        }
    }
    for depth in [1, 15, 16, 17, 18, 60] {
        for (before, after) in [
            (": ", "example.com; none"),
            (": other.example", ""),
            (": i=1", ";"),
        ] {
            for name in ["Authentication-Results", "ARC-Authentication-Results"] {
                let mut block = format!("{name}{before}").into_bytes();
                block.extend(deep(depth));
                block.extend(after.bytes());
                block.extend(b"\r\n");
                blocks.push(block);
            }
        }
    }
    for length in [LIMIT - 1, LIMIT, LIMIT + 1, LIMIT + 2, 2 * LIMIT] {
        for start in [
            &b"A: x\r\n"[..],
            b"Authentication-Results: example.com\r\n",
            b"A\r\n",
            b"\n",
        ] {
            let mut block = start.to_vec();
            pad_block(&mut block, length);
            blocks.push(block);
        }
        // One field with as many lines as fit, and one whose last line isn't finished.
        let mut folded = b"Authentication-Results: a\r\n".to_vec();
        while folded.len() + 6 <= length {
            folded.extend(b" \r\n");
        }
        pad_block(&mut folded, length);
        blocks.push(folded);
        let mut unfinished = b"A:".to_vec();
        unfinished.resize(length, b'a');
        blocks.push(unfinished);
    }
    for fields in [1, 2, 511, 512, 513, 514, 1000] {
        for field in [
            &b"A:\r\n"[..],
            b"A:\r\n b\r\n",
            b"authentication-results:a\r\n",
        ] {
            let all = field.repeat(fields);
            for end in BLOCK_ENDS {
                blocks.push([&all[..], end].concat());
            }
        }
    }
    blocks
}

/// Own lists.
pub fn lists() -> Vec<Vec<u8>> {
    let mut lists: Vec<Vec<u8>> = LISTS.iter().map(|bytes| bytes.to_vec()).collect();
    for byte in 0..=255 {
        lists.push(vec![b'a', b'\n', b'b', byte, b'c', b'\n']);
    }
    for entries in [63, 64, 65, 66, 200] {
        for rest in [&b""[..], b"\n", b"b", b"b\n", b" "] {
            lists.push([&b"a\n".repeat(entries)[..], rest].concat());
        }
    }
    for length in [1, 254, 255, 256, 70_000] {
        for rest in [&b""[..], b"\n", b"\nb\n", b"\n\n"] {
            lists.push([&b"l".repeat(length)[..], rest].concat());
        }
    }
    lists
}

/// Labels behind their prefix: all of up to three digits and hyphens, and longer ones.
pub fn punycode() -> Vec<Vec<u8>> {
    const BYTES: &[u8] = b"abcdefghijklmnopqrstuvwxyz0123456789-";
    let mut all = vec![Vec::new()];
    let mut longest = 0;
    for _ in 0..3 {
        let from = std::mem::replace(&mut longest, all.len());
        for index in from..longest {
            for &byte in BYTES {
                all.push([&all[index][..], &[byte]].concat());
            }
        }
    }
    for byte in 0..=255u8 {
        if !matches!(byte, b'\n' | b'\r' | b'"' | b'\\' | 0..=31 | 127) {
            for (before, after) in [("", ""), ("", "a"), ("a", ""), ("a-", "a"), ("a", "-a")] {
                all.push([before.as_bytes(), &[byte], after.as_bytes()].concat());
            }
        }
    }
    all.extend(SAMPLES.map(|(_, punycode)| punycode.as_bytes().to_vec()));
    all
}

/// Names as long as an entry may be, with the most labels or with the most code points, and what
/// they are decoded to.
pub fn long_names() -> Vec<(Vec<u8>, Vec<u8>)> {
    let mut names = vec![
        (b".".repeat(255), b".".repeat(255)),
        (b"xn--.".repeat(51), b".".repeat(51)),
        (b"xn----.".repeat(36), b"-.".repeat(36)),
        (b"xn--a-.".repeat(36), b"A.".repeat(36)),
        (b"xn--tda.".repeat(31), "\u{fc}.".repeat(31).into_bytes()),
    ];
    for last in 0..64 {
        for point in ['\u{80}', '\u{800}', '\u{10fff0}'] {
            // As many as the A-label has room for, and one other.
            let mut name = point.to_string();
            while a_label(&name).len() < 251 {
                name.push(point);
            }
            let other = char::from_u32(u32::from(point) - 1 - last);
            name.extend(other.filter(|&other| other >= '\u{80}'));
            names.push((a_label(&name), name.into_bytes()));
        }
    }
    names.retain(|(name, _)| name.len() <= 255);
    names
}

/// One to four bytes from 128 up or ASCII, as they may come in UTF-8: all pairs, and longer ones
/// with all bytes at which a rule begins or ends.
pub fn utf8() -> Vec<Vec<u8>> {
    const TELLING: &[u8] = &[
        b'a', 0x80, 0x8f, 0x90, 0x9f, 0xa0, 0xbf, 0xc0, 0xc1, 0xc2, 0xdf, 0xe0, 0xe1, 0xec, 0xed,
        0xee, 0xef, 0xf0, 0xf1, 0xf3, 0xf4, 0xf5, 0xf8, 0xff,
    ];
    let mut all = Vec::new();
    for one in 128..=255 {
        all.push(vec![one]);
        for two in 33..=255 {
            all.push(vec![one, two]);
        }
    }
    for &one in TELLING {
        for &two in TELLING {
            for &three in TELLING {
                all.push(vec![one, two, three]);
                // What ends a sequence of two or three is tried above.
                let fours = [b'a', 0x80, 0xbf, 0xc0, 0xff];
                all.extend(fours.map(|four| vec![one, two, three, four]));
            }
        }
    }
    all
}

/// Bodies.
pub fn bodies() -> Vec<Vec<u8>> {
    let mut bodies: Vec<Vec<u8>> = BODIES.iter().map(|bytes| bytes.to_vec()).collect();
    bodies.extend(APPENDIX_B.map(|(body, _)| body.as_bytes().to_vec()));
    // A comment of each depth, and all kinds of comments, wherever space may stand.
    let comments = COMMENTS.iter().map(|comment| comment.to_vec());
    let comments: Vec<Vec<u8>> = comments.chain([1, 15, 16, 17, 40].map(deep)).collect();
    for place in 0..=PARTS.len() {
        let (before, after) = PARTS.split_at(place);
        for comment in &comments {
            bodies.push([&before.concat(), &comment[..], &after.concat()].concat());
        }
    }
    // Every byte after an identifier, after a version, and inside each kind of piece.
    for byte in 0..=255 {
        for (before, after) in [
            (&b""[..], &b"a;none"[..]),
            (b"a", b";none"),
            (b"a 1", b";none"),
            (b"a 2", b""),
            (b"(", b")a;none"),
            (b"(\\", b")a;none"),
            (b"\"", b"\";none"),
            (b"\"\\", b"\";none"),
            (b"a;s", b"f=pass"),
            (b"a;spf=pa", b"ss"),
            (b"a;spf/", b"=pass"),
            (b"a;spf=pass smtp.a=", b"@b.c"),
            (b"a;spf=pass smtp.a=x", b"y"),
            (b"a;spf=pass smtp.a=x@b", b".c"),
            (b"a;spf=pass smtp.a=\"\"", b""),
            (b"a;none", b""),
            (b"a;none", b"x=y"),
            (b"a;spf=pass reason", b"x"),
            (b"a;spf=pass reason=x", b"y"),
            (b"a;spf=pass", b"smtp.a=b"),
            (b"a;spf=pass smtp.a=x@b.c", b""),
        ] {
            bodies.push([before, &[byte], after].concat());
        }
    }
    bodies
}

/// Bodies of about so many bytes, each all of one thing.
pub fn long_bodies(length: usize) -> Vec<Vec<u8>> {
    let filled = |start: &[u8], piece: &[u8], end: &[u8]| {
        let times = (length - start.len() - end.len()) / piece.len();
        let mut body = [start, &piece.repeat(times)].concat();
        // What is left over goes into spaces at the end.
        body.extend(end);
        body.resize(length, b' ');
        body
    };
    vec![
        filled(b"", b" ", b"a;none"),
        filled(b"(", b"x", b")a;none"),
        filled(b"", b"(x)", b"a;none"),
        filled(b"", b"((((((((((((((((x))))))))))))))))", b"a;none"),
        filled(b"", b"(", b""),
        filled(b"", b"a", b";none"),
        filled(b"\"", b"\x80", b"\";none"),
        filled(b"\"", b"\\\"", b"\";none"),
        filled(b"a ", b"0", b"1;none"),
        filled(b"a ", b"0", b"2;none"),
        filled(b"a ", b"9", b""),
        filled(b"a 2;", b"\x00", b""),
        filled(b"a", b";spf=pass", b""),
        filled(b"a", b";spf/2=pass", b""),
        filled(b"a", b";spf=pass", b";"),
        filled(b"a;spf=pass", b" smtp.a=b", b""),
        filled(b"a;spf=pass", b" smtp.a=@b.c", b" dns.x=y"),
        filled(b"a;spf=pass smtp.a=", b"x", b""),
        filled(b"a;spf=pass smtp.a=", b"x.", b"x@a.b"),
        filled(b"a;spf=pass smtp.a=x@b", b".c", b""),
        filled(b"a;spf=pass smtp.a=\"", b"%", b"\"@b.c"),
        filled(b"a;spf=pass reason=\"", b"\r\n ", b"\""),
        filled(b"a;", b"m", b"=pass"),
        filled(b"a;", b"m-", b"=pass"),
        filled(b"a;spf=p", b"-", b""),
        filled(b"a;spf/", b"0", b"1=pass"),
    ]
}

/// A plain chain with one field for each kind and instance.
pub fn plain_chain(instances: usize) -> Vec<u8> {
    let mut block = Vec::new();
    for instance in 1..=instances {
        let cv = if instance == 1 { "none" } else { "pass" };
        let set = format!(
            "ARC-Seal: i={instance}; a=x; b=x; d=x; s=x; cv={cv}\r\n\
             ARC-Message-Signature: i={instance}; a=x; b=x; bh=x; d=x; h=x; s=x\r\n\
             ARC-Authentication-Results: i={instance}; x\r\n"
        );
        block.extend(set.bytes());
    }
    block
}

/// Blocks with ARC fields.
pub fn chains() -> Vec<Vec<u8>> {
    let mut blocks = Vec::new();
    for instances in [1, 2, 3, 49, 50, 51] {
        let block = plain_chain(instances);
        // The same chain with a set of the next instance, out of order, or too much.
        for extra in ["50", "51", "0", "00", "01", "001", "1"] {
            let more = format!("arc-authentication-results:i={extra};\r\n");
            blocks.push([&block, more.as_bytes()].concat());
        }
        blocks.push(block);
    }
    // One seal and one signature each, as the only field and beside a sound chain.
    let seal = "a=;b=;d=;s=;cv=pass";
    let signature = "a=;b=;bh=;d=;h=;s=";
    let long = format!("{seal};x={}", "y".repeat(60_000));
    let many = |count: usize, last: &str| {
        let tags: Vec<String> = (0..count).map(|n| format!("t{n}=")).collect();
        format!("{seal};{}{last}", tags.join(";"))
    };
    let mut lists = vec![
        String::new(),
        ";".to_string(),
        seal.to_string(),
        signature.to_string(),
        long,
    ];
    for end in TAG_LIST_ENDS {
        lists.push(format!("{seal}{end}"));
        lists.push(format!("{signature}{end}"));
    }
    for cv in CVS {
        lists.push(format!("a=;b=;d=;s=;cv={cv}"));
    }
    for missing in 0..6 {
        for all in [seal, signature] {
            let tags: Vec<&str> = all.split(';').collect();
            let left: Vec<&str> = (0..tags.len())
                .filter(|&n| n != missing)
                .map(|n| tags[n])
                .collect();
            lists.push(left.join(";"));
        }
    }
    for count in [10, 1000, 8000] {
        lists.push(many(count, ""));
        lists.push(many(count, ";t0="));
        lists.push(many(count, ";t00="));
        lists.push(many(count, ";t7=;x"));
    }
    for tags in lists {
        for kind in [
            "ARC-Seal",
            "arc-message-signature",
            "ARC-AUTHENTICATION-RESULTS",
        ] {
            let field = format!("{kind}: i=2;{tags}\r\n").into_bytes();
            let chain = plain_chain(1);
            blocks.push([&chain, &field[..]].concat());
            blocks.push([&field, &chain[..], b"X:\r\n", &field].concat());
        }
    }
    // Every byte in a tag's name and value, and around them.
    for byte in 0..=255 {
        for (before, after) in [
            (&b";x"[..], &b"y="[..]),
            (b";", b"x="),
            (b";x=", b""),
            (b";x=y", b"z"),
            (b"", b""),
        ] {
            let field = [
                b"ARC-Seal:i=1;",
                seal.as_bytes(),
                before,
                &[byte],
                after,
                b"\r\n",
            ];
            blocks.push(field.concat());
        }
        blocks.push([&b"ARC-Authentication-Results:i=1"[..], &[byte], b";\r\n"].concat());
        blocks.push([&b"ARC-Authentication-Results:i="[..], &[byte], b"1;\r\n"].concat());
    }
    // The instance in all its forms.
    for start in INSTANCES {
        for kind in [
            "ARC-Seal",
            "ARC-Message-Signature",
            "ARC-Authentication-Results",
        ] {
            blocks.push(format!("X:\r\n{kind}:{start}{seal};h=;bh=\r\n").into_bytes());
            blocks.push(format!("X:\r\n{kind}:{start}{seal}\r\n").into_bytes());
        }
    }
    // The five reasons, alone and together: the first that applies is given.
    let aar = "ARC-Authentication-Results: i=";
    for tail in [
        "",
        "1;\r\n",
        "3;\r\n",
        "x;\r\n",
        "1;\r\n",
        "1;\r\nARC-Seal:\r\n",
    ] {
        for cv in ["none", "pass", "fail"] {
            for last in ["none", "pass", "fail"] {
                let block = String::from_utf8(plain_chain(2)).unwrap();
                let block = block.replacen("cv=none", &format!("cv={cv}"), 1);
                let block = block.replacen("cv=pass", &format!("cv={last}"), 2);
                let tail = if tail.is_empty() {
                    String::new()
                } else {
                    format!("{aar}{tail}")
                };
                blocks.push(format!("{block}{tail}").into_bytes());
                blocks.push(format!("{tail}{block}").into_bytes());
            }
        }
    }
    blocks
}
