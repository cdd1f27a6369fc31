//! Report lines: the report of some body, and in each way the report of none.

use super::{domain, keyword, labels, Rng, IDS};

/// The table of document 01: methods, and the results of each.
#[rustfmt::skip]
pub const ROWS: [(&str, &[&str]); 6] = [
    ("auth", &["none", "pass", "fail", "temperror", "permerror"]),
    ("dkim", &["none", "pass", "fail", "policy", "neutral", "temperror", "permerror"]),
    ("spf", &["none", "pass", "fail", "softfail", "policy", "neutral", "temperror", "permerror"]),
    ("iprev", &["pass", "fail", "temperror", "permerror"]),
    ("dmarc", &["none", "pass", "fail", "temperror", "permerror"]),
    ("arc", &["none", "pass", "fail"]),
];

/// A text as a report has it.
pub fn coded(text: &[u8]) -> Vec<u8> {
    let mut out = Vec::new();
    for &byte in text {
        match byte {
            b'%' | 0..=32 | 127.. => out.extend(format!("%{byte:02X}").bytes()),
            _ => out.push(byte),
        }
    }
    out
}

/// A text that a quoted string can have; many can stand bare.
fn text(rng: &mut Rng) -> Vec<u8> {
    let mut out = Vec::new();
    match rng.below(6) {
        0 => {}
        1 => super::token(rng, &mut out),
        2 => {
            let common = [
                &b"good signature"[..],
                b"a\"b\\c",
                b"b\xc3\xbccher",
                b" ",
                b"a.b",
            ];
            out.extend(rng.pick(&common));
        }
        _ => {
            for _ in 0..rng.between(1, 8) {
                out.push(match rng.below(8) {
                    0 => rng.pick(b" \t\"\\%@.;(=/"),
                    1 => rng.between(128, 255) as u8,
                    2 => rng.between(32, 126) as u8,
                    _ => rng.pick(b"abcxyzABC019-._+"),
                });
            }
        }
    }
    out
}

pub fn id_line(rng: &mut Rng) -> Vec<u8> {
    let id = match rng.below(4) {
        0 => text(rng),
        1 => labels::common_name(rng),
        _ => rng.pick(&IDS).to_vec(),
    };
    [b"id\t", &coded(&id)[..]].concat()
}

pub fn method_line(rng: &mut Rng) -> Vec<u8> {
    let (method, results) = rng.pick(&ROWS);
    format!("m\t{method}\t{}", rng.pick(results)).into_bytes()
}

pub fn reason_line(rng: &mut Rng) -> Vec<u8> {
    [b"r\t", &coded(&text(rng))[..]].concat()
}

/// A property line with this kind and text, which isn't coded here.
fn property_with(rng: &mut Rng, kind: &[u8], text: &[u8]) -> Vec<u8> {
    let mut out = b"p\t".to_vec();
    out.extend(rng.pick(&[&b"smtp"[..], b"header", b"body", b"policy"]));
    out.push(b'\t');
    if rng.chance(70) {
        out.extend(rng.pick(&[&b"mailfrom"[..], b"d", b"i", b"reason", b"none", b"-x--1"]));
    } else {
        let mut word = Vec::new();
        keyword(rng, &mut word);
        out.extend(word.to_ascii_lowercase());
    }
    for column in [kind, text] {
        out.push(b'\t');
        out.extend(column);
    }
    out
}

pub fn property_line(rng: &mut Rng) -> Vec<u8> {
    let mut value = Vec::new();
    let kind = match rng.below(6) {
        0 | 1 => {
            super::token(rng, &mut value);
            b"t"
        }
        2 => {
            value = text(rng);
            b"q"
        }
        3 => {
            value.push(b'@');
            domain(rng, &mut value);
            b"a"
        }
        kind => {
            let bare = [&b"sender"[..], b"a.b", b"x/y=z", b"{a}.b?", b"%"];
            if kind == 4 {
                value.extend(rng.pick(&bare));
            } else {
                let odd = [&b".a"[..], b"a.", b"a..b", b"a@b.c", b"@", b"."];
                value = if rng.chance(40) {
                    rng.pick(&odd).to_vec()
                } else {
                    text(rng)
                };
            }
            value.push(b'@');
            domain(rng, &mut value);
            b"m"
        }
    };
    property_with(rng, kind, &coded(&value))
}

/// The lines, without their LFs, of a field with so many results.
pub fn lines(rng: &mut Rng, results: usize) -> Vec<Vec<u8>> {
    let mut lines = vec![id_line(rng)];
    if results == 0 {
        lines.push(b"none".to_vec());
    }
    for _ in 0..results {
        lines.push(method_line(rng));
        if rng.chance(30) {
            lines.push(reason_line(rng));
        }
        for _ in 0..rng.pick(&[0, 0, 1, 1, 2, 5]) {
            lines.push(property_line(rng));
        }
    }
    lines
}

/// The lines with their LFs.
pub fn ended(lines: &[Vec<u8>]) -> Vec<u8> {
    lines
        .iter()
        .flat_map(|line| [line, &b"\n"[..]].concat())
        .collect()
}

/// A way in which lines are the report of no body.
pub enum Flaw {
    /// One of these lines, put in anywhere.
    Line(&'static [&'static str]),
    /// One of these in that column, from 0, of a line with that word.
    Column(u8, usize, &'static [&'static str]),
    /// A property of that kind with one of these texts.
    Value(&'static str, &'static [&'static str]),
    /// One of these at the end of a text.
    End(&'static [&'static str]),
    /// One of these bytes, put in anywhere.
    Byte(&'static [u8]),
    /// Some other change, which gives the place.
    Other(fn(&mut Rng, &mut Vec<Vec<u8>>) -> usize),
}

#[rustfmt::skip]
pub const FLAWS: [(&str, Flaw); 34] = [
    ("nothing at all", Flaw::Other(|_, lines| { lines.clear(); 1 })),
    ("an id line alone", Flaw::Other(|_, lines| { lines.truncate(1); 2 })),
    ("no id line first", Flaw::Other(|_, lines| { lines.remove(0); 1 })),
    ("a second id line", Flaw::Other(second_id)),
    ("a line behind none", Flaw::Other(behind_none)),
    ("none behind a result", Flaw::Other(|rng, lines| behind(rng, lines, b'm', |_| b"none".to_vec()))),
    ("none with more columns", Flaw::Other(wide_none)),
    ("a reason before any result", Flaw::Other(|rng, lines| put(lines, 1, reason_line(rng)))),
    ("a property before any result", Flaw::Other(|rng, lines| put(lines, 1, property_line(rng)))),
    ("a second reason", Flaw::Other(|rng, lines| behind(rng, lines, b'r', reason_line))),
    ("a reason behind a property", Flaw::Other(|rng, lines| behind(rng, lines, b'p', reason_line))),
    ("a v line", Flaw::Line(&["v\t2", "v\t1", "v\t0"])),
    ("an empty line", Flaw::Line(&[""])),
    ("a line of another word", Flaw::Line(&[
        "x", "\t", "i", "id", " id\ta", "nonesuch", "field\t1\town\t0\t0", "mm\tspf\tpass", "\tm\tspf\tpass",
    ])),
    ("a last line without LF", Flaw::Other(|_, lines| lines.len())),
    ("a CR before the LF", Flaw::Other(carriage_return)),
    ("a tab too many", Flaw::Byte(b"\t")),
    ("a tab too few", Flaw::Other(tab_too_few)),
    ("a word in upper case", Flaw::Other(upper_case)),
    ("a method of no row", Flaw::Column(b'm', 1, &["", "none", "x-new", "dki", "dkimm", "arc/1", "spf%20"])),
    ("a result of another row", Flaw::Other(other_row)),
    ("a fifth ptype", Flaw::Column(b'p', 1, &["dns", "reason", "", "smtpx", "smt", "none"])),
    ("an unfit property", Flaw::Column(b'p', 2, &["", "-", "a-", "a.b", "a_b", "a b", "A", "a%20", "\u{fc}"])),
    ("an unfit kind", Flaw::Column(b'p', 3, &["", "x", "T", "tt", "t ", "%74"])),
    ("a token that is empty", Flaw::Value("t", &[""])),
    ("a token that is none", Flaw::Value("t", &[
        "a(", "a)", "<", ">", "a@b", "@", "a,b", ";", ":", "a\\", "\"", "\"a\"", "a/b", "[", "]", "?", "a=b", "a%20b", "%09", "%80", "a%FF",
    ])),
    ("an unfit mailbox", Flaw::Value("m", &[
        "", "x", "a.b", "x@", "@", "x@a", "x@a..b", "x@.a.b", "x@a.b.", "x@-a.b", "x@a.b-", "x@a-.b", "x@a.-b", "x@a_b.c",
        "x@a.b%20", "x@a.%C3%BC", "x%40a.b", "x@a.b@c", "x@a.%62",
    ])),
    ("an unfit at-domain", Flaw::Value("a", &[
        "", "a.b", "@", "@a", "@.a", "@a.", "@a..b", "x@a.b", "@@a.b", "@a.b@c.d", "%40a.b", "@-a.b", "@a-.b", "@a.b_",
        "@a.%C3%BC", "@a.b%20",
    ])),
    ("a percent form in lower case", Flaw::End(&["%0a", "%c3", "%Ff", "%fF", "%7f", "%aB"])),
    ("a percent form of a plain byte", Flaw::End(&["%21", "%22", "%24", "%26", "%2E", "%40", "%41", "%5C", "%61", "%7E"])),
    ("a percent form of a byte that can't be had", Flaw::End(&["%00", "%01", "%08", "%0A", "%0B", "%0D", "%1F", "%7F"])),
    ("a percent sign alone", Flaw::End(&["%", "%2", "%%", "%G0", "%0G", "%:0", "%/0", "%@0", "% 0", "%+9"])),
    ("a raw byte from 128 up", Flaw::Byte(b"\x80\x9f\xa0\xbc\xc3\xe2\xfe\xff")),
    ("a raw control byte or space", Flaw::Byte(b"\x00\x01\x08\x0b\x0d\x1b\x1f\x20\x7f")),
];

/// Lines that are the report of no body in this way, and their place.
pub fn flawed(rng: &mut Rng, (name, flaw): &(&str, Flaw)) -> (Vec<u8>, usize) {
    let results = rng.below(4);
    let mut lines = lines(rng, results);
    let place = match flaw {
        Flaw::Line(those) => {
            let index = rng.between(0, lines.len());
            put(&mut lines, index, rng.pick(those).into())
        }
        Flaw::Column(word, column, those) => {
            let index = line_of(rng, &mut lines, *word);
            set_column(&mut lines[index], *column, rng.pick(those).as_bytes());
            index + 1
        }
        Flaw::Value(kind, those) => {
            let index = line_of(rng, &mut lines, b'p');
            let text = rng.pick(those);
            lines[index] = property_with(rng, kind.as_bytes(), text.as_bytes());
            index + 1
        }
        Flaw::End(those) => {
            let index = line_of_text(rng, &mut lines);
            lines[index].extend(rng.pick(those).bytes());
            index + 1
        }
        Flaw::Byte(those) => {
            let index = rng.below(lines.len());
            let at = rng.between(0, lines[index].len());
            lines[index].insert(at, rng.pick(those));
            index + 1
        }
        Flaw::Other(change) => change(rng, &mut lines),
    };
    let mut bytes = ended(&lines);
    if *name == "a last line without LF" {
        bytes.pop();
    }
    (bytes, place)
}

/// Which of the lines starts with this word; one of it is added where there is none.
fn line_of(rng: &mut Rng, lines: &mut Vec<Vec<u8>>, word: u8) -> usize {
    let start = [word, b'\t'];
    let found: Vec<usize> = (0..lines.len())
        .filter(|&index| lines[index].starts_with(&start))
        .collect();
    if !found.is_empty() {
        return rng.pick(&found);
    }
    lines.retain(|line| line != b"none");
    lines.push(method_line(rng));
    match word {
        b'p' => lines.push(property_line(rng)),
        b'r' => lines.push(reason_line(rng)),
        _ => {}
    }
    lines.len() - 1
}

/// A line that ends in a text of any bytes.
fn line_of_text(rng: &mut Rng, lines: &mut Vec<Vec<u8>>) -> usize {
    match rng.below(3) {
        0 => 0,
        1 => line_of(rng, lines, b'r'),
        _ => {
            let index = line_of(rng, lines, b'p');
            let value = coded(&text(rng));
            lines[index] = property_with(rng, b"q", &value);
            index
        }
    }
}

/// Puts another text into a column, from 0.
fn set_column(line: &mut Vec<u8>, column: usize, text: &[u8]) {
    let mut columns: Vec<&[u8]> = line.split(|&b| b == b'\t').collect();
    columns[column] = text;
    *line = columns.join(&b'\t');
}

/// Puts a line in, and gives its number from 1.
fn put(lines: &mut Vec<Vec<u8>>, index: usize, line: Vec<u8>) -> usize {
    lines.insert(index, line);
    index + 1
}

/// Puts a line in behind one with that word.
fn behind(
    rng: &mut Rng,
    lines: &mut Vec<Vec<u8>>,
    word: u8,
    line: fn(&mut Rng) -> Vec<u8>,
) -> usize {
    let index = line_of(rng, lines, word) + 1;
    put(lines, index, line(rng))
}

fn second_id(rng: &mut Rng, lines: &mut Vec<Vec<u8>>) -> usize {
    let index = rng.between(1, lines.len());
    put(lines, index, id_line(rng))
}

fn behind_none(rng: &mut Rng, lines: &mut Vec<Vec<u8>>) -> usize {
    lines.truncate(1);
    lines.push(b"none".to_vec());
    let makes = [
        |_: &mut Rng| b"none".to_vec(),
        id_line,
        method_line,
        reason_line,
        property_line,
    ];
    lines.push(rng.pick(&makes)(rng));
    3
}

fn wide_none(rng: &mut Rng, lines: &mut Vec<Vec<u8>>) -> usize {
    lines.truncate(1);
    put(
        lines,
        1,
        rng.pick(&["none\t", "none\t\t", "none\tx"]).into(),
    )
}

fn carriage_return(rng: &mut Rng, lines: &mut Vec<Vec<u8>>) -> usize {
    let index = rng.below(lines.len());
    lines[index].push(b'\r');
    index + 1
}

fn tab_too_few(rng: &mut Rng, lines: &mut Vec<Vec<u8>>) -> usize {
    let index = match rng.pick(b"imrp") {
        b'i' => 0,
        word => line_of(rng, lines, word),
    };
    let tabs: Vec<usize> = (0..lines[index].len())
        .filter(|&at| lines[index][at] == b'\t')
        .collect();
    lines[index].remove(rng.pick(&tabs));
    index + 1
}

fn upper_case(rng: &mut Rng, lines: &mut Vec<Vec<u8>>) -> usize {
    // Columns that have a letter: not every property has one.
    let (word, columns) = rng.pick(&[(b'm', &[0, 1, 2][..]), (b'p', &[0, 1, 3]), (b'r', &[0])]);
    let index = line_of(rng, lines, word);
    let column = rng.pick(columns);
    let old = lines[index].split(|&b| b == b'\t').nth(column);
    let old = old.expect("lines have all their columns").to_vec();
    let mut new = old.clone();
    while new == old {
        new.clear();
        super::cased(rng, &old, &mut new);
    }
    set_column(&mut lines[index], column, &new);
    index + 1
}

fn other_row(rng: &mut Rng, lines: &mut Vec<Vec<u8>>) -> usize {
    const RESULTS: [&str; 8] = [
        "none",
        "policy",
        "neutral",
        "softfail",
        "temperror",
        "hardfail",
        "pas",
        "",
    ];
    let index = line_of(rng, lines, b'm');
    let (method, row) = rng.pick(&ROWS);
    let others: Vec<&str> = RESULTS
        .into_iter()
        .filter(|result| !row.contains(result))
        .collect();
    lines[index] = format!("m\t{method}\t{}", rng.pick(&others)).into_bytes();
    index + 1
}

/// All sequences of up to five lines of eight kinds.
pub fn sequences() -> Vec<Vec<u8>> {
    const KINDS: [&[u8]; 8] = [
        b"id\ta\n",
        b"none\n",
        b"m\tspf\tpass\n",
        b"r\tb%20c\n",
        b"p\tsmtp\td\tm\te@f.g\n",
        b"v\t2\n",
        b"\n",
        b"id\ta",
    ];
    let mut all = vec![Vec::new()];
    let mut from = 0;
    for _ in 0..5 {
        let to = all.len();
        for index in from..to {
            for kind in KINDS {
                all.push([&all[index][..], kind].concat());
            }
        }
        from = to;
    }
    all
}

/// Lines whose body has exactly so many bytes.
pub fn long(length: usize) -> Vec<Vec<u8>> {
    let mut all = Vec::new();
    // What the body has without the text that is repeated; the text, and how many bytes of the body it
    // makes; what stands before it in the lines and behind it.
    #[rustfmt::skip]
    let texts: [(&str, &str, usize, &str, &str); 12] = [
        (" ; none", "x", 1, "id\t", "\nnone\n"),
        (" ; none", "%FF", 1, "id\t", "\nnone\n"),
        (" ; none", "%25", 1, "id\t", "\nnone\n"),
        (" \"\"; none", "%20", 1, "id\t", "\nnone\n"),
        (" \"\"; none", "%09", 1, "id\t", "\nnone\n"),
        (" \"\"; none", "\"", 2, "id\t", "\nnone\n"),
        (" a; spf=pass reason=", "x", 1, "id\ta\nm\tspf\tpass\nr\t", "\n"),
        (" a; spf=pass reason=\"\"", "\\", 2, "id\ta\nm\tspf\tpass\nr\t", "\n"),
        (" a; spf=pass smtp.b=", "x", 1, "id\ta\nm\tspf\tpass\np\tsmtp\tb\tt\t", "\n"),
        (" a; spf=pass smtp.=b", "x", 1, "id\ta\nm\tspf\tpass\np\tsmtp\t", "\tt\tb\n"),
        (" a; spf=pass smtp.b=\"\"@c.d", "%80", 1, "id\ta\nm\tspf\tpass\np\tsmtp\tb\tm\t", "@c.d\n"),
        (" a; spf=pass smtp.b=@c.", "d", 1, "id\ta\nm\tspf\tpass\np\tsmtp\tb\ta\t@c.", "\n"),
    ];
    for (around, text, bytes, before, behind) in texts {
        let count = (length - around.len()) / bytes;
        let lines = [before, &text.repeat(count), behind].concat();
        // Where each text makes two bytes, one may be missing.
        let missing = "x".repeat((length - around.len()) % bytes);
        all.push(
            lines
                .replacen('\t', &format!("\t{missing}"), 1)
                .into_bytes(),
        );
    }
    // Many lines; the identifier makes up what is missing.
    for (line, bytes) in [
        ("m\tspf\tpass\n", 10),
        ("m\tspf\tpass\nr\t\n", 20),
        ("m\tspf\tpass\np\tsmtp\ta\tq\t\"\n", 22),
    ] {
        let count = (length - 2) / bytes;
        let id = "x".repeat(length - 1 - count * bytes);
        all.push(format!("id\t{id}\n{}", line.repeat(count)).into_bytes());
    }
    let properties = (length - 13) / 9;
    let id = "x".repeat(length - 11 - properties * 9);
    let lines = "p\tsmtp\ta\tt\tb\n".repeat(properties);
    all.push(format!("id\t{id}\nm\tspf\tpass\n{lines}").into_bytes());
    all
}
