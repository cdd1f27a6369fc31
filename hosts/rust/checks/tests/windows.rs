//! The library looks at many bytes at once: every byte at every place of texts of every length up
//! to a few windows, inside everything that is read so, against the independent implementation.
//!
//! `ORBENDASH_WINDOW` sets the longest text.

mod common;

use std::fmt::Debug;

use common::{setting, shown, tell};
use orbendash::raw as library;
use orbendash_checks::reference;

/// Past two windows of sixteen bytes and what is looked at behind them.
const DEFAULT_LONGEST: u64 = 36;

const OWN: &[u8] = b"own.example\nxn--bcher-kva.example\n";

fn longest() -> usize {
    setting("ORBENDASH_WINDOW", DEFAULT_LONGEST) as usize
}

/// Runs a call of both on what stands between two texts, with each byte at each place.
fn sweep<A: PartialEq + Debug>(
    what: &str,
    plain: u8,
    [before, behind]: [&[u8]; 2],
    run: impl Fn(&[u8], &mut [u8]) -> A,
    expected: impl Fn(&[u8], &mut [u8]) -> A,
) {
    let mut inputs = 0usize;
    let mut outs = [[0u8; 512]; 2];
    for length in 0..=longest() {
        let mut input = [before, &vec![plain; length], behind].concat();
        for place in before.len()..before.len() + length {
            for byte in 0..=255 {
                input[place] = byte;
                let [ours, theirs] = &mut outs;
                ours.fill(0x5a);
                theirs.fill(0x5a);
                let answer = run(&input, ours);
                let other = expected(&input, theirs);
                assert_eq!(answer, other, "{what}: {}", shown(&input));
                assert!(ours == theirs, "{what}, written: {}", shown(&input));
                inputs += 1;
            }
            input[place] = plain;
        }
    }
    tell(&format!("{what}: {inputs} inputs\n"));
}

fn sweep_strip(what: &str, plain: u8, around: [&[u8]; 2], list: &[u8]) {
    sweep(
        what,
        plain,
        around,
        |block, out| library::strip(block, list, out),
        |block, out| reference::strip(block, list, out),
    );
}

fn sweep_report(what: &str, plain: u8, around: [&[u8]; 2]) {
    sweep(
        what,
        plain,
        around,
        |body, out| library::report(body, out),
        |body, out| reference::report(body, out),
    );
}

fn sweep_judge(what: &str, plain: u8, around: [&[u8]; 2]) {
    sweep(
        what,
        plain,
        around,
        |block, _| library::judge(block, &[3]),
        |block, _| reference::judge(block, &[3]),
    );
}

fn sweep_write(what: &str, plain: u8, around: [&[u8]; 2]) {
    sweep(
        what,
        plain,
        around,
        |lines, out| library::write(lines, out),
        |lines, out| reference::write(lines, out),
    );
}

#[test]
fn lines_and_names() {
    sweep_strip("the text of a line", b'x', [b"X:", b"\r\nY:z\r\n"], OWN);
    sweep_strip(
        "the text of a further line",
        b'x',
        [b"X:a\r\n\t", b"\r\n b\r\n"],
        OWN,
    );
    sweep_strip(
        "further lines of one byte",
        b'\t',
        [b"X:a\r\n ", b"\r\n"],
        OWN,
    );
    sweep_strip("a name", b'x', [b"X", b":y\r\n"], OWN);
}

#[test]
fn identifiers() {
    sweep_strip(
        "an identifier",
        b'x',
        [b"Authentication-Results:", b";none\r\n"],
        b"xxxxxxxxxxxxxxx\nxxxxxxxxxxxxxxxx\nxxxxxxxxxxxxxxxxx\n",
    );
    sweep_strip(
        "a quoted identifier",
        b'x',
        [b"Authentication-Results:\"", b"\";none\r\n"],
        b"xxxxxxx\nxxxxxxxx\nxxxxxxxxx\nxxxxxxxxxxxxxxxx\n",
    );
    sweep_strip(
        "a comment before an identifier",
        b'x',
        [b"Authentication-Results:(", b")own.example;none\r\n"],
        OWN,
    );
}

#[test]
fn entries() {
    let block = b"Authentication-Results:xxxxxxxxxxxxxxxxx;none\r\n";
    sweep(
        "an entry",
        b'x',
        [b"a\n", b"\n"],
        |list, out| library::strip(block, list, out),
        |list, out| reference::strip(block, list, out),
    );
}

#[test]
fn bodies() {
    sweep_report("a comment", b'x', [b"a;spf=pass (", b") smtp.a=b"]);
    sweep_report(
        "a comment in a comment",
        b'x',
        [b"a;spf=pass ((", b")) smtp.a=b"],
    );
    sweep_report("blanks", b' ', [b"a;spf=pass ", b"smtp.a=b"]);
    sweep_report("a reason", b'x', [b"a;spf=pass reason=\"", b"\" smtp.a=b"]);
    sweep_report("a token", b'x', [b"a;spf=pass smtp.a=", b" smtp.a=b"]);
    sweep_report(
        "a quoted value",
        b'x',
        [b"a;spf=pass smtp.a=\"", b"\" smtp.a=b"],
    );
    sweep_report(
        "a local part",
        b'x',
        [b"a;spf=pass smtp.a=", b"@b.c smtp.a=b"],
    );
    sweep_report("a domain", b'x', [b"a;spf=pass smtp.a=@b.", b" smtp.a=b"]);
    sweep_report("a keyword", b'x', [b"a;spf=pass smtp.", b"=b"]);
    sweep_report("an identifier reported", b'x', [b"", b";none"]);
}

#[test]
fn tag_lists() {
    sweep_judge(
        "a tag's value",
        b'x',
        [b"ARC-Seal:i=1;a=;d=;s=;cv=none;b=", b";t=\r\n"],
    );
    sweep_judge(
        "a tag's name",
        b'x',
        [b"ARC-Seal:i=1;a=;d=;s=;cv=none;b=;", b"=\r\n"],
    );
}

#[test]
fn lines_written() {
    sweep_write("an identifier written", b'x', [b"id\t", b"\nnone\n"]);
    sweep_write(
        "a reason written",
        b'x',
        [b"id\ta\nm\tspf\tpass\nr\t", b"\np\tsmtp\ta\tt\tb\n"],
    );
    sweep_write(
        "a local part written",
        b'x',
        [b"id\ta\nm\tspf\tpass\np\tsmtp\ta\tm\t", b"@b.c\n"],
    );
}

/// Every byte in place of each mark, for every number of fields up to a few windows: only the right one
/// is taken.
#[test]
fn marks() {
    let mut inputs = 0usize;
    for fields in 1..=longest().max(66) {
        let mut block = Vec::new();
        for field in 0..fields {
            block.extend(match field % 3 {
                1 => &b"Authentication-Results: own.example\r\n"[..],
                _ => b"X: y\r\n",
            });
        }
        let mut right = vec![0; fields];
        assert_eq!(library::mark(&block, OWN, &mut right).written, fields);
        let mut out = vec![0; block.len()];
        let done = library::copy(&block, OWN, &right, &mut out);
        assert_eq!(done.number, 0);
        for place in 0..fields {
            let mut marks = right.clone();
            for byte in (0..=255).filter(|&byte| byte != right[place]) {
                marks[place] = byte;
                let answer = library::copy(&block, OWN, &marks, &mut out);
                assert_eq!(answer, reference::copy(&block, OWN, &marks, &mut []));
                assert_eq!(answer.number, 13, "{fields} fields, {byte} at {place}");
                inputs += 1;
            }
        }
    }
    tell(&format!("marks: {inputs} inputs\n"));
}

/// Fields that go and stay side by side, up to more than small rooms hold.
#[test]
fn many_fields_that_go() {
    for gone in (0..40).chain([63, 64, 65, 66, 70]) {
        for kept in 0..4 {
            let mut block = Vec::new();
            for index in 0..gone {
                block.extend(b"Authentication-Results: Own.Example; none\r\n");
                for _ in 0..(index + kept) % 3 {
                    block.extend(format!("X-{index}: kept\r\n\there\r\n").bytes());
                }
            }
            let whole = block.len();
            for room in [whole, whole / 2, 0] {
                let mut outs = [vec![0x5a; room], vec![0x5a; room]];
                let [ours, theirs] = &mut outs;
                let answer = library::strip(&block, OWN, ours);
                assert_eq!(
                    answer,
                    reference::strip(&block, OWN, theirs),
                    "{gone} {kept} {room}"
                );
                assert_eq!(ours, theirs, "{gone} {kept} {room}");
            }
        }
    }
}
