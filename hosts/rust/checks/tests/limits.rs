//! The limits stand in three places for three languages: the library's crates, the C header and
//! `limit`. These tests tie them together.

use orbendash::limit;
use orbendash::raw::{copy, mark, number, report, strip};

/// The number that the C header gives a name.
fn named(name: &str) -> usize {
    let header = include_str!("../../../c/orbendash.h");
    let value = header
        .lines()
        .find_map(|line| line.strip_prefix(&format!("#define {name} ")))
        .unwrap_or_else(|| panic!("{name} isn't in the header"));
    value.split_whitespace().next().unwrap().parse().unwrap()
}

#[test]
fn the_header_has_the_same_limits() {
    assert_eq!(named("ORBENDASH_BYTES"), limit::BYTES);
    assert_eq!(named("ORBENDASH_FIELDS"), limit::FIELDS);
    assert_eq!(named("ORBENDASH_ENTRIES"), limit::ENTRIES);
    assert_eq!(named("ORBENDASH_ENTRY_BYTES"), limit::ENTRY_BYTES);
    assert_eq!(named("ORBENDASH_COMMENTS"), limit::COMMENTS);
    assert_eq!(named("ORBENDASH_INSTANCES"), limit::INSTANCES);
}

#[test]
fn the_library_has_the_same_limits() {
    let stripped = |block: &[u8], list: &[u8]| {
        let answer = strip(block, list, &mut vec![0; block.len()]);
        (answer.number, answer.place)
    };
    let line = |length: usize| {
        let mut line = b"X:".to_vec();
        line.resize(length - 2, b'y');
        line.extend_from_slice(b"\r\n");
        line
    };
    assert_eq!(stripped(&line(limit::BYTES), b"").0, number::DONE);
    assert_eq!(stripped(&line(limit::BYTES + 1), b"").0, 1);
    assert_eq!(stripped(&line(8).repeat(limit::FIELDS), b"").0, 0);
    let fields = line(8).repeat(limit::FIELDS + 1);
    assert_eq!(stripped(&fields, b""), (4, 8 * limit::FIELDS));
    let entry = |length: usize| {
        let mut entry = vec![b'a'; length];
        entry.push(b'\n');
        entry
    };
    assert_eq!(stripped(b"", &entry(limit::ENTRY_BYTES)), (0, 0));
    assert_eq!(stripped(b"", &entry(limit::ENTRY_BYTES + 1)), (5, 0));
    assert_eq!(stripped(b"", &entry(1).repeat(limit::ENTRIES)), (0, 0));
    let entries = entry(1).repeat(limit::ENTRIES + 1);
    assert_eq!(stripped(b"", &entries), (5, 2 * limit::ENTRIES));
}

#[test]
fn all_marks_fit_their_room() {
    let block = b"Authentication-Results:\r\n".repeat(limit::FIELDS);
    let mut marks = [0; limit::FIELDS];
    let answer = mark(&block, b"", &mut marks);
    assert_eq!((answer.number, answer.written), (0, limit::FIELDS));
    assert_eq!(marks, [1; limit::FIELDS]);
    let short = mark(&block, b"", &mut marks[1..]);
    assert_eq!((short.number, short.place), (6, limit::FIELDS));
    // What is copied fits into as many bytes as the block has.
    let (block, marks) = (b"A:\r\n".repeat(limit::FIELDS), [0; limit::FIELDS + 1]);
    let mut out = vec![0; block.len()];
    let copied = copy(&block, b"", &marks[1..], &mut out);
    assert_eq!((copied.number, copied.kept), (0, block.len()));
    let short = copy(&block, b"", &marks[1..], &mut out[1..]);
    assert_eq!((short.number, short.place), (6, block.len()));
    assert_eq!(
        copy(&block, b"", &marks, &mut out).number,
        number::OTHER_MARKS
    );
}

#[test]
fn every_report_fits_its_room() {
    for body in [&b""[..], b"a;none", b"\"\xff\";none", b"a 2", b"\"\xff\" 2"] {
        let room = limit::report_room(body.len());
        assert_ne!(report(body, &mut vec![0; room]).number, 6, "{body:?}");
    }
}
