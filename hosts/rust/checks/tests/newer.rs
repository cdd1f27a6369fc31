//! An old reader never misreads a newer writer: both halves of the third demand, as properties
//! of the linked library.
//!
//! `ORBENDASH_SEED` sets the seed, `ORBENDASH_NEWER_CASES` how many cases each half tries.

mod common;

use common::{
    before_version, body, damaged, other_number, result, setting, shown, tell, Body, Rng,
    DEFAULT_SEED, LIMIT,
};
use orbendash::raw::{report, ReportAnswer};

const DEFAULT_CASES: u64 = 10_000;

fn cases() -> u64 {
    setting("ORBENDASH_NEWER_CASES", DEFAULT_CASES)
}

fn rng(stream: u64) -> Rng {
    Rng::new(setting("ORBENDASH_SEED", DEFAULT_SEED), stream)
}

/// Runs a report in a room of this size, filled with a pattern before.
fn run(body: &[u8], room: usize) -> (ReportAnswer, Vec<u8>) {
    let mut out: Vec<u8> = (0..room).map(|index| index as u8 ^ 0x5a).collect();
    let answer = report(body, &mut out);
    (answer, out)
}

/// The bytes that a body's report needs.
fn need(body: &[u8]) -> usize {
    let answer = report(body, &mut []);
    if answer.number == 6 {
        answer.place
    } else {
        0
    }
}

/// Both bodies must get the same number, place and bytes in every room, and ignored counts that
/// are `more` apart where they are done.
fn same(before: &[u8], after: &[u8], more: usize) {
    let need = need(before);
    for room in [
        0,
        1,
        need / 2,
        need.saturating_sub(1),
        need,
        need + 1,
        need + 50,
    ] {
        let (old, old_out) = run(before, room);
        let (new, new_out) = run(after, room);
        let more = if old.number == 0 { more } else { 0 };
        let expected = ReportAnswer {
            ignored: old.ignored + more,
            ..old
        };
        assert!(
            new == expected && new_out == old_out,
            "room {room}\n {}\n gives {old:?}\n {}\n {}\n gives {new:?}\n {}",
            shown(before),
            shown(&old_out),
            shown(after),
            shown(&new_out)
        );
    }
}

/// What may follow a header version: the end, or one of the five bytes and then anything.
fn after_version(rng: &mut Rng) -> Vec<u8> {
    if rng.chance(10) {
        return Vec::new();
    }
    let results = rng.below(3);
    let mut rest = vec![rng.pick(b" \t\r(;")];
    rest.extend(body(rng, results, true).bytes());
    if rng.chance(70) {
        let other = rest.clone();
        let changed = damaged(rng, &rest[1..], &other);
        rest.truncate(1);
        rest.extend(changed);
    }
    rest
}

/// First half: two fields that name the same header version other than 1 and agree up to the end
/// of the number have the same answer and report.
#[test]
fn header_versions() {
    let mut rng = rng(3);
    for case in 0..cases() {
        let mut lead = before_version(&mut rng);
        other_number(&mut rng, &mut lead);
        // The lead alone names the version, so its answer tells what the others must be.
        let (answer, _) = run(&lead, 3 * lead.len() + 8);
        assert_eq!(answer.number, 8, "{}", shown(&lead));
        assert_eq!((answer.place, answer.ignored), (0, 0), "{}", shown(&lead));
        let mut one = [&lead[..], &after_version(&mut rng)].concat();
        let two = [&lead[..], &after_version(&mut rng)].concat();
        if case % 100 == 0 && one.len() > lead.len() {
            one.resize(LIMIT, rng.pick(b"x;\x00("));
        }
        same(&lead, &one, 0);
        same(&one, &two, 0);
    }
    tell(&format!("newer header versions: {} pairs agree\n", cases()));
}

/// The body with a result put in at one of the four places around result `index`.
fn with(body: &Body, index: usize, place: usize, newer: &[u8]) -> Vec<u8> {
    let mut bytes = body.lead.clone();
    for (number, (space, result)) in body.results.iter().enumerate() {
        let here = number == index;
        let after_last = number == index + 1;
        if here && place == 0 {
            // Before it, on the far side of the space.
            bytes.extend(newer);
        }
        if after_last && place == 2 {
            bytes.extend(newer);
        }
        bytes.extend(space);
        if here && place == 1 {
            // Before it, touching.
            bytes.extend(newer);
        }
        if after_last && place == 3 {
            bytes.extend(newer);
        }
        bytes.extend(result);
    }
    // After the last result: touching, or on the far side of the space at the end.
    let last = index + 1 == body.results.len();
    if last && place == 2 {
        bytes.extend(newer);
    }
    bytes.extend(&body.tail);
    if last && place == 3 {
        bytes.extend(newer);
    }
    bytes
}

/// Second half: a well-formed result with a method version other than 1, put before or after any
/// result of a well-formed version 1 field, changes neither answer nor report. It is counted.
#[test]
fn method_versions() {
    let mut rng = rng(4);
    let mut pairs = 0;
    for case in 0..cases() {
        let results = rng.between(1, 4);
        let body = body(&mut rng, results, false);
        let bytes = body.bytes();
        let answer = run(&bytes, 3 * bytes.len() + 8).0;
        assert_eq!(answer.number, 0, "{}", shown(&bytes));
        let mut newer = Vec::new();
        result(&mut rng, true, &mut newer);
        if case % 100 == 0 {
            // As long as the body may get by it.
            newer.extend(b" smtp.x=");
            newer.resize(LIMIT - bytes.len(), b'y');
        }
        // By itself it leaves nothing but its count.
        let (answer, out) = run(&[b"a", &newer[..]].concat(), 8);
        let seen = (answer.number, answer.written, answer.ignored);
        assert_eq!(seen, (0, 5, 1), "{}", shown(&newer));
        assert_eq!(&out[..5], b"id\ta\n");
        for index in 0..body.results.len() {
            for place in 0..4 {
                same(&bytes, &with(&body, index, place, &newer), 1);
                pairs += 1;
            }
        }
    }
    tell(&format!("newer method versions: {pairs} pairs agree\n"));
}

/// The slip that document 01 names: `dkim/2=pass` must not read as dkim pass.
#[test]
fn dkim_2_is_not_dkim() {
    same(b"a; spf=pass", b"a; spf=pass; dkim/2=pass", 1);
    same(b"a; spf=pass", b"a; dkim/2=pass; spf=pass", 1);
    same(b"a ; spf=pass ", b"a;dkim/02=pass ; spf=pass ", 1);
    same(b"a ; spf=pass ", b"a ; spf=pass ;dkim/0=pass", 1);
    same(b"a 2", b"a 2; dkim=pass", 0);
    same(b"a 2(", b"a 2\r", 0);
}
