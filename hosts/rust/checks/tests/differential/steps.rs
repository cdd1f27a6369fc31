//! Both steps of stripping: the marks, and the copy, handed the right marks and marks that are
//! damaged in every way.

use super::*;

/// What may be handed to the second step: the right marks first, then others.
fn handed(block: &[u8], list: &[u8], right: &[u8]) -> Vec<(&'static str, Vec<u8>)> {
    let mut all = vec![("right", right.to_vec())];
    let mut with = |what, marks: Vec<u8>| all.push((what, marks));
    with("none", Vec::new());
    with("one more", [right, &[0]].concat());
    with("one more that goes", [right, &[1]].concat());
    with("one more in front", [&[0], right].concat());
    if let Some((last, front)) = right.split_last() {
        with("one fewer", front.to_vec());
        with("one fewer in front", right[1..].to_vec());
        for at in [0, right.len() / 2, right.len() - 1] {
            for byte in [1 - right[at], 2, b'0', b'1', 255] {
                let mut marks = right.to_vec();
                marks[at] = byte;
                with("one byte", marks);
            }
        }
        with("the last not marked", [front, &[1 - last]].concat());
    }
    with("swapped", right.iter().map(|mark| 1 - mark).collect());
    with("all go", vec![1; right.len()]);
    with("all stay", vec![0; right.len()]);
    with("in digits", right.iter().map(|mark| b'0' + mark).collect());
    with("too many", vec![0; 513]);
    // of another list, and of the block before a field was added
    for other in [&b""[..], b"example.com\n", b"a\n"] {
        with("of another list", marks_of(block, other));
    }
    let added = [b"Authentication-Results: a\r\n", block].concat();
    with("of the block with a field more", marks_of(&added, list));
    if let Some(first) = orbendash::fields(block).flatten().next() {
        let less = &block[first.bytes.len()..];
        with("of the block with a field less", marks_of(less, list));
    }
    all
}

fn marks_of(block: &[u8], list: &[u8]) -> Vec<u8> {
    let mut marks = vec![0; orbendash::limit::FIELDS];
    let answer = reference::mark(block, list, &mut marks);
    marks.truncate(answer.written);
    marks
}

fn check_steps(block: &[u8], list: &[u8]) -> Result<Vec<String>, String> {
    let mut seen = Vec::new();
    let right = marks_of(block, list);
    for room in rooms(right.len(), orbendash::limit::FIELDS) {
        let ours = lend(room, |out| library::mark(block, list, out));
        let theirs = lend(room, |out| reference::mark(block, list, out));
        compare(room, |answer| answer.written, &ours, &theirs)?;
        seen.push(format!("mark, number {:>2}", ours.0.number));
    }
    let whole = reference::strip(block, list, &mut vec![0; block.len()]);
    for (what, marks) in handed(block, list, &right) {
        // Refused marks are tried without room, since 13 comes before 6, and with enough.
        for room in rooms(whole.kept, block.len()) {
            let ours = lend(room, |out| library::copy(block, list, &marks, out));
            let theirs = lend(room, |out| reference::copy(block, list, &marks, out));
            compare(room, |answer| answer.kept, &ours, &theirs)
                .map_err(|message| format!("marks {what}: {}\n {message}", shown(&marks)))?;
            if whole.number == 0 && (ours.0.number == 13) != (marks != right) {
                return Err(format!("marks {what}: {:?}", ours.0));
            }
            seen.push(format!("copy, number {:>2}, marks {what}", ours.0.number));
        }
    }
    Ok(seen)
}

fn run_steps(tally: &mut Tally, block: &[u8], list: &[u8]) {
    tally.inputs += 1;
    match check_steps(block, list) {
        Ok(seen) => seen.into_iter().for_each(|answer| tally.count(answer)),
        Err(_) => disagree(tally, block, &format!("\n list {}", shown(list)), |block| {
            check_steps(block, list).map(drop)
        }),
    }
}

#[test]
fn steps() {
    let mut tally = Tally::new("steps");
    for block in edges::blocks() {
        for list in [&b""[..], b"example.com\na\n", b"A\n\n"] {
            run_steps(&mut tally, &block, list);
        }
    }
    // As many fields as small rooms hold and one more, as a block may have and one more.
    for fields in [1, 2, 63, 64, 65, 66, 511, 512, 513] {
        for every in [1, 2, 7, 600] {
            let mut block = Vec::new();
            for field in 0..fields {
                block.extend(match field % every {
                    0 => &b"Authentication-Results: a\r\n"[..],
                    _ => b"A: b\r\n c\r\n",
                });
            }
            run_steps(&mut tally, &block, b"a\n");
            run_steps(&mut tally, &block, b"b\n");
        }
    }
    tally.generated = true;
    let mut rng = tally.rng();
    for _ in 0..tally.cases() / 20 {
        let (block, _) = any_block(&mut rng, false);
        let mut list = list(&mut rng);
        if rng.chance(3) {
            list = damaged(&mut rng, &list, &block);
        }
        run_steps(&mut tally, &block, &list);
    }
    let mut wanted: Vec<String> = [0, 1, 2, 3, 4, 5, 6]
        .iter()
        .map(|number| format!("mark, number {number:>2}"))
        .collect();
    for number in [0, 1, 2, 3, 4, 5, 6] {
        wanted.push(format!("copy, number {number:>2}, marks right"));
    }
    for what in [
        "none",
        "one more",
        "one more in front",
        "one fewer",
        "one fewer in front",
        "one byte",
        "the last not marked",
        "swapped",
        "all go",
        "all stay",
        "in digits",
        "too many",
        "of another list",
        "of the block with a field more",
        "of the block with a field less",
    ] {
        wanted.push(format!("copy, number 13, marks {what}"));
    }
    tally.finish(&wanted);
}
