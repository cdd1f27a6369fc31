//! What a gateway does with a message's header: logs what is to be removed, strips it, shows what is
//! left, judges its chain.
//!
//!     cargo run --example gateway -- BLOCK IDENTIFIER...
//!
//! BLOCK is a file with a header block: lines ended by CRLF, without the empty line after it. The
//! identifiers are our own.

use std::env;
use std::error::Error;
use std::fs;

use orbendash::{copy, fields, judge, mark, report, List, Verdict};

fn main() -> Result<(), Box<dyn Error>> {
    let mut words = env::args().skip(1);
    let block = fs::read(words.next().ok_or("a block is missing")?)?;
    let own = List::of(words)?;

    // The fields that go are logged while they are there. They are a stranger's: no control byte may
    // reach the terminal.
    let marks = mark(&block, &own)?;
    for (number, field) in fields(&block).enumerate() {
        if marks.goes(number) {
            let bytes = field?.bytes;
            let first = &bytes[..bytes.len().min(60)];
            println!("removing field {}: {}", number + 1, first.escape_ascii());
        }
    }
    let stripped = copy(&block, &own, marks.as_bytes())?;
    println!("{} fields removed", stripped.fields);
    let mut seals = 0;
    for field in fields(&stripped.block) {
        let field = field?;
        seals += usize::from(field.is_named("ARC-Seal"));
        if field.is_named("Authentication-Results") {
            match report(field.body) {
                Ok(report) => print!("{report}"),
                Err(refusal) => println!("not shown: {refusal}"),
            }
        }
    }
    let judged = judge(&stripped.block, &vec![Verdict::new(true, true); seals])?;
    println!("{judged:?}");
    Ok(())
}
