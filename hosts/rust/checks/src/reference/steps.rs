//! Stripping in two steps (document 02, ticket [7]), by hand.

use orbendash::raw::{number, MarkAnswer, StripAnswer};

use super::{own_list, strip, Cursor, Walk, MAX_BYTES};

/// A byte for each field in order, 1 if it goes, else 0; or the number and place of the refusal.
fn marks(block: &[u8], list: &[u8]) -> Result<Vec<u8>, (u8, usize)> {
    if block.len() > MAX_BYTES {
        return Err((number::TOO_LONG, 0));
    }
    let own = own_list(list).map_err(|place| (number::BAD_LIST, place))?;
    Walk::new(block)
        .map(|field| {
            let field = field.map_err(|stop| (stop.number, stop.place))?;
            let ours = field
                .name(block)
                .eq_ignore_ascii_case(b"Authentication-Results");
            let goes = ours
                && Cursor::new(field.body(block))
                    .identifier()
                    .is_none_or(|id| own.has(&id.text()));
            Ok(u8::from(goes))
        })
        .collect()
}

/// The first step: "one call writes a byte for each field in order".
pub fn mark(block: &[u8], list: &[u8], out: &mut [u8]) -> MarkAnswer {
    let refuse = |number, place| MarkAnswer {
        number,
        place,
        written: 0,
    };
    let marks = match marks(block, list) {
        Ok(marks) => marks,
        Err((number, place)) => return refuse(number, place),
    };
    match out.get_mut(..marks.len()) {
        Some(front) => {
            front.copy_from_slice(&marks);
            MarkAnswer {
                number: number::DONE,
                place: 0,
                written: marks.len(),
            }
        }
        None => refuse(number::NO_ROOM, marks.len()),
    }
}

/// The second: "the other copies the rest, given that answer. [..] if it isn't exactly the one that
/// the first call gives for this block and list, it refuses with number 13, tried just before 6".
pub fn copy(block: &[u8], list: &[u8], handed: &[u8], out: &mut [u8]) -> StripAnswer {
    match marks(block, list) {
        Ok(marks) if marks != handed => StripAnswer {
            number: number::OTHER_MARKS,
            ..StripAnswer::default()
        },
        _ => strip(block, list, out),
    }
}
