//! The limits of the library, as `hosts/c/orbendash.h` names them. There is none on the results in
//! a field.

/// The most bytes of a block or a body.
pub const BYTES: usize = 65_536;
/// The most fields of a block.
pub const FIELDS: usize = 512;
/// The most entries of the own list.
pub const ENTRIES: usize = 64;
/// The most bytes of one, without its LF.
pub const ENTRY_BYTES: usize = 255;
/// How deep comments may be nested.
pub const COMMENTS: usize = 16;
/// The highest instance of an ARC chain.
pub const INSTANCES: usize = 50;

/// A room that the report of a body of so many bytes always fits.
#[must_use]
pub const fn report_room(body_length: usize) -> usize {
    3 * body_length + 4
}
