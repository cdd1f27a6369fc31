//! Authentication-Results (RFC 8601) and ARC (RFC 8617) header fields for mail gateways.
//!
//! The calls are those of the proved static library `liborbendash.a`, for x86-64 Linux: [`strip`]
//! the fields that speak in our own name, or [`mark`] them, log them and [`copy`] the rest; ask
//! [`whose`] a field is, [`report`] what one says, [`write()`] one of our own, [`judge`] an ARC
//! chain, and walk the [`fields`] of a block. Any bytes may be handed in; no call panics on them,
//! keeps anything, or takes longer than in proportion to them, but for some that docs/SPEED.md
//! names. What can't be done is a [`Refusal`], with its number and place: **never deliver what was
//! refused.**
//!
//! A header block is handed in without the empty line after it, its lines ended by CRLF. Our own
//! identifiers are a [`List`], which is checked once.
//!
//! ```
//! use orbendash::{List, Refusal};
//!
//! /// What a gateway does with the header of a message that comes in.
//! fn arrive(block: &[u8], own: &List) -> Result<Vec<u8>, Refusal> {
//!     let stripped = orbendash::strip(block, own)?;
//!     for field in orbendash::fields(&stripped.block) {
//!         let field = field?;
//!         if field.is_named("Authentication-Results") {
//!             match orbendash::report(field.body) {
//!                 Ok(report) => print!("{report}"),
//!                 Err(refusal) => println!("not shown: {refusal}"),
//!             }
//!         }
//!     }
//!     Ok(stripped.block)
//! }
//!
//! let own = List::of(["example.com"])?;
//! let block = b"Authentication-Results : Example.COM; none\r\nFrom: a@b.example\r\n";
//! assert_eq!(arrive(block, &own)?, b"From: a@b.example\r\n");
//! assert_eq!(arrive(b"From: a@b.example\n", &own), Err(Refusal::BadLineEnd { place: 17 }));
//! # Ok::<(), Refusal>(())
//! ```
//!
//! Each call that writes allocates its output; the ones that end in `_into` write to a lent buffer
//! instead. [`raw`] has the calls as C has them. The library needs up to 132 KiB of stack
//! ([`judge`]; 88 KiB [`copy`] and [`strip`]; 84 KiB [`mark`] and [`whose`]), which a thread of
//! Rust's has unless it is given less.

#![deny(missing_docs)]

#[cfg(not(all(
    target_arch = "x86_64",
    target_os = "linux",
    target_pointer_width = "64"
)))]
compile_error!("liborbendash.a is for x86-64 Linux");

mod chain;
mod fields;
pub mod limit;
mod list;
pub mod raw;
mod refusal;
mod report;
mod strip;
mod write;

pub use chain::{judge, Judgement, Outcome, Reason, Status, Verdict};
pub use fields::{fields, Field, Fields};
pub use list::{whose, List, Whose};
pub use refusal::Refusal;
pub use report::{report, report_into, Line, Lines, Report, Text, ValueKind};
pub use strip::{copy, copy_into, mark, strip, strip_into, Counts, Marks, Stripped};
pub use write::{coded, write, write_into};

/// The version of this package. Where the library that was linked has another one,
/// [`library_version`] says so.
pub const VERSION: &str = env!("CARGO_PKG_VERSION");

/// The version of the library that was linked.
///
/// ```
/// assert_eq!(orbendash::library_version(), orbendash::VERSION);
/// ```
#[must_use]
pub fn library_version() -> String {
    let number = raw::version();
    format!(
        "{}.{}.{}",
        number / 10_000,
        number / 100 % 100,
        number % 100
    )
}
