//! Document 01 and its tickets a second time, to compare the library with.
//!
//! [`mod@reference`] implements the rules by itself and has nothing to do with the library; the
//! tests compare the two on stored samples and on generated inputs, and the benchmark measures one
//! against the other. Nobody who uses the library builds this package.

pub mod reference;
