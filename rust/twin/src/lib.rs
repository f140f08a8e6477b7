//! The rules of document 01, and what has been built of document 02, in plain safe Rust, written
//! from the papers alone.
//!
//! It shares no code with the proved archive: tests compare the two byte for
//! byte, and the benchmark takes this crate as its yardstick.

#![forbid(unsafe_code)]
#![warn(missing_docs)]

pub mod calls;
pub mod checks;
pub mod envelope;
pub mod error_file;
pub mod fields;
pub mod forms;
pub mod ledger;
pub mod refusal;
pub mod tables;

pub use calls::{book_file, book_judged, book_record, judge_record};
pub use error_file::error_file;
pub use fields::field;
pub use forms::isin_sum;
pub use refusal::Refusal;
