//! The same work as the library's, in plain Rust written for speed: what the measurements compare with.
//!
//! Nothing here is proved, and nothing but the measurements uses it. Each part takes the same lent
//! records and buffers as the library's function beside it, and gives the same answers;
//! `tests/same_work.rs` and `tests/same_writing.rs` hold it to that on the inputs that are measured. The functions that are
//! measured are never inlined, as the library's cannot be.

pub mod collect;
pub mod cuts;
pub mod judge;
pub mod list;
pub mod modem;
pub mod read;
pub mod readable;
pub mod write;
