//! What the generator has of writing (document 02, Req 01). Every expectation is worked out by hand from
//! the documents.

mod claims;
mod counted;
mod encoded;
mod tables;
mod unreadable;
