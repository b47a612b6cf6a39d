//! Both sides of every limit of document 01, and of cuts (document 02, Req 04).

#[path = "../support/mod.rs"]
mod support;

mod bodies;
mod cuts;
mod frames;
mod messages;
mod modem;
