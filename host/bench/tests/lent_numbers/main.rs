//! The C interface beside the other program, on lent numbers that no text of the bench protocol can give.
//!
//!   plain      tables of the other program as numbers     disguise   with anything in all that has no meaning
//!   tables     choosing and judging by such tables        listings   their listings
//!   tunnels    prepared tunnels given outright            events     modem records and events by number
//!   pieces     collection records, and receiving
//!
//! What a number means is taken from documents 01 and 02 and from the words of `include/dsg.h`, and where they are
//! silent from docs/DECISIONS.md (D-003, D-004, D-008, D-018, D-019, D-023), never from an answer of the
//! library. Each scenario has a seed of its own, which a failure prints with the input.

#![forbid(unsafe_code)]

mod disguise;
mod events;
mod listings;
mod pieces;
mod plain;
mod tables;
mod tunnels;

use requests::random::Random;

/// How many cases each test makes at least.
const CASES: usize = 20_000;

/// Runs scenarios until they have made enough cases; each says how many it made.
fn from_seeds(mut scenario: impl FnMut(u64, &mut Random) -> usize) {
    let (mut seed, mut cases) = (0, 0);
    while cases < CASES {
        seed += 1;
        cases += scenario(seed, &mut Random::new(seed));
    }
}
