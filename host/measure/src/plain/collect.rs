//! Pieces become a message.

use super::cuts::first_bad_cut;
use dsg::records::Collection;

/// What a body is answered.
#[derive(Clone, Copy, Debug, PartialEq, Eq)]
pub enum Answer {
    Refused(u8),
    Repeat,
    Waiting(usize),
    Complete(usize),
    /// 21, at the first bad cut.
    Dropped(usize),
}

const SLOT: usize = 1500;
const LENT: usize = 24_000;

fn refusal(slots: &[u8], join: &[u8], body: &[u8]) -> u8 {
    if slots.len() < LENT || join.len() < LENT {
        return 1;
    }
    if body.len() < 3 {
        return 2;
    }
    if body.len() > SLOT {
        return 3;
    }
    if body[1] == 0 || body[1] > 16 {
        return 4;
    }
    if body[2] == 0 || body[2] > body[1] {
        return 5;
    }
    0
}

/// Whether calls could have made the record, with something collected.
fn well_made(held: &Collection) -> bool {
    let number = usize::from(held.number);
    number <= 16
        && held
            .filled
            .iter()
            .zip(&held.lengths)
            .enumerate()
            .all(|(k, (&f, &n))| match f {
                0 => n == 0,
                1 => k < number && n <= 1497,
                _ => false,
            })
        && held.filled.contains(&1)
}

/// Nothing but a run's count and number, in that setting.
fn begun(strict: u16, count: u8, number: u8) -> Collection {
    Collection {
        count,
        number,
        filled: [0; 16],
        lengths: [0; 16],
        strict,
    }
}

/// One body: the answer, with the record and both buffers as it leaves them.
#[inline(never)]
pub fn collect(held: &mut Collection, slots: &mut [u8], join: &mut [u8], body: &[u8]) -> Answer {
    let refused = refusal(slots, join, body);
    if refused != 0 {
        return Answer::Refused(refused);
    }
    let (number, k, piece) = (usize::from(body[1]), usize::from(body[2] - 1), &body[3..]);
    let of_this = well_made(held) && held.count == body[0] && held.number == body[1];
    let mut anew = !of_this;
    if of_this && held.filled[k] == 1 {
        if slots[k * SLOT..k * SLOT + usize::from(held.lengths[k])] == *piece {
            return Answer::Repeat;
        }
        anew = true;
    }
    if anew {
        *held = begun(held.strict, body[0], body[1]);
    }
    held.filled[k] = 1;
    held.lengths[k] = piece.len() as u16;
    slots[k * SLOT..k * SLOT + piece.len()].copy_from_slice(piece);
    let empty = held.filled[..number].iter().filter(|&&f| f == 0).count();
    if empty != 0 {
        return Answer::Waiting(empty);
    }
    if number == 1 {
        return Answer::Complete(piece.len());
    }
    let mut at = 0;
    for (k, &n) in held.lengths[..number].iter().enumerate() {
        let n = usize::from(n);
        join[at..at + n].copy_from_slice(&slots[k * SLOT..k * SLOT + n]);
        at += n;
    }
    if held.strict != 0 {
        if let Some(cut) = first_bad_cut(&join[..at], &held.lengths[..number]) {
            *held = begun(held.strict, 0, 0);
            return Answer::Dropped(cut);
        }
    }
    Answer::Complete(at)
}
