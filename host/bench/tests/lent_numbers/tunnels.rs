//! Prepared tunnels given outright: any address, mode, count and entries.
//!
//! dsg.h says what the modes are and that a count above 32 is read as 32; what an entry means is the
//! library's. So a verdict by entries is compared with verdicts that must be the same, and where the
//! entries come from dsg_prepare, with the other program's.

use crate::disguise::{disguised, scenario, Question};
use crate::from_seeds;
use crate::plain::number;
use crate::tables::{forward, judged, refused, FILTERED, OTHER};
use dsg::ffi::{self, Judged};
use dsg::records::{Tunnel, TABLE_ROOM};
use requests::random::Random;
use std::array::from_fn;
use std::collections::BTreeSet;
use std::hint::black_box;

/// Where the IP header of a frame ends, by the low half of its first byte; 0 where the frame has none.
fn header_end(frame: &[u8]) -> usize {
    frame
        .get(14)
        .map_or(0, |first| 14 + 4 * usize::from(first & 15))
}

/// A tunnel of any numbers, many of them the frame's own.
fn outright(random: &mut Random, frame: &[u8]) -> Tunnel {
    let part = |from: usize, to: usize| number(frame.get(from..to).unwrap_or_default());
    let (address, source, destination) = (part(0, 6), part(26, 30) as u32, part(30, 34) as u32);
    let port = part(header_end(frame) + 2, header_end(frame) + 4) as u16;
    let (far, any) = (random.between(1, 0xFFFF) as u64, random.word());
    Tunnel {
        address: random.pick(&[address, address, address, address | far << 48, any]),
        mode: random.pick(&[0, 1, 2, 2, 3, 255, any as u8]),
        count: random.pick(&[0, 1, 2, 31, 32, 33, 255, any as u8]),
        destinations: from_fn(|_| random.pick(&[destination, destination, any as u32])),
        sources: from_fn(|_| random.pick(&[0, source, any as u32])),
        masks: from_fn(|_| random.pick(&[0, u32::MAX, any as u32])),
        starts: from_fn(|_| random.pick(&[0, port, port.wrapping_add(1), any as u16])),
        ends: from_fn(|_| random.pick(&[65_535, port, port.wrapping_sub(1), any as u16])),
        numbers: from_fn(|_| random.pair()),
        ports: from_fn(|_| random.pick(&[0, 1, 2, 255])),
    }
}

/// A tunnel that must be judged alike: a count above 32 is 32, unused places hold anything, and any mode
/// over 1 is any other.
fn alike(random: &mut Random, tunnel: &Tunnel, frame: &[u8]) -> Tunnel {
    let lures = outright(random, frame);
    let count = usize::from(tunnel.count).min(TABLE_ROOM);
    let mut alike = Tunnel {
        count: count as u8,
        ..*tunnel
    };
    if alike.mode > 1 {
        alike.mode = random.between(2, 255) as u8;
    }
    for place in count..TABLE_ROOM {
        alike.destinations[place] = lures.destinations[place];
        alike.sources[place] = lures.sources[place];
        alike.masks[place] = lures.masks[place];
        alike.starts[place] = lures.starts[place];
        alike.ends[place] = lures.ends[place];
        alike.numbers[place] = lures.numbers[place];
        alike.ports[place] = lures.ports[place];
    }
    alike
}

/// The verdict as far as documents 01 and 02 and dsg.h say it; none where the entries decide.
fn said(tunnel: &Tunnel, frame: &[u8]) -> Option<Judged> {
    let ip = frame.len() >= 34
        && frame[12..14] == [8, 0]
        && (0x45..=0x4F).contains(&frame[14])
        && header_end(frame) <= frame.len();
    match tunnel.mode {
        _ if !(14..=1_518).contains(&frame.len()) => Some(refused(16)),
        0 => Some(refused(17)),
        _ if number(&frame[..6]) != tunnel.address => Some(OTHER),
        1 => Some(forward(0, frame)),
        _ if tunnel.count == 0 || !ip => Some(FILTERED),
        _ => None,
    }
}

#[test]
fn judges_any_tunnel_within_its_limits() {
    let mut seen = BTreeSet::new();
    from_seeds(|seed, random| {
        let (_, questions) = scenario(random);
        for Question { frame, .. } in &questions {
            let tunnel = outright(random, frame);
            let given = tunnel;
            let case = || format!("seed {seed}: frame {frame:02x?} by {given:?}");
            let verdict = ffi::judge_prepared(&tunnel, frame);
            assert_eq!(*black_box(&tunnel), given, "{}", case());
            let expected = said(&tunnel, frame);
            match expected {
                Some(expected) => assert_eq!(verdict, expected, "{}", case()),
                None => assert!(by_entries(&tunnel, frame, verdict), "{}", case()),
            }
            let alike = alike(random, &tunnel, frame);
            assert_eq!(ffi::judge_prepared(&alike, frame), verdict, "{}", case());
            seen.insert((expected.is_some(), verdict.kind));
        }
        questions.len()
    });
    let said = [0, 1, 2, 3].map(|kind| (true, kind));
    let by_entries = [2, 3].map(|kind| (false, kind));
    assert_eq!(seen, said.into_iter().chain(by_entries).collect());
}

/// Whether a verdict is one that the used entries can give.
fn by_entries(tunnel: &Tunnel, frame: &[u8], verdict: Judged) -> bool {
    let used = tunnel.numbers.iter().take(tunnel.count.into());
    verdict == FILTERED || used.into_iter().any(|&n| verdict == forward(n, frame))
}

#[test]
fn same_as_other_program_with_any_mode_over_1_and_unused_places_filled() {
    from_seeds(|seed, random| {
        let (table, questions) = scenario(random);
        for question in &questions {
            let lent = disguised(random, &table, question);
            let (client, frame) = (lent.client, &question.frame);
            let (kind, value) = (client.kind, client.value);
            let prepared = ffi::prepare(&lent.table, kind, value, lent.known, lent.ucid);
            let tunnel = alike(random, &prepared, frame);
            let case = || format!("seed {seed}: frame {frame:02x?} by {tunnel:?} of {lent:?}");
            let verdict = ffi::judge_prepared(&tunnel, frame);
            assert_eq!(verdict, judged(&table, &lent, question), "{}", case());
        }
        questions.len()
    });
}
