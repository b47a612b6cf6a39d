//! Frames that miss: the classifiers of a rule are asked, and none matches. They miss on the port, on
//! an address or on both, a third of them each.

use crate::headers::{change_byte, frame_for, port_between, put_port};
use crate::headers::{set_fragment_offset, set_protocol};
use crate::packets::{addresses_fit, has_header, header_end, names_port, port_fits};
use crate::packets::{range_of, source_test, DESTINATION, SOURCE};
use crate::random::Random;
use reference::choosing::FRAME_MAX;
use reference::table::Classifier;

/// What a frame misses on.
#[derive(Clone, Copy, Debug, PartialEq, Eq)]
pub enum Miss {
    Port,
    Address,
    Both,
}

impl Miss {
    pub const ALL: [Miss; 3] = [Miss::Port, Miss::Address, Miss::Both];
}

/// What a frame misses on, by the classifier that it comes nearest to: on the port, if the addresses
/// fit one. `None` if a classifier matches, or none is asked.
pub fn miss_of(frame: &[u8], asked: &[&Classifier]) -> Option<Miss> {
    let asked = asked.iter().filter(|_| has_header(frame));
    let passed = asked.map(|c| (addresses_fit(c, frame), port_fits(c, frame)));
    match passed.max()? {
        (true, true) => None,
        (true, false) => Some(Miss::Port),
        (false, true) => Some(Miss::Address),
        (false, false) => Some(Miss::Both),
    }
}

/// What a frame should miss on and, if that is the port, how.
struct Aim {
    miss: Miss,
    port: PortMiss,
}

#[derive(Clone, Copy)]
enum PortMiss {
    Outside,
    Protocol,
    Fragment,
    /// The frame ends before the port does.
    Short,
}

impl Aim {
    /// Any aim. Not every rule allows each miss: with a classifier that names no port no frame misses
    /// on both, and an empty range is always missed on the port. The shares make up for that, so that
    /// a third of all misses is of each kind.
    fn any(random: &mut Random) -> Aim {
        let miss = match random.below(100) {
            0..22 => Miss::Port,
            22..51 => Miss::Address,
            _ => Miss::Both,
        };
        let port = match random.below(8) {
            0 => PortMiss::Protocol,
            1 => PortMiss::Fragment,
            2 => PortMiss::Short,
            _ => PortMiss::Outside,
        };
        Aim { miss, port }
    }

    /// Whether a frame is made for the classifier. An empty range is missed on the port without aim.
    fn takes(&self, classifier: &Classifier) -> bool {
        self.miss != Miss::Port || !range_of(classifier).is_empty()
    }
}

/// How often a miss is tried before the frame stays as it is.
const TRIES: usize = 8;

/// The frame itself or, if it misses, one for that tunnel that misses on what is aimed at. Half of the
/// frames that do so already stay, with all that disturbed them.
pub fn levelled(
    random: &mut Random,
    frame: Vec<u8>,
    tunnel: [u8; 6],
    asked: &[&Classifier],
) -> Vec<u8> {
    let judged = frame.starts_with(&tunnel) && frame.len() <= FRAME_MAX;
    let Some(missed) = miss_of(&frame, asked).filter(|_| judged) else {
        return frame;
    };
    let aim = Aim::any(random);
    let stays = aim.miss == missed && random.once_in(2);
    let mut takers = asked.to_vec();
    takers.retain(|c| aim.takes(c) && !stays);
    let tries = if takers.is_empty() { 0 } else { TRIES };
    for _ in 0..tries {
        let classifier = random.pick(&takers);
        let made = frame_missing(random, tunnel, classifier, &aim);
        if miss_of(&made, asked) == Some(aim.miss) {
            return made;
        }
    }
    frame
}

/// A frame that would fit the classifier, but misses it.
fn frame_missing(
    random: &mut Random,
    tunnel: [u8; 6],
    classifier: &Classifier,
    aim: &Aim,
) -> Vec<u8> {
    let mut frame = frame_for(random, tunnel, Some(classifier));
    if aim.miss != Miss::Port {
        miss_address(random, &mut frame, classifier);
    }
    if names_port(classifier) {
        let end = header_end(&frame).unwrap_or_default();
        put_port(&mut frame, end, port_between(random, classifier));
        if aim.miss != Miss::Address {
            miss_port(random, &mut frame, end, classifier, aim.port);
        }
    }
    frame
}

/// Changes the source, the destination or both by a bit that the classifier looks at.
fn miss_address(random: &mut Random, frame: &mut [u8], classifier: &Classifier) {
    let [mask, _] = source_test(classifier);
    let [source, destination] = random.pick(&[[true, false], [false, true], [true, true]]);
    if source {
        flip_under(random, frame, SOURCE, mask);
    }
    if destination || mask == [0; 4] {
        flip_under(random, frame, DESTINATION, [255; 4]);
    }
}

/// Flips a bit of an address that the mask has, if it has any.
fn flip_under(random: &mut Random, frame: &mut [u8], at: usize, mask: [u8; 4]) {
    let bits = (0..32).map(|bit| (at + bit / 8, mask[bit / 8] & 1 << (bit % 8)));
    let bits: Vec<(usize, u8)> = bits.filter(|&(_, bit)| bit != 0).collect();
    if !bits.is_empty() {
        let (at, bit) = random.pick(&bits);
        change_byte(frame, at, |byte| byte ^ bit);
    }
}

/// Puts another port behind the header that ends there, or none.
fn miss_port(
    random: &mut Random,
    frame: &mut Vec<u8>,
    end: usize,
    classifier: &Classifier,
    how: PortMiss,
) {
    match how {
        PortMiss::Outside => {
            if let Some(port) = port_outside(random, classifier) {
                put_port(frame, end, port);
            }
        }
        PortMiss::Protocol => set_protocol(random, frame),
        PortMiss::Fragment => set_fragment_offset(random, frame),
        PortMiss::Short => frame.truncate(end + random.pick(&[0, 1, 2, 3, 3])),
    }
}

/// A port outside the classifier's range, mostly just outside, if the range is not empty and leaves
/// any out.
fn port_outside(random: &mut Random, classifier: &Classifier) -> Option<u16> {
    let (start, end) = range_of(classifier).into_inner();
    let mut outside = Vec::new();
    if let Some(below) = start.checked_sub(1) {
        outside.push([below, random.between(0, below.into()) as u16]);
    }
    if let Some(past) = end.checked_add(1) {
        outside.push([past, random.between(past.into(), u16::MAX.into()) as u16]);
    }
    let [just, any] = (start <= end && !outside.is_empty()).then(|| random.pick(&outside))?;
    Some(if random.once_in(8) { any } else { just })
}
