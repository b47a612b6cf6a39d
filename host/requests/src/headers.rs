//! Random frames with an IPv4 header: ones that a classifier matches, and changes that it may notice.

use crate::packets::{header_end, names_port, range_of, source_test};
use crate::packets::{DESTINATION, LEAST_END, SOURCE};
use crate::random::Random;
use reference::table::Classifier;

/// A frame with an IPv4 header of 5 to 15 words, two ports behind it and four bytes more or none. In
/// the options there may be another port, where it would stand without them. For a classifier that
/// names no port the frame may end about the header's end.
pub fn frame_for(random: &mut Random, tunnel: [u8; 6], classifier: Option<&Classifier>) -> Vec<u8> {
    let words = words(random);
    let end = 14 + 4 * words;
    let behind = random.pick(&[4, 8, 8, 8]);
    let mut frame = random.bytes(end + behind);
    frame[..6].copy_from_slice(&tunnel);
    frame[12..14].copy_from_slice(&[0x08, 0x00]);
    frame[14] = 0x40 + words as u8;
    frame[20..22].copy_from_slice(&random.pick(&[[0x00, 0x00], [0x40, 0x00], [0x20, 0x00]]));
    frame[23] = random.pick(&[6, 17]);
    let Some(classifier) = classifier else {
        return frame;
    };
    frame[SOURCE..SOURCE + 4].copy_from_slice(&source_for(random, classifier));
    frame[DESTINATION..DESTINATION + 4].copy_from_slice(&classifier.destination);
    if random.once_in(2) {
        put_port(&mut frame, LEAST_END, port_for(random, classifier));
    }
    put_port(&mut frame, end, port_for(random, classifier));
    if !names_port(classifier) && random.once_in(2) {
        end_about_header(random, &mut frame);
    }
    frame
}

/// The words of a header, half the time without options.
fn words(random: &mut Random) -> usize {
    let any = random.between(6, 15);
    random.pick(&[5, 5, 5, 5, 5, 6, 15, any, any, any])
}

/// A source that the classifier's mask maps to its address, if the mask has all bits of that.
fn source_for(random: &mut Random, classifier: &Classifier) -> [u8; 4] {
    let any = (random.word() as u32).to_be_bytes();
    let [mask, wanted] = source_test(classifier);
    std::array::from_fn(|i| wanted[i] | any[i] & !mask[i])
}

/// A port at an end of the classifier's range or between its ends, or just outside.
fn port_for(random: &mut Random, classifier: &Classifier) -> u16 {
    let below = classifier.port_start.and_then(|start| start.checked_sub(1));
    let past = classifier.port_end.and_then(|end| end.checked_add(1));
    let outside: Vec<u16> = below.into_iter().chain(past).collect();
    if !outside.is_empty() && random.once_in(3) {
        return random.pick(&outside);
    }
    port_between(random, classifier)
}

/// A port at an end of the classifier's range or between its ends: inside, if the range is not empty.
pub fn port_between(random: &mut Random, classifier: &Classifier) -> u16 {
    let (start, end) = range_of(classifier).into_inner();
    let between = random.between(start.min(end).into(), start.max(end).into()) as u16;
    random.pick(&[start, end, between])
}

/// Puts a destination port behind a header that ends there.
pub fn put_port(frame: &mut [u8], end: usize, port: u16) {
    frame[end + 2..end + 4].copy_from_slice(&port.to_be_bytes());
}

/// Makes one change that a classifier or the frame's own tests may notice.
pub fn disturb(random: &mut Random, frame: &mut Vec<u8>) {
    match random.below(13) {
        0 => frame.resize(random.pick(&[0, 13, 14, 15, 33, 34, 37, 38, 60]), 0),
        1 => frame.resize(random.pick(&[1_517, 1_518, 1_519, 1_600]), 0),
        2 | 3 => end_about_header(random, frame),
        4 | 5 => change_words(random, frame),
        6 => move_port(random, frame),
        7 => set_protocol(random, frame),
        8 | 9 => set_fragment_offset(random, frame),
        _ => flip_bit(random, frame),
    }
}

/// Ends the frame one byte before its header's end, at it, or three or four bytes behind it.
fn end_about_header(random: &mut Random, frame: &mut Vec<u8>) {
    if let Some(end) = header_end(frame) {
        frame.resize(random.pick(&[end - 1, end, end + 3, end + 4]), 0);
    }
}

/// Changes the length that the header gives, and nothing else.
fn change_words(random: &mut Random, frame: &mut [u8]) {
    let any = random.below(16) as u8;
    let words = random.pick(&[0, 1, 2, 3, 4, 4, 5, 6, 15, any]);
    change_byte(frame, 14, |byte| byte & 0xF0 | words);
}

/// Moves the port behind the header by one.
fn move_port(random: &mut Random, frame: &mut [u8]) {
    let port = header_end(frame).and_then(|end| frame.get_mut(end + 2..end + 4));
    if let Some([high, low]) = port {
        let by = random.pick(&[1, u16::MAX]);
        let moved = u16::from_be_bytes([*high, *low]).wrapping_add(by);
        [*high, *low] = moved.to_be_bytes();
    }
}

/// Gives the frame a protocol without ports.
pub fn set_protocol(random: &mut Random, frame: &mut [u8]) {
    let protocol = random.pick(&[0, 1, 5, 7, 16, 18]);
    change_byte(frame, 23, |_| protocol);
}

/// Makes the frame a later fragment, at an end of the offset's range.
pub fn set_fragment_offset(random: &mut Random, frame: &mut [u8]) {
    let [high, low] = random.pick(&[[0x00, 0x01], [0x20, 0x01], [0x10, 0x00], [0x1F, 0xFF]]);
    change_byte(frame, 20, |_| high);
    change_byte(frame, 21, |_| low);
}

/// Flips a bit of a field that classifiers look at, or of the tunnel address.
fn flip_bit(random: &mut Random, frame: &mut [u8]) {
    let field = random.pick(&[0..6, 12..14, 14..15, 20..22, 23..24, 26..30, 30..34]);
    let at = random.between(field.start, field.end - 1);
    let bit = 1 << random.below(8);
    change_byte(frame, at, |byte| byte ^ bit);
}

/// Changes the byte at a place, if the frame has it.
pub fn change_byte(frame: &mut [u8], at: usize, change: impl Fn(u8) -> u8) {
    if let Some(byte) = frame.get_mut(at) {
        *byte = change(*byte);
    }
}
