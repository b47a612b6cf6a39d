//! Where a joined message was cut.

/// The first cut inside an element of a message that pieces of these lengths make up. Nothing is judged behind the first head
/// that is itself faulty.
#[inline(never)]
pub fn first_bad_cut(message: &[u8], lengths: &[u16]) -> Option<usize> {
    let (_, but_last) = lengths.split_last()?;
    let (mut rest, mut left) = (message, message.len());
    for &length in but_last {
        left -= usize::from(length);
        while rest.len() > left {
            let [_, value, values @ ..] = rest else {
                return None;
            };
            if *value == 255 {
                return None;
            }
            rest = values.get(usize::from(*value)..)?;
        }
        if rest.len() != left {
            return Some(message.len() - left);
        }
    }
    None
}
