//! The places of a message, by its top-level elements: where a strict collection may be cut
//! (document 02, Req 04).

/// What stands at a place, where a piece may end or may not.
#[derive(Clone, Copy, Debug, PartialEq, Eq)]
pub enum Place {
    /// A whole element starts.
    Start,
    /// The first head that itself gives this refusal, 6 to 8.
    Faulty(u8),
    /// Something behind that head.
    Behind(u8),
    /// The message's end, behind that head if there is one.
    End(Option<u8>),
    /// Something inside an element.
    Inside,
}

/// The top row of a message, up to the first head that itself gives 6, 7 or 8.
pub struct TopRow {
    /// Where whole elements start.
    starts: Vec<usize>,
    /// Where the faulty head stands, and what it gives.
    pub faulty: Option<(usize, u8)>,
    /// The message's end.
    pub end: usize,
}

impl TopRow {
    pub fn of(message: &[u8]) -> TopRow {
        let mut starts = Vec::new();
        let mut rest = message;
        let at = |rest: &[u8]| message.len() - rest.len();
        let faulty = loop {
            rest = match rest {
                [] => break None,
                [_] => break Some((at(rest), 6)),
                [_, 255, ..] => break Some((at(rest), 7)),
                [_, length, values @ ..] => match values.get(usize::from(*length)..) {
                    None => break Some((at(rest), 8)),
                    Some(next) => {
                        starts.push(at(rest));
                        next
                    }
                },
            };
        };
        TopRow {
            starts,
            faulty,
            end: message.len(),
        }
    }

    pub fn place(&self, at: usize) -> Place {
        let behind = self.faulty.filter(|&(fault, _)| fault < at);
        let behind = behind.map(|(_, number)| number);
        if at >= self.end {
            return Place::End(behind);
        }
        match (behind, self.faulty) {
            (Some(number), _) => Place::Behind(number),
            (None, Some((fault, number))) if fault == at => Place::Faulty(number),
            _ if self.starts.binary_search(&at).is_ok() => Place::Start,
            _ => Place::Inside,
        }
    }

    /// Whether a piece may end at the place.
    pub fn is_good(&self, at: usize) -> bool {
        self.place(at) != Place::Inside
    }

    /// The last place up to this one where a piece may end.
    pub fn last_good(&self, at: usize) -> usize {
        let at = at.min(self.end);
        (0..=at).rev().find(|&at| self.is_good(at)).unwrap_or(0)
    }

    /// Where elements start, the faulty one too.
    pub fn heads(&self) -> Vec<usize> {
        let faulty = self.faulty.map(|(at, _)| at);
        self.starts.iter().copied().chain(faulty).collect()
    }
}
