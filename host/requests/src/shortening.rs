//! Shortens requests that show a difference: drops those before the last that are not needed, then
//! parts of those that are left. The effort is bounded, so the result need not be the shortest.

use reference::protocol::request::Request;
use reference::table::Table;

const TRIALS_MAX: usize = 500;

/// Requests, from the given ones, for which `differs` still holds.
pub fn shorten(requests: Vec<Request>, differs: impl FnMut(&[Request]) -> bool) -> Vec<Request> {
    let mut trials = Trials {
        differs,
        left: TRIALS_MAX,
    };
    let tail = shortest_tail(&requests, &mut trials);
    let mut requests = drop_parts(tail, |fewer| trials.differs(fewer));
    for at in 0..requests.len() {
        if trials.left == 0 {
            break;
        }
        requests[at] = simplify(&requests[at], |simpler| {
            let mut trial = requests.clone();
            trial[at] = simpler;
            trials.differs(&trial)
        });
    }
    requests
}

/// The test, and how often it may still be made.
struct Trials<D> {
    differs: D,
    left: usize,
}

impl<D: FnMut(&[Request]) -> bool> Trials<D> {
    /// Whether these requests show the difference; `None` when no trial is left.
    fn differs(&mut self, requests: &[Request]) -> Option<bool> {
        self.left = self.left.checked_sub(1)?;
        Some((self.differs)(requests))
    }
}

/// The last requests that show the difference by themselves: one, two, four and so on.
fn shortest_tail<'r, D: FnMut(&[Request]) -> bool>(
    requests: &'r [Request],
    trials: &mut Trials<D>,
) -> &'r [Request] {
    let mut length = 1;
    while length < requests.len() {
        let tail = &requests[requests.len() - length..];
        if trials.differs(tail) == Some(true) {
            return tail;
        }
        length *= 2;
    }
    requests
}

/// Drops runs of items, long ones first, as long as `still` says that it holds without them.
fn drop_parts<T: Clone>(items: &[T], mut still: impl FnMut(&[T]) -> Option<bool>) -> Vec<T> {
    let mut items = items.to_vec();
    let mut length = items.len().div_ceil(2);
    while length > 0 {
        let mut at = 0;
        while at + length <= items.len() {
            let fewer = [&items[..at], &items[at + length..]].concat();
            match still(&fewer) {
                Some(true) => items = fewer,
                Some(false) => at += length,
                None => return items,
            }
        }
        length /= 2;
    }
    items
}

/// A request with fewer bytes or a smaller table.
fn simplify(request: &Request, mut still: impl FnMut(Request) -> Option<bool>) -> Request {
    let mut fewer = |bytes: &[u8], make: &dyn Fn(Vec<u8>) -> Request| {
        make(drop_parts(bytes, |bytes| still(make(bytes.to_vec()))))
    };
    match request {
        Request::Piece(body) => fewer(body, &Request::Piece),
        Request::Recv(body) => fewer(body, &Request::Recv),
        Request::Read(message) => fewer(message, &Request::Read),
        Request::TRead(message) => fewer(message, &Request::TRead),
        Request::List(body) => fewer(body, &Request::List),
        Request::Judge(client, ucid, frame) => {
            fewer(frame, &|frame| Request::Judge(*client, *ucid, frame))
        }
        Request::TSet(table) => Request::TSet(smaller_table(table, still)),
        other => other.clone(),
    }
}

fn smaller_table(given: &Table, mut still: impl FnMut(Request) -> Option<bool>) -> Table {
    let mut table = given.clone();
    table.rules = drop_parts(&given.rules, |rules| {
        let rules = rules.to_vec();
        still(Request::TSet(Table {
            rules,
            ..table.clone()
        }))
    });
    table.classifiers = drop_parts(&given.classifiers, |classifiers| {
        let classifiers = classifiers.to_vec();
        still(Request::TSet(Table {
            classifiers,
            ..table.clone()
        }))
    });
    table.channels = drop_parts(&given.channels, |channels| {
        let channels = channels.to_vec();
        still(Request::TSet(Table {
            channels,
            ..table.clone()
        }))
    });
    table
}
