//! The requests, and what the library answers to each.

use crate::crc::crc32;
use crate::records::{client, collection, collection_text, modem, modem_text, table, table_text};
use crate::words::{byte, bytes, flag, hex, long, number, optional, short};
use crate::writing::write;
use dsg::lent::{self, Part, Piece};
use dsg::{Collection, Event, Modem, Received, Refusal, Refused, Table, Verdict, BUFFER_BYTES};

/// The largest buffer of `new` and `write`.
pub const BUFFER_MOST: u64 = 65_536;

/// What is kept between requests.
pub struct Session {
    held: Collection,
    slots: Vec<u8>,
    join: Vec<u8>,
    table: Table,
    modem: Modem,
}

/// The words of a refusal.
pub fn refused(refusal: Refusal) -> String {
    format!("refused {} {}", refusal.number, refusal.offset)
}

/// A refusal of a message says so; one of a body or of a collection does not.
fn refused_body(what: Refused) -> String {
    match what {
        Refused::Body(refusal) | Refused::Dropped(refusal) => refused(refusal),
        Refused::Message(refusal) => format!("message {}", refused(refusal)),
    }
}

fn verdict_text(verdict: Result<Verdict, Refusal>) -> String {
    match verdict {
        Err(refusal) => refused(refusal),
        Ok(Verdict::Other) => "other".into(),
        Ok(Verdict::Filtered) => "filtered".into(),
        Ok(Verdict::Forward {
            classifier,
            payload,
        }) => {
            format!("forward {classifier} {}", hex(payload))
        }
    }
}

fn event(words: &[&str]) -> Option<Event> {
    Some(match words {
        ["start", permitted] => Event::Start {
            permitted: flag(permitted)? == 1,
        },
        ["locked"] => Event::Locked,
        ["empty"] => Event::ScanEmpty,
        ["table", t1, t2, t3, t4] => {
            Event::TableAccepted([short(t1)?, short(t2)?, short(t3)?, short(t4)?])
        }
        ["packet"] => Event::Packet,
        ["tick"] => Event::Tick,
        ["enable"] => Event::Enable,
        ["disable"] => Event::Disable,
        ["up", ucid] => Event::UpstreamUp(byte(ucid)?),
        ["lost"] => Event::UpstreamLost,
        ["hunt"] => Event::Hunt,
        ["downlost"] => Event::DownstreamLost,
        _ => return None,
    })
}

impl Session {
    /// Nothing collected, loose; the table of the empty message; an idle modem.
    pub fn new() -> Self {
        Session {
            held: Collection::default(),
            slots: vec![0; BUFFER_BYTES],
            join: vec![0; BUFFER_BYTES],
            table: Table::default(),
            modem: Modem::idle(),
        }
    }

    /// The answer to a line, if it gets one.
    pub fn answer(&mut self, line: &[u8]) -> Option<String> {
        if line.first() == Some(&b'#') || line.iter().all(|&b| b == b' ') {
            return None;
        }
        let answer = std::str::from_utf8(line).ok().and_then(|line| {
            let words: Vec<&str> = line.split(' ').collect();
            self.request(words[0], &words[1..])
        });
        Some(answer.unwrap_or_else(|| "bad request".into()))
    }

    fn request(&mut self, request: &str, words: &[&str]) -> Option<String> {
        match (request, words) {
            ("new", [slots, join, fill, strict]) => self.renew(slots, join, fill, strict),
            ("rec", words) => {
                self.held = collection(words, self.held.strict)?;
                Some("ok".into())
            }
            ("piece", [body]) => {
                let body = bytes(body)?;
                let answer = self.piece(&body);
                Some(self.with_collection(answer))
            }
            ("recv", ["j128", body]) => {
                let body = bytes(body)?;
                let answer = self.receive(&body);
                Some(self.with_collection(answer))
            }
            ("read", ["j128", message]) => {
                let mut table = Table::default();
                Some(match table.read(&bytes(message)?) {
                    Ok(()) => table_text(&table),
                    Err(refusal) => refused(refusal),
                })
            }
            ("tset", words) => {
                self.table = table(words)?;
                Some("ok".into())
            }
            ("tread", ["j128", message]) => {
                let read = self.table.read(&bytes(message)?);
                Some(read.map_or_else(refused, |()| "ok".into()))
            }
            ("list", [body]) => {
                let text = dsg::list_body(&bytes(body)?);
                Some(text.trim_end_matches('\n').replace('\n', " / "))
            }
            ("write", words) => write(&self.table, words),
            ("choose", [id, ucid]) => self.choose(id, ucid),
            ("judge", [id, ucid, frame]) => self.judge(id, ucid, frame),
            ("mrec", words) => {
                self.modem = modem(words)?;
                Some("ok".into())
            }
            ("mev", [now, words @ ..]) => self.event(long(now)?, event(words)?),
            _ => None,
        }
    }

    fn renew(&mut self, slots: &str, join: &str, fill: &str, strict: &str) -> Option<String> {
        let (slots, join) = (number(slots, BUFFER_MOST)?, number(join, BUFFER_MOST)?);
        let (fill, strict) = (byte(fill)?, flag(strict)? == 1);
        self.held = Collection::empty(strict);
        self.slots = vec![fill; slots as usize];
        self.join = vec![fill; join as usize];
        Some("ok".into())
    }

    fn piece(&mut self, body: &[u8]) -> String {
        match lent::collect(&mut self.held, &mut self.slots, &mut self.join, body) {
            Err(what) => refused_body(what),
            Ok(Piece::Repeat) => "repeat".into(),
            Ok(Piece::Waiting(empty)) => format!("waiting {empty}"),
            Ok(Piece::Complete(Part::Body(part))) => format!("complete body {}", hex(&body[part])),
            Ok(Piece::Complete(Part::Join(part))) => {
                format!("complete join {}", hex(&self.join[part]))
            }
        }
    }

    /// One body all the way; the lent table is the message's where it is accepted.
    fn receive(&mut self, body: &[u8]) -> String {
        let (held, table) = (&mut self.held, &mut self.table);
        match lent::receive(held, table, &mut self.slots, &mut self.join, body) {
            Err(what) => refused_body(what),
            Ok(Received::Repeat) => "repeat".into(),
            Ok(Received::Waiting(empty)) => format!("waiting {empty}"),
            Ok(Received::Accepted) => format!("accepted {}", table_text(&self.table)),
        }
    }

    /// An answer, and the record and the buffers behind it.
    fn with_collection(&self, answer: String) -> String {
        format!(
            "{answer} | {} | {} {}",
            collection_text(&self.held),
            crc32(&self.slots),
            crc32(&self.join)
        )
    }

    fn choose(&self, id: &str, ucid: &str) -> Option<String> {
        let (id, ucid) = (client(id)?, optional(ucid, byte)?);
        Some(match lent::choose_rule(&self.table, id, ucid) {
            Ok(place) => {
                let rule = &self.table.rules[place];
                format!("rule {} {place} {:012x}", rule.number, rule.tunnel)
            }
            Err(refusal) => refused(refusal),
        })
    }

    /// Judges a frame both ways; a difference between them is an answer that no other program gives.
    fn judge(&self, id: &str, ucid: &str, frame: &str) -> Option<String> {
        let (id, ucid, frame) = (client(id)?, optional(ucid, byte)?, bytes(frame)?);
        let verdict = lent::judge_frame(&self.table, id, ucid, &frame);
        let tunnel = lent::prepare_tunnel(&self.table, id, ucid);
        let prepared = tunnel.judge(&frame);
        if prepared == verdict {
            Some(verdict_text(verdict))
        } else {
            Some(format!(
                "{}, prepared {}",
                verdict_text(verdict),
                verdict_text(prepared)
            ))
        }
    }

    fn event(&mut self, now: u32, event: Event) -> Option<String> {
        let answer = self
            .modem
            .on_event(now, event)
            .map_or_else(refused, |()| "ok".into());
        let on = |b| u8::from(b);
        let (sends, forwards) = (on(self.modem.transmits()), on(self.modem.forwards()));
        Some(format!(
            "{answer} | {} | {sends} {forwards}",
            modem_text(&self.modem)
        ))
    }
}

#[cfg(test)]
mod tests {
    use super::Session;
    use crate::crc::crc32;
    use crate::words::bytes;

    /// Document 01's message M: rules at 0 and 22, the configuration at 44, and 52 bytes in all.
    const M: &str = "32140101050201500404040200\
                     2a050601005e050505321401010602010904040402002a050601005e0606063306010423f10cc0";

    /// The two bodies of M, cut after so many bytes.
    fn bodies(cut: usize) -> [String; 2] {
        let (first, second) = M.split_at(2 * cut);
        [format!("070201{first}"), format!("070202{second}")]
    }

    fn ask(session: &mut Session, request: &str) -> String {
        let answer = session.answer(request.as_bytes());
        answer.expect("every request gets an answer")
    }

    /// What stands behind an answer when both pieces of M, cut after so many bytes, are stored.
    fn buffers(cut: usize) -> String {
        let message = bytes(M).expect("hex");
        let (mut slots, mut join) = (vec![0; 24_000], vec![0; 24_000]);
        slots[..cut].copy_from_slice(&message[..cut]);
        slots[1_500..][..52 - cut].copy_from_slice(&message[cut..]);
        join[..52].copy_from_slice(&message);
        format!("{} {}", crc32(&slots), crc32(&join))
    }

    const EMPTY: &str = "0 0 0000000000000000 0,0,0,0,0,0,0,0,0,0,0,0,0,0,0,0";

    #[test]
    fn new_has_four_words_and_a_setting_of_0_or_1() {
        let mut session = Session::new();
        for words in ["", " 2", " -", " 01", " 0 0", " strict", " "] {
            let request = format!("new 24000 24000 0{words}");
            assert_eq!(ask(&mut session, &request), "bad request", "{request}");
        }
        assert_eq!(ask(&mut session, "new 24000 24000 0 0"), "ok");
        assert_eq!(ask(&mut session, "new 24000 24000 0 1"), "ok");
    }

    #[test]
    fn a_session_begins_loose() {
        let mut session = Session::new();
        let [first, second] = bodies(10);
        let waits = ask(&mut session, &format!("piece {second}"));
        assert!(waits.starts_with("waiting 1 | 7 2 0100000000000000 0,42,0,"));
        let complete = ask(&mut session, &format!("piece {first}"));
        let record = "7 2 1100000000000000 10,42,0,0,0,0,0,0,0,0,0,0,0,0,0,0";
        let expected = format!("complete join {M} | {record} | {}", buffers(10));
        assert_eq!(complete, expected);
    }

    #[test]
    fn piece_and_recv_refuse_21_and_empty_the_record() {
        let joined = format!("complete join {M}");
        let table = "accepted table j128 2 600 300 1800 - ; rule 5 80 01005e050505 - 4:42 - - 0 ; \
                     rule 6 9 01005e060606 - 4:42 - - 1 ; channel 603000000";
        for (word, whole) in [("piece", joined.as_str()), ("recv j128", table)] {
            let mut session = Session::new();
            assert_eq!(ask(&mut session, "tread j128 330403020005"), "ok");
            assert_eq!(ask(&mut session, "new 24000 24000 0 1"), "ok");
            let [first, second] = bodies(10);
            for _ in 0..2 {
                let waits = ask(&mut session, &format!("{word} {second}"));
                assert!(waits.starts_with("waiting 1 | 7 2 0100000000000000 0,42,0,"));
                let dropped = ask(&mut session, &format!("{word} {first}"));
                let expected = format!("refused 21 10 | {EMPTY} | {}", buffers(10));
                assert_eq!(dropped, expected);
            }
            assert_eq!(session.table.timers.tdsg2, 5);
            let [first, second] = bodies(22);
            ask(&mut session, &format!("{word} {second}"));
            let last = ask(&mut session, &format!("{word} {first}"));
            let expected = format!("{whole} | 7 2 1100000000000000 22,30,0,");
            assert!(last.starts_with(&expected), "{last}");
        }
    }

    #[test]
    fn rec_and_a_bad_request_leave_the_setting() {
        let mut session = Session::new();
        let [first, second] = bodies(10);
        for (setting, answer) in [(1, "refused 21 10 | "), (0, "complete join ")] {
            ask(&mut session, &format!("new 24000 24000 0 {setting}"));
            ask(&mut session, &format!("piece {first}"));
            let record = "rec 7 2 1000000000000000 10,0,0,0,0,0,0,0,0,0,0,0,0,0,0,0";
            assert_eq!(ask(&mut session, record), "ok");
            let other = format!("new 24000 24000 0 {} 0", 1 - setting);
            assert_eq!(ask(&mut session, &other), "bad request");
            let last = ask(&mut session, &format!("piece {second}"));
            assert!(last.starts_with(answer), "{last}");
        }
    }
}
