//! The proved DSG receiver, for Rust hosts.
//!
//! A head end describes its tunnels in a DCD message, which comes in pieces. [`Receiver`] takes the
//! pieces as they come and holds the table that the whole message gives; [`Tunnel`] judges the frames
//! for one client; [`Modem`] says when the transmitter may be on. A head end has [`Table::write`], which
//! writes the pieces. All the work is done by `libdsg.a`, of which every function is proved; this crate
//! only gives it Rust's types. Unsafe code stands in one module, `ffi`.
//!
//! ```
//! use dsg::{ClientId, Receiver, Received, Tunnel, Verdict};
//!
//! // One body: change count 7, one piece of one, a rule for application 42 with tunnel 01005e050505.
//! let body = [
//!     7, 1, 1, 50, 20, 1, 1, 5, 2, 1, 80, 4, 4, 4, 2, 0, 42, 5, 6, 1, 0, 0x5E, 5, 5, 5,
//! ];
//! let mut receiver = Receiver::new();
//! assert_eq!(receiver.receive(&body), Ok(Received::Accepted));
//!
//! let tunnel = Tunnel::prepare(receiver.table(), ClientId::Application(42), None);
//! let frame = [&[1, 0, 0x5E, 5, 5, 5][..], &[0; 8], b"guide"].concat();
//! assert_eq!(tunnel.judge(&frame), Ok(Verdict::Forward { classifier: 0, payload: b"guide" }));
//! ```
#![deny(unsafe_code, missing_docs)]

#[allow(unsafe_code)]
pub mod ffi;
pub mod lent;
pub mod records;
pub mod writing;

pub use lent::{ClientId, Event, Part, Piece, Received, Refusal, Refused, Verdict};
pub use records::{state, Collection, Modem, Table, Tunnel};
pub use writing::{Pieces, PIECE_STEP, WRITE_BYTES};

/// How many bytes each of the two buffers of a collection has at least.
pub const BUFFER_BYTES: usize = 24_000;

/// A collection with its buffers, and the table that was read last.
///
/// On every entry of the modem into Scanning a board forgets what it collected: the head end keeps its change count, so
/// the message that gave the table would be a repeat for ever, and no table would be accepted on the next channel. Bodies
/// are handed over only in Checking and while [`Modem::forwards`]: a table that is accepted elsewhere does nothing, and its
/// next copy is a repeat.
///
/// ```
/// use dsg::{state, Event, Modem, Received, Receiver};
///
/// let body = [7, 1, 1]; // change count 7, one piece of one, the empty message
/// let (mut receiver, mut modem) = (Receiver::new(), Modem::idle());
/// modem.on_event(0, Event::Start { permitted: false })?;
/// modem.on_event(10, Event::Locked)?;
/// assert_eq!(receiver.receive(&body), Ok(Received::Accepted));
/// modem.on_event(20, Event::TableAccepted(receiver.table().timers.into()))?;
/// assert_eq!(receiver.receive(&body), Ok(Received::Repeat));
///
/// modem.on_event(30, Event::DownstreamLost)?;
/// assert_eq!(modem.state, state::SCANNING);
/// receiver.forget();
/// modem.on_event(40, Event::Locked)?;
/// assert_eq!(receiver.receive(&body), Ok(Received::Accepted));
/// modem.on_event(50, Event::TableAccepted(receiver.table().timers.into()))?;
/// assert!(modem.forwards());
/// # Ok::<(), dsg::Refusal>(())
/// ```
#[derive(Clone, Debug)]
pub struct Receiver {
    held: Collection,
    table: Table,
    count: Option<u8>,
    slots: Box<[u8]>,
    join: Box<[u8]>,
}

impl Receiver {
    /// Nothing collected, and the table of the empty message. The setting is loose: a message may be cut anywhere.
    #[must_use]
    pub fn new() -> Self {
        Receiver::with(Collection::empty(false))
    }

    /// The same with the strict setting: a message that was cut inside an element is dropped.
    ///
    /// ```
    /// use dsg::{Received, Receiver, Refusal, Refused};
    ///
    /// // a rule's element, cut behind its type byte
    /// let (first, second) = ([7, 2, 1, 50], [7, 2, 2, 0]);
    /// let dropped = Err(Refused::Dropped(Refusal { number: 21, offset: 1 }));
    /// let mut receiver = Receiver::strict();
    /// assert_eq!(receiver.receive(&first), Ok(Received::Waiting(1)));
    /// assert_eq!(receiver.receive(&second), dropped);
    /// assert_eq!(dropped.unwrap_err().to_string(), "collection refused 21 at 1");
    ///
    /// // nothing is collected now, and the setting stays
    /// assert_eq!(receiver.receive(&second), Ok(Received::Waiting(1)));
    /// receiver.forget();
    /// assert_eq!(receiver.receive(&second), Ok(Received::Waiting(1)));
    /// assert_eq!(receiver.receive(&first), dropped);
    ///
    /// // loose, the message is read: an empty rule
    /// let mut receiver = Receiver::new();
    /// assert_eq!(receiver.receive(&first), Ok(Received::Waiting(1)));
    /// let empty_rule = Err(Refused::Message(Refusal { number: 13, offset: 0 }));
    /// assert_eq!(receiver.receive(&second), empty_rule);
    /// ```
    #[must_use]
    pub fn strict() -> Self {
        Receiver::with(Collection::empty(true))
    }

    fn with(held: Collection) -> Self {
        Receiver {
            held,
            table: Table::default(),
            count: None,
            slots: vec![0; BUFFER_BYTES].into(),
            join: vec![0; BUFFER_BYTES].into(),
        }
    }

    /// Takes one body. Once its message is complete it is read, and the table is the new one if it is accepted.
    ///
    /// ```
    /// use dsg::{Receiver, Refusal, Refused};
    ///
    /// let mut receiver = Receiver::new();
    /// let number_0 = receiver.receive(&[7, 0, 1]);
    /// assert_eq!(number_0, Err(Refused::Body(Refusal { number: 4, offset: 0 })));
    /// let empty_rule = receiver.receive(&[7, 1, 1, 50, 0]);
    /// assert_eq!(empty_rule, Err(Refused::Message(Refusal { number: 13, offset: 0 })));
    /// assert_eq!(empty_rule.unwrap_err().to_string(), "message refused 13 at 0");
    /// ```
    ///
    /// # Errors
    /// The refusal of the body, of the message that it completed, or of the collection that it filled; the table stays.
    pub fn receive(&mut self, body: &[u8]) -> Result<Received, Refused> {
        let received = lent::receive(
            &mut self.held,
            &mut self.table,
            &mut self.slots,
            &mut self.join,
            body,
        )?;
        if received == Received::Accepted {
            self.count = Some(self.held.count);
        }
        Ok(received)
    }

    /// Forgets what was collected. The setting stays, and so do the table and its count.
    pub fn forget(&mut self) {
        self.held = ffi::empty_collection(self.held.strict);
    }

    /// The table of the last message that was accepted.
    #[must_use]
    pub fn table(&self) -> &Table {
        &self.table
    }

    /// The change count of that message; none before one was accepted.
    ///
    /// ```
    /// let mut receiver = dsg::Receiver::new();
    /// assert_eq!(receiver.count(), None);
    /// receiver.receive(&[7, 1, 1])?;
    /// receiver.receive(&[8, 2, 1])?; // a new message begins; the table is still the old one
    /// assert_eq!(receiver.count(), Some(7));
    /// # Ok::<(), dsg::Refused>(())
    /// ```
    #[must_use]
    pub fn count(&self) -> Option<u8> {
        self.count
    }
}

impl Default for Receiver {
    fn default() -> Self {
        Receiver::new()
    }
}

impl Default for Collection {
    /// Nothing collected, loose.
    fn default() -> Self {
        Collection::empty(false)
    }
}

impl Collection {
    /// Nothing collected. Strict: a message that was cut inside an element is dropped.
    #[must_use]
    pub fn empty(strict: bool) -> Self {
        ffi::empty_collection(strict.into())
    }
}

impl Default for Table {
    /// The table of the empty message: no rule, no classifier, no channel, timers 2, 600, 300 and 1800.
    fn default() -> Self {
        ffi::empty_table()
    }
}

impl Table {
    /// Reads a message into this table.
    ///
    /// # Errors
    /// The refusal and the byte where it was met; the table stays as it was.
    pub fn read(&mut self, message: &[u8]) -> Result<(), Refusal> {
        lent::read_table(self, message)
    }

    /// The place of the rule for a client, where its UCID is known with that too.
    ///
    /// # Errors
    /// 17: no rule fits.
    pub fn choose(&self, client: ClientId, ucid: Option<u8>) -> Result<usize, Refusal> {
        lent::choose_rule(self, client, ucid)
    }

    /// Judges a frame for a client. For many frames of one client [`Tunnel`] is quicker.
    ///
    /// # Errors
    /// 16: the frame is too short or too long. 17: no rule fits the client.
    pub fn judge<'f>(
        &self,
        client: ClientId,
        ucid: Option<u8>,
        frame: &'f [u8],
    ) -> Result<Verdict<'f>, Refusal> {
        lent::judge_frame(self, client, ucid, frame)
    }
}

impl Tunnel {
    /// Chooses the rule for a client and looks its classifiers up. Anew after each accepted table, and where the UCID or the
    /// client changes.
    #[must_use]
    pub fn prepare(table: &Table, client: ClientId, ucid: Option<u8>) -> Self {
        lent::prepare_tunnel(table, client, ucid)
    }

    /// Judges a frame.
    ///
    /// # Errors
    /// 16: the frame is too short or too long. 17: no rule fitted the client.
    pub fn judge<'f>(&self, frame: &'f [u8]) -> Result<Verdict<'f>, Refusal> {
        lent::judge_prepared(self, frame)
    }
}

impl Modem {
    /// An idle record, with the timer values 2, 600, 300 and 1800. There is no other to begin with: one of zeros would count
    /// as idle too, and would not be equal to this one.
    #[must_use]
    pub fn idle() -> Self {
        ffi::empty_modem()
    }

    /// Advances the record by an event at a time of the millisecond clock.
    ///
    /// ```
    /// use dsg::{Event, Modem};
    ///
    /// let mut modem = Modem::idle();
    /// modem.on_event(0, Event::Start { permitted: true })?;
    /// modem.on_event(10, Event::Locked)?;
    /// modem.on_event(500, Event::TableAccepted([2, 600, 300, 1800]))?;
    /// assert!(modem.transmits() && modem.forwards());
    /// modem.on_event(600, Event::Disable)?;
    /// assert!(!modem.transmits() && modem.forwards());
    /// # Ok::<(), dsg::Refusal>(())
    /// ```
    ///
    /// # Errors
    /// 18: the clock went back; the record stays as it was.
    pub fn on_event(&mut self, clock: u32, event: Event) -> Result<(), Refusal> {
        lent::on_event(self, clock, event)
    }

    /// The UCID, as [`Tunnel::prepare`] takes it: known in two-way operation alone.
    #[must_use]
    pub fn ucid(&self) -> Option<u8> {
        (self.hasucid == 1).then_some(self.ucid)
    }

    /// Whether the transmitter is on.
    #[must_use]
    pub fn transmits(&self) -> bool {
        lent::transmits(self)
    }

    /// Whether tunnels are forwarded.
    #[must_use]
    pub fn forwards(&self) -> bool {
        lent::forwards(self)
    }
}

/// What `dcdlist` writes for one body.
///
/// ```
/// assert_eq!(dsg::list_body(&[7, 1, 1, 50, 0]), "refused 13 at 0\n");
/// ```
#[must_use]
pub fn list_body(body: &[u8]) -> String {
    lent::as_text(|out| lent::list_body(body, out))
}

/// The listing of a table and the change count that it came under.
#[must_use]
pub fn list_table(count: u8, table: &Table) -> String {
    lent::as_text(|out| lent::list_table(count, table, out))
}
