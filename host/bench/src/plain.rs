//! A replica in plain Rust, written for speed: fixed arrays, nothing allocated, blocks kept as their
//! bytes. The second model is written for clarity; this is what the library's speed is held to. A
//! test holds it to the model.

mod classes;
mod client;
mod giving;
mod notice;
mod restart;
mod turn;

use model::block::{BLOCK, ENTRIES, RECORDS};
use model::refusal::OUT_OF_RANGE;
use model::replica::{Report, ITEMS};

pub use self::giving::giver;
pub use self::restart::Restarted;

/// The most replicas of a group.
const REPLICAS: usize = 6;
/// The most open transactions.
const OPEN: usize = RECORDS;
/// In the place of a station's own number.
const NO_NUMBER: u8 = 255;
/// The blocks of a window.
const KEPT: usize = 64;

/// One replica of a group, or a station. Its calls are the model's, and refuse by the same numbers.
#[derive(Clone)]
pub struct Replica {
    n: u8,
    own: u8,
    /// The writesets committed of the block at the turn.
    done: u8,
    sent: bool,
    applying: bool,
    turn: u32,
    commits: u32,
    tickets: u32,
    committed: u32,
    read_only: u32,
    aborted: u32,
    withdrawn: u32,
    /// The last outage of each replica: its slots from .. until are out, without the last.
    from: [u32; REPLICAS],
    until: [u32; REPLICAS],
    /// The first `queued` tickets wait for the next own block.
    queued: usize,
    queue: [u32; OPEN],
    rows: [Row; OPEN],
    values: [i32; ITEMS],
    stamps: [u32; ITEMS],
    /// All 0 where no table is loaded.
    classes: [u8; ITEMS],
    /// The first byte is 0 where no block waits.
    places: [[u8; BLOCK]; REPLICAS],
    outbox: [u8; BLOCK],
    /// The last blocks that the turn has left, by slot mod 64.
    window: Box<[[u8; BLOCK]; KEPT]>,
}

/// An open transaction; ticket 0 is a free row.
#[derive(Clone)]
struct Row {
    ticket: u32,
    snapshot: u32,
    stage: Stage,
    /// The first `count` items, rising, and their values.
    count: usize,
    items: [u8; ENTRIES],
    writes: [i32; ENTRIES],
    /// The values when it began.
    values: [i32; ITEMS],
}

#[derive(Clone, Copy, PartialEq, Eq)]
enum Stage {
    Active,
    Asked,
    Sent,
}

impl Row {
    const FREE: Row = Row {
        ticket: 0,
        snapshot: 0,
        stage: Stage::Active,
        count: 0,
        items: [0; ENTRIES],
        writes: [0; ENTRIES],
        values: [0; ITEMS],
    };

    fn items(&self) -> &[u8] {
        &self.items[..self.count]
    }

    fn is_open(&self) -> bool {
        self.ticket != 0
    }

    fn end(&mut self) {
        self.ticket = 0;
        self.count = 0;
    }
}

/// What one work did.
#[derive(Clone)]
pub struct Work {
    /// The replica whose block stands at the turn.
    pub sender: u8,
    /// The ticket of the writeset committed, 0 for a block without records.
    pub ticket: u32,
    /// Whether the turn went up.
    pub moved: bool,
    /// The own transactions aborted: the first `count`, rising.
    pub aborted: [u32; OPEN],
    /// How many there are.
    pub count: usize,
    /// Whether the journal is to get the block of the slot that the turn left: another's, or the next of one that
    /// is out.
    pub append: bool,
}

impl Replica {
    /// Replica `own` of `n`.
    pub fn make(n: u32, own: u32, values: &[i32; ITEMS]) -> Result<Replica, u8> {
        if own >= n {
            return Err(OUT_OF_RANGE);
        }
        let own = own as u8;
        Replica::station(n, values).map(|made| Replica { own, ..made })
    }

    /// A station of a group of `n`.
    pub fn station(n: u32, values: &[i32; ITEMS]) -> Result<Replica, u8> {
        if !(2..=6).contains(&n) {
            return Err(OUT_OF_RANGE);
        }
        Ok(Replica {
            n: n as u8,
            own: NO_NUMBER,
            done: 0,
            sent: false,
            applying: false,
            turn: 0,
            commits: 0,
            tickets: 0,
            committed: 0,
            read_only: 0,
            aborted: 0,
            withdrawn: 0,
            from: [0; REPLICAS],
            until: [0; REPLICAS],
            queued: 0,
            queue: [0; OPEN],
            rows: [Row::FREE; OPEN],
            values: *values,
            stamps: [0; ITEMS],
            classes: [0; ITEMS],
            places: [[0; BLOCK]; REPLICAS],
            outbox: [0; BLOCK],
            window: Box::new([[0; BLOCK]; KEPT]),
        })
    }

    /// The values committed so far.
    pub fn values(&self) -> &[i32; ITEMS] {
        &self.values
    }

    /// What the window has where the block of a slot would be.
    pub fn kept(&self, slot: u32) -> &[u8; BLOCK] {
        &self.window[slot as usize % KEPT]
    }

    /// The counts of the calls so far.
    pub fn report(&self) -> Report {
        let open = self.rows.iter().filter(|row| row.is_open());
        Report {
            turn: self.turn,
            commits: self.commits,
            tickets: self.tickets,
            open: open.count() as u32,
            committed: self.committed,
            read_only: self.read_only,
            aborted: self.aborted,
            withdrawn: self.withdrawn,
        }
    }

    /// Whether it has no number.
    fn is_station(&self) -> bool {
        self.own == NO_NUMBER
    }

    /// For tests, as the model's.
    #[doc(hidden)]
    pub fn fast_forward(mut self, slots: u32, tickets: u32) -> Replica {
        self.turn += slots;
        self.tickets += tickets;
        self.withdrawn += tickets;
        self
    }
}
