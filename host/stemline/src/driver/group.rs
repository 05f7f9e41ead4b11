//! What a driver is made of and what it shows: the group, the waits, the peers.

use std::fmt;
use std::time::Duration;

use crate::head::Head;
use crate::{Digest, Notice, Replica, Report, ITEMS};

/// A group: what all its members have in common.
#[derive(Clone, Debug, PartialEq, Eq)]
pub struct Group {
    name: String,
    head: Head,
}

impl Group {
    /// The group of this name, of so many replicas, 2 to 6, with these values to start with. The name has 1 to 255
    /// bytes and no control characters. What is wrong is said in words.
    pub fn new(name: &str, n: u32, values: &[i32; ITEMS]) -> Result<Group, String> {
        Replica::new(n, 0, values).map_err(|refusal| refusal.to_string())?;
        let head = Head::new(name, n, 0, values)?;
        let name = name.to_string();
        Ok(Group { name, head })
    }

    /// Its name.
    pub fn name(&self) -> &str {
        &self.name
    }

    /// How many replicas it has.
    pub fn replicas(&self) -> u32 {
        self.head.replicas()
    }

    /// The values that it starts with.
    pub fn values(&self) -> &[i32; ITEMS] {
        self.head.values()
    }

    /// What tells it from others in every frame: the digest of its size, name and start.
    pub fn mark(&self) -> u64 {
        self.head.common()
    }

    /// The head that its journals begin with, but for the own number.
    pub(crate) fn head(&self) -> &Head {
        &self.head
    }
}

/// How long a driver waits, which is the host's choice.
#[derive(Clone, Copy, Debug, PartialEq, Eq)]
pub struct Waits {
    /// Before an empty block, where it is the replica's turn and nothing is asked. An idle group spends one slot in
    /// each such wait.
    pub idle: Duration,
    /// Before the last own block is handed out again, and turn and digest are told.
    pub resend: Duration,
    /// Before another is asked for its blocks, where it is ahead and the turn has not moved for so long; and before
    /// that is asked again.
    pub ask: Duration,
}

/// An idle group spends a slot in a second; what is lost comes again within a fifth of one.
impl Default for Waits {
    fn default() -> Waits {
        Waits {
            idle: Duration::from_secs(1),
            resend: Duration::from_millis(200),
            ask: Duration::from_millis(200),
        }
    }
}

/// The other end of a link.
#[derive(Clone, Copy, Debug, PartialEq, Eq, PartialOrd, Ord, Hash)]
pub enum Peer {
    /// The replica of this number: by what the host knows of the link, such as its certificate, never by what it
    /// says.
    Replica(u32),
    /// A station, by a number that the host gives its link.
    Station(u32),
}

impl fmt::Display for Peer {
    fn fmt(&self, f: &mut fmt::Formatter) -> fmt::Result {
        match self {
            Peer::Replica(number) => write!(f, "replica {number}"),
            Peer::Station(number) => write!(f, "station {number}"),
        }
    }
}

/// Where a driver is, to be shown.
#[derive(Clone, Debug)]
pub struct Status {
    /// The own number; `None` at a station.
    pub own: Option<u32>,
    /// Turn, commits, and the digest of all that is committed.
    pub digest: Digest,
    /// The counts of the calls.
    pub report: Report,
    /// The replica whose block comes next; `None` where no slot is left.
    pub waits_for: Option<u32>,
    /// The other replicas by their numbers, then the stations that are up.
    pub peers: Vec<PeerStatus>,
    /// The notices taken.
    pub notices: Vec<Notice>,
    /// Those said and not taken yet.
    pub pending: Vec<Notice>,
    /// How many outcomes are to be told.
    pub clients: usize,
    /// Why it has stopped, in words.
    pub stopped: Option<String>,
}

/// What is known of a peer.
#[derive(Clone, Debug, PartialEq, Eq)]
pub struct PeerStatus {
    /// Who it is.
    pub peer: Peer,
    /// Whether there is a link to it.
    pub up: bool,
    /// What it had committed by its turn when it was last heard.
    pub digest: Option<Digest>,
    /// When that was.
    pub heard: Option<Duration>,
    /// Whether its slots are out now.
    pub out: bool,
}
