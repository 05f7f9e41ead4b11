//! What a designer's program and the node say to each other: JSON, a line each way.
//!
//! A request is answered by one line, but for `set`, which tells what it waits for before it tells its end, and
//! `watch`, which goes on until one of the two closes.

use serde::{Deserialize, Deserializer, Serialize};
use stemline::driver::CallError;
use stemline::Refusal;

/// What a client asks for.
#[derive(Clone, Debug, PartialEq, Serialize, Deserialize)]
#[serde(tag = "do", rename_all = "lowercase", deny_unknown_fields)]
pub enum Request {
    /// The contents of these measures; of all where none is named.
    Get {
        /// By name or number.
        #[serde(default)]
        measures: Vec<String>,
        /// Once so many writesets are committed here.
        #[serde(default)]
        after: u32,
    },
    /// Changes as one transaction.
    Set {
        /// What is changed: 1 to 8 measures.
        changes: Vec<Change>,
        /// How often it is begun, where others' writesets abort it: once, or more.
        #[serde(default = "once")]
        tries: u32,
    },
    /// Begins a transaction, which is this connection's.
    Begin,
    /// Reads a measure in a transaction.
    Read {
        /// The transaction.
        ticket: u32,
        /// By name or number.
        measure: String,
    },
    /// Writes a measure in a transaction.
    Write {
        /// The transaction.
        ticket: u32,
        /// By name or number.
        measure: String,
        /// What it is set to; null removes it.
        #[serde(deserialize_with = "present")]
        value: Option<i32>,
    },
    /// Asks for the commit of a transaction, and is told its outcome.
    Ask {
        /// The transaction.
        ticket: u32,
    },
    /// Ends a transaction that is not asked.
    Withdraw {
        /// The transaction.
        ticket: u32,
    },
    /// Where the node and its group are.
    Status,
    /// All that is committed from now on.
    Watch,
    /// The file of notices has been written on: take what is new.
    Notices,
}

fn once() -> u32 {
    1
}

/// One measure of a transaction.
#[derive(Clone, Debug, PartialEq, Serialize, Deserialize)]
#[serde(deny_unknown_fields)]
pub struct Change {
    /// By name or number.
    pub measure: String,
    /// What it is set to; null removes it.
    #[serde(deserialize_with = "present")]
    pub value: Option<i32>,
}

/// A value that may be null, but not be left out.
fn present<'de, D: Deserializer<'de>>(from: D) -> Result<Option<i32>, D::Error> {
    Option::deserialize(from)
}

/// What the node tells.
#[derive(Clone, Debug, PartialEq, Serialize, Deserialize)]
#[serde(tag = "told", rename_all = "lowercase")]
pub enum Told {
    /// Contents, as they are committed here.
    Measures {
        /// The slot that comes next.
        turn: u32,
        /// By rising items.
        measures: Vec<Measure>,
    },
    /// The transaction goes on later.
    Waits {
        /// Why.
        words: String,
        /// The number of the refusal behind it, if one is.
        number: Option<u8>,
    },
    /// The transaction is committed, and durable.
    Committed {
        /// Its ticket at this node.
        ticket: u32,
        /// Its place among all writesets of the group, counted from 1.
        place: u32,
        /// How often it was begun.
        tries: u32,
    },
    /// The transaction wrote nothing, and has ended.
    Readonly {
        /// Its ticket.
        ticket: u32,
    },
    /// A transaction is begun.
    Begun {
        /// Its ticket.
        ticket: u32,
    },
    /// What a transaction read.
    Read {
        /// Null where the measure is removed.
        value: Option<i32>,
    },
    /// The transaction has it in its writeset.
    Written,
    /// The transaction has ended without a trace.
    Withdrawn,
    /// It is not committed, and never will be: another's writeset came first.
    Aborted {
        /// How often it was begun.
        tries: u32,
    },
    /// Nothing was done.
    Refused {
        /// Why.
        words: String,
        /// The number of the refusal, if it is the engine's.
        number: Option<u8>,
    },
    /// The node ended before it knew: it may be committed or not.
    Unknown {
        /// Why.
        words: String,
    },
    /// Where the node and its group are.
    Status(Box<State>),
    /// A writeset that was committed.
    Change {
        /// Its place among all writesets of the group, counted from 1.
        place: u32,
        /// The slot of its block.
        slot: u32,
        /// Who set it.
        by: Studio,
        /// What it set.
        measures: Vec<Measure>,
    },
    /// So many changes were passed over: the watcher was too slow.
    Missed {
        /// How many.
        changes: u64,
    },
    /// So many notices of the file are handed to the replica; what it refuses, the log says.
    Notices {
        /// How many the file has.
        read: usize,
    },
}

/// A measure and what it is.
#[derive(Clone, Debug, PartialEq, Serialize, Deserialize)]
pub struct Measure {
    /// Its number.
    pub item: u32,
    /// What it is called.
    pub name: Option<String>,
    /// What it is set to; null where it is removed.
    pub value: Option<i32>,
    /// Who set it last.
    #[serde(default, skip_serializing_if = "Option::is_none")]
    pub set: Option<Setting>,
}

/// A writeset that set a measure.
#[derive(Clone, Debug, PartialEq, Serialize, Deserialize)]
pub struct Setting {
    /// Whose it was.
    pub by: Studio,
    /// Its place among all writesets of the group.
    pub place: u32,
    /// The slot of its block.
    pub slot: u32,
}

/// A studio by number and name.
#[derive(Clone, Debug, PartialEq, Eq, Serialize, Deserialize)]
pub struct Studio {
    /// The number of its replica.
    pub number: u32,
    /// What it is called; may be empty.
    pub name: String,
}

/// Where a node and its group are.
#[derive(Clone, Debug, PartialEq, Serialize, Deserialize)]
pub struct State {
    /// The version of the program.
    pub version: String,
    /// The group's name.
    pub group: String,
    /// The own number; a station has none.
    pub own: Option<u32>,
    /// The slot that comes next.
    pub turn: u32,
    /// The writesets committed.
    pub commits: u32,
    /// The digest of all that is committed.
    pub digest: String,
    /// Whose block the turn needs.
    pub waits_for: Option<Studio>,
    /// The group's replicas, by number.
    pub studios: Vec<Member>,
    /// The stations that are known here.
    pub stations: Vec<Member>,
    /// The own journal; a station has none.
    pub journal: Option<Journal>,
    /// What became of the own transactions.
    pub tickets: Tickets,
    /// Outcomes that clients wait for.
    pub clients: usize,
    /// Notices taken, and those that are still to be taken.
    pub notices: Vec<String>,
    /// Notices that cannot be taken yet.
    pub pending: Vec<String>,
    /// Why nothing goes on here, if so.
    pub stopped: Option<String>,
    /// The measures that have a name, were set, or are not 0.
    pub measures: Vec<Measure>,
}

/// A member of the group, as this node sees it.
#[derive(Clone, Debug, PartialEq, Serialize, Deserialize)]
pub struct Member {
    /// Its number.
    pub number: u32,
    /// What it is called; may be empty.
    pub name: String,
    /// Whether it is this node itself.
    pub own: bool,
    /// Whether there is a link to it.
    pub linked: bool,
    /// Whether its slots are out by a notice.
    pub out: bool,
    /// The turn that it told last.
    pub turn: Option<u32>,
    /// Whether it has committed the same, where both were at one turn.
    pub agrees: Option<bool>,
    /// How long ago it was heard, in milliseconds.
    pub heard_ms: Option<u64>,
}

/// The file that a replica is restarted from.
#[derive(Clone, Debug, PartialEq, Serialize, Deserialize)]
pub struct Journal {
    /// Where it is.
    pub path: String,
    /// Its length.
    pub bytes: u64,
}

/// How many of the own transactions came to which end.
#[derive(Clone, Debug, PartialEq, Serialize, Deserialize)]
pub struct Tickets {
    /// Begun.
    pub given: u32,
    /// Not ended yet.
    pub open: u32,
    /// Committed.
    pub committed: u32,
    /// Ended without a write.
    pub read_only: u32,
    /// Aborted.
    pub aborted: u32,
    /// Withdrawn.
    pub withdrawn: u32,
}

impl Told {
    /// Whether more comes behind it of the same request.
    pub fn goes_on(&self) -> bool {
        matches!(self, Told::Waits { .. })
    }

    /// Why a transaction goes on later.
    pub fn waits(words: impl Into<String>) -> Told {
        Told::Waits {
            words: words.into(),
            number: None,
        }
    }

    /// The same, by what put it off.
    pub fn waits_for(refusal: Refusal) -> Told {
        Told::Waits {
            words: match refusal {
                Refusal::Stale => "another's change came first (9); it is begun anew".to_string(),
                refusal => refusal.to_string(),
            },
            number: Some(refusal.number()),
        }
    }

    /// A refusal in words.
    pub fn refused(words: impl Into<String>) -> Told {
        Told::Refused {
            words: words.into(),
            number: None,
        }
    }
}

impl From<CallError> for Told {
    fn from(error: CallError) -> Told {
        Told::Refused {
            words: error.to_string(),
            number: error.refusal().map(Refusal::number),
        }
    }
}

impl std::fmt::Display for Studio {
    fn fmt(&self, f: &mut std::fmt::Formatter) -> std::fmt::Result {
        match self.name.is_empty() {
            true => write!(f, "studio {}", self.number),
            false => write!(f, "{} (studio {})", self.name, self.number),
        }
    }
}

#[cfg(test)]
mod tests {
    use super::*;

    #[test]
    fn a_removal_is_said() {
        let read = |text| serde_json::from_str::<Request>(text);
        let removes = read(r#"{"do":"set","changes":[{"measure":"5","value":null}]}"#).unwrap();
        let change = Change {
            measure: "5".to_string(),
            value: None,
        };
        assert_eq!(
            removes,
            Request::Set {
                changes: vec![change],
                tries: 1
            }
        );
        assert!(read(r#"{"do":"set","changes":[{"measure":"5"}]}"#).is_err());
        assert!(read(r#"{"do":"set","changes":[{"measure":"5","value":2147483648}]}"#).is_err());
        assert!(read(r#"{"do":"get","measure":"5"}"#).is_err());
        let measures = Vec::new();
        assert_eq!(
            read(r#"{"do":"get"}"#).unwrap(),
            Request::Get { measures, after: 0 }
        );
    }
}
