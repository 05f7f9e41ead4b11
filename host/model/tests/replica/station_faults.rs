//! Wrong stations: the observer objects to each but one, and each differs from the model's in some call.
//! Of the lengths that are lent to a send, which no list of calls has, see `stations.rs`.

use model::drive::{Group, Machine, Peers, Powered, Style, Subject};
use model::replica::{Report, Restarted, ITEMS};
use model::samples::Random;
use model::trace::{Answer, Call, Restart};

use crate::common::{make, station};

/// What a station does wrong.
#[derive(Clone, Copy, Debug, PartialEq, Eq)]
pub enum Fault {
    None,
    /// It is the replica 0 that never sends: that one's blocks it refuses as its own.
    NumberZero,
    /// The same of the last replica, N - 1.
    NumberLast,
    /// Its number is 255, which divided by N leaves that of a sender.
    Number255,
    /// It counts each work as the end of a transaction of its own.
    CountsCommitted,
    /// It sends in the slots of replica 0.
    Sends,
    /// It lets its transactions write.
    Writes,
    /// What a replica refuses is refused by its number, and 25 comes last.
    OtherReasonsFirst,
    /// The first writeset of a block of several is left out.
    DropsWriteset,
    /// No value ever changes.
    NoValues,
    /// Reads give the values of now.
    ReadsNow,
}

/// Each fault, and whether the observer objects. To a count of its own endings it does not.
pub const FAULTS: [(Fault, bool); 10] = [
    (Fault::NumberZero, true),
    (Fault::NumberLast, true),
    (Fault::Number255, true),
    (Fault::CountsCommitted, false),
    (Fault::Sends, true),
    (Fault::Writes, true),
    (Fault::OtherReasonsFirst, true),
    (Fault::DropsWriteset, true),
    (Fault::NoValues, true),
    (Fault::ReadsNow, true),
];

/// A station with a fault; a replica has none.
pub struct Faulty {
    fault: Fault,
    pub machine: Machine,
}

impl Faulty {
    /// Of one just made.
    pub fn of(machine: Machine, fault: Fault) -> Faulty {
        Faulty { fault, machine }
    }

    /// A call as that of the replica with a number.
    fn call_as(&mut self, own: usize, call: &Call) -> Result<Answer, u8> {
        let station = &mut self.machine.replica;
        station.own = Some(own as u8);
        let answer = station.call(call);
        station.own = None;
        answer
    }
}

impl Subject for Faulty {
    fn call(&mut self, call: &Call) -> Result<Answer, u8> {
        let station = &mut self.machine.replica;
        if !station.is_station() {
            return self.machine.call(call);
        }
        let n = station.inbox.len();
        match (self.fault, call) {
            (Fault::NumberZero, Call::Deliver { .. }) => self.call_as(0, call),
            (Fault::NumberLast, Call::Deliver { .. }) => self.call_as(n - 1, call),
            (Fault::Number255, Call::Deliver { .. }) => self.call_as(255 % n, call),
            (Fault::CountsCommitted, Call::Work) => {
                let answer = self.machine.call(call)?;
                self.machine.replica.committed += 1;
                Ok(answer)
            }
            (Fault::Sends, Call::Send) => self.call_as(0, call),
            (Fault::Writes, Call::Write { .. }) => self.call_as(0, call),
            (Fault::OtherReasonsFirst, Call::Write { .. } | Call::Send) => {
                let before = station.clone();
                let answer = self.call_as(0, call);
                self.machine.replica = before;
                answer.and(Err(25))
            }
            (Fault::DropsWriteset, Call::Work) => {
                let at = station.turn as usize % n;
                if let (Some(message), 0) = (&mut station.inbox[at], station.done) {
                    if message.records.len() > 1 {
                        message.records.remove(0);
                    }
                }
                self.machine.call(call)
            }
            (Fault::NoValues, Call::Work) => {
                let before = station.values;
                let answer = self.machine.call(call);
                self.machine.replica.values = before;
                answer
            }
            (Fault::ReadsNow, &Call::Read { ticket, item }) => {
                station.read(ticket, item)?;
                Ok(Answer::Value(station.values[item as usize]))
            }
            _ => self.machine.call(call),
        }
    }
    fn report(&self) -> Report {
        self.machine.report()
    }
    fn values(&self) -> [i32; ITEMS] {
        self.machine.values()
    }
}

impl Powered for Faulty {
    fn disk(&self) -> &[u8] {
        self.machine.disk()
    }
    fn ended(&mut self, call: &Call) {
        let floor = self.machine.floor;
        let _ = self.call(call);
        self.machine.floor = floor;
    }
    fn floor(&self) -> usize {
        self.machine.floor()
    }
    fn restart(&mut self, restart: &Restart) -> Result<Restarted, u8> {
        self.machine.restart(restart)
    }
}

const STYLE: Style = Style::new(6, 50, 15);

/// What the observer objects to first in random runs of a right group with a wrong station.
fn objections(fault: Fault, runs: u64) -> Option<Vec<String>> {
    for seed in 0..runs {
        let n = 2 + seed as u32 % 5;
        let faulty = |replica| Faulty::of(Machine::new(replica), fault);
        let members = (0..n).map(|own| faulty(make(n, own)));
        let mut group = Group::new(members.collect(), STYLE);
        group.add_station(faulty(station(n)));
        let mut random = Random::new(seed);
        for _ in 0..40 {
            for _ in 0..20 {
                group.random_call(&mut random);
            }
            let violations = group.violations();
            if !violations.is_empty() {
                return Some(violations);
            }
        }
    }
    None
}

#[test]
fn the_observer_objects() {
    assert_eq!(objections(Fault::None, 20), None);
    for (fault, objected) in FAULTS {
        let found = objections(fault, 20);
        assert_eq!(found.is_some(), objected, "{fault:?}: {found:#?}");
        let station = |text: &String| text.starts_with("station 0: ");
        assert!(found.iter().flatten().all(station), "{fault:?}: {found:#?}");
    }
}

/// Whether a station with the fault differs from the model's somewhere in a random run.
fn differs(fault: Fault, seed: u64) -> bool {
    let n = 2 + seed as u32 % 5;
    let mut right = station(n);
    let mut wrong = Faulty::of(Machine::new(station(n)), fault);
    let mut peers = Peers::of_station(n, right.report());
    let mut random = Random::new(seed);
    (0..500).any(|_| {
        let call = peers.random_call(&mut random, STYLE);
        let answer = right.call(&call);
        peers.feed(&call, &answer);
        wrong.call(&call) != answer || wrong.values() != *right.values()
    })
}

#[test]
fn the_comparison_finds_each() {
    assert!((0..20).all(|seed| !differs(Fault::None, seed)));
    for (fault, _) in FAULTS {
        assert!((0..20).any(|seed| differs(fault, seed)), "{fault:?}");
    }
}
