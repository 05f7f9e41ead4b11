//! Machines that keep a journal or restart from it wrongly: the observer objects to each that demand 3
//! forbids, and the others differ from the model.

use model::block::{self, BLOCK};
use model::drive::{Group, Machine, Powered, Style, Subject};
use model::journal;
use model::replica::{Report, Restarted, ITEMS};
use model::samples::Random;
use model::trace::{Answer, Call, Restart};

use crate::common::make;

/// What a machine does wrong.
#[derive(Clone, Copy, Debug, PartialEq, Eq)]
pub enum Fault {
    None,
    /// An own block is appended only when the turn leaves its slot.
    OwnWhenLeft,
    /// What is torn stays, and the journal goes on behind it.
    TornTailKept,
    /// An own block at the end of the journal is not committed: its slot is sent once more.
    LastOwnSentAgain,
    /// Tickets are given from 1 again.
    TicketsFromZero,
    /// Tickets go on above the highest in the last own block.
    HighestInLastOwn,
    /// Tickets go on above the highest in any block.
    HighestInAny,
    /// The first own block is given back.
    FirstOwnGivenBack,
    /// No block is ever given back.
    ZerosGivenBack,
    /// The endings of before the cut are counted on.
    EndingsKept,
    /// No item has a stamp after a restart.
    NoStamps,
    /// The table of classes is the one of before the cut.
    TableKept,
}

/// Each fault, and whether demand 3 forbids it. Where not, only the contract of a restart does: what
/// tickets it leaves, what is reported, the stamps, which no call shows before the next commit, and which
/// classes wait.
pub const FAULTS: [(Fault, bool); 11] = [
    (Fault::OwnWhenLeft, true),
    (Fault::TornTailKept, true),
    (Fault::LastOwnSentAgain, true),
    (Fault::TicketsFromZero, true),
    (Fault::HighestInLastOwn, true),
    (Fault::HighestInAny, false),
    (Fault::FirstOwnGivenBack, true),
    (Fault::ZerosGivenBack, true),
    (Fault::EndingsKept, false),
    (Fault::NoStamps, false),
    (Fault::TableKept, false),
];

pub struct Faulty {
    fault: Fault,
    pub machine: Machine,
    /// The own block that is not appended yet.
    held: Option<Box<[u8; BLOCK]>>,
}

impl Faulty {
    fn make(n: u32, own: u32, fault: Fault) -> Faulty {
        Faulty::of(Machine::new(make(n, own)), fault)
    }

    /// Of a machine just made.
    pub fn of(machine: Machine, fault: Fault) -> Faulty {
        Faulty {
            fault,
            machine,
            held: None,
        }
    }

    fn append_when_left(&mut self, call: &Call) -> Result<Answer, u8> {
        let Machine {
            replica,
            disk,
            floor,
        } = &mut self.machine;
        let answer = match call {
            Call::Send => replica.call(call)?,
            _ => replica.call_journaled(call, disk)?,
        };
        match &answer {
            Answer::Block(block) => {
                self.held = Some(block.clone());
                *floor = disk.len();
            }
            Answer::Work(work) if work.moved => {
                disk.extend(self.held.take().iter().flat_map(|b| **b))
            }
            _ => {}
        }
        Ok(answer)
    }

    /// The own blocks of a journal, in order.
    fn own_blocks<'a>(&self, restart: &'a Restart) -> Vec<&'a [u8; BLOCK]> {
        let blocks = journal::blocks(restart.n, &restart.journal);
        let own = |block: &&[u8; BLOCK]| u32::from(block::header(block).sender) == restart.own;
        blocks.filter(own).collect()
    }
}

fn highest<'a>(blocks: impl IntoIterator<Item = &'a [u8; BLOCK]>) -> u32 {
    let messages = blocks
        .into_iter()
        .map(|block| block::decode(block).unwrap());
    let tickets = messages.flat_map(|m| m.records.into_iter().map(|record| record.ticket));
    tickets.max().unwrap_or(0)
}

impl Subject for Faulty {
    fn call(&mut self, call: &Call) -> Result<Answer, u8> {
        match self.fault {
            Fault::OwnWhenLeft => self.append_when_left(call),
            _ => self.machine.call(call),
        }
    }
    fn report(&self) -> Report {
        self.machine.report()
    }
    fn values(&self) -> [i32; ITEMS] {
        self.machine.values()
    }
}

impl Powered for Faulty {
    fn disk(&self) -> &[u8] {
        &self.machine.disk
    }
    fn ended(&mut self, call: &Call) {
        let floor = self.machine.floor;
        let _ = self.call(call);
        self.machine.floor = floor;
    }
    fn floor(&self) -> usize {
        self.machine.floor
    }
    fn restart(&mut self, restart: &Restart) -> Result<Restarted, u8> {
        let (before, classes) = (self.machine.report(), self.machine.replica.classes);
        self.held = None;
        let mut lent = restart.clone();
        let own = self.own_blocks(restart);
        let whole: Vec<_> = journal::blocks(restart.n, &restart.journal).collect();
        if self.fault == Fault::LastOwnSentAgain && !own.is_empty() && own.last() == whole.last() {
            lent.journal.truncate(BLOCK * (whole.len() - 1));
        }
        let mut restarted = self.machine.restart(&lent)?;
        let Machine {
            replica,
            disk,
            floor,
        } = &mut self.machine;
        let zeros = [0; BLOCK];
        match self.fault {
            Fault::TornTailKept => {
                disk.clone_from(&restart.journal);
                *floor = if *floor > 0 { disk.len() } else { 0 };
            }
            Fault::LastOwnSentAgain => *restarted.block = **own.last().unwrap_or(&&zeros),
            Fault::TicketsFromZero => replica.tickets = 0,
            Fault::HighestInLastOwn => replica.tickets = highest(own.last().copied()),
            Fault::HighestInAny => replica.tickets = highest(whole),
            Fault::FirstOwnGivenBack => *restarted.block = **own.first().unwrap_or(&&zeros),
            Fault::ZerosGivenBack => *restarted.block = zeros,
            Fault::EndingsKept => {
                replica.read_only = before.read_only;
                replica.withdrawn = before.withdrawn;
            }
            Fault::NoStamps => replica.stamps = [0; ITEMS],
            Fault::TableKept => replica.classes = classes,
            Fault::None | Fault::OwnWhenLeft => {}
        }
        Ok(restarted)
    }
}

const STYLE: Style = Style::new(6, 50, 15);

/// What the observer objects to first in random runs of a group with cuts, in which every member has
/// the fault or only the first.
fn objections(fault: Fault, every: bool, runs: u64) -> Option<Vec<String>> {
    for seed in 0..runs {
        let n = 2 + seed as u32 % 5;
        let fault_of = |own| {
            if every || own == 0 {
                fault
            } else {
                Fault::None
            }
        };
        let members = (0..n).map(|own| Faulty::make(n, own, fault_of(own)));
        let mut group = Group::new(members.collect(), STYLE);
        let mut random = Random::new(seed);
        for _ in 0..10 {
            for _ in 0..80 {
                group.random_call(&mut random);
            }
            group.random_cut(&mut random);
            let violations = group.violations();
            if !violations.is_empty() {
                return Some(violations);
            }
        }
    }
    None
}

#[test]
fn the_observer_objects() {
    assert_eq!(objections(Fault::None, true, 50), None);
    for (fault, forbidden) in FAULTS {
        for every in [true, false] {
            let runs = if forbidden { 500 } else { 50 };
            let found = objections(fault, every, runs);
            assert_eq!(found.is_some(), forbidden, "{fault:?}, {every}: {found:#?}");
        }
    }
}

/// Whether a machine with a fault and one without differ after a cut: in what the restart gives, in
/// the replica, or in what is on the disk.
fn differ(fault: Fault, seed: u64) -> bool {
    let n = 2 + seed as u32 % 5;
    let member = |own| Faulty::make(n, own, Fault::None);
    let mut group = Group::new((0..n).map(member).collect(), STYLE);
    let mut random = Random::new(seed);
    for _ in 0..400 {
        group.random_call(&mut random);
    }
    let right = group.members.swap_remove(random.below(n as usize)).machine;
    let mut wrong = Faulty {
        fault,
        machine: right.clone(),
        held: None,
    };
    let mut right = Faulty {
        fault: Fault::None,
        machine: right,
        held: None,
    };
    // A torn block behind the journal, if the cut takes some of it.
    let mut journal = right.disk().to_vec();
    journal.truncate(journal.len() - random.below(2).min(journal.len()));
    let restart = Restart {
        n,
        own: u32::from(right.machine.replica.own.unwrap()),
        values: crate::common::start_values().to_vec(),
        journal,
        notices: Vec::new(),
    };
    right.restart(&restart) != wrong.restart(&restart) || right.machine != wrong.machine
}

/// Every fault of a restart; that of the appending shows at once.
#[test]
fn the_comparison_finds_each() {
    assert!(!(0..100).any(|seed| differ(Fault::None, seed)));
    for (fault, _) in FAULTS {
        if fault != Fault::OwnWhenLeft {
            assert!((0..100).any(|seed| differ(fault, seed)), "{fault:?}");
        }
    }
    let mut machine = Faulty::make(2, 0, Fault::OwnWhenLeft);
    machine.call(&Call::Send).unwrap();
    assert!(machine.disk().is_empty());
}
