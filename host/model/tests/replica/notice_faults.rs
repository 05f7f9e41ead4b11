//! Replicas that are wrong about notices (document 02, Req 10) and look finished. Each differs from the
//! model in some call, in its journal or in what a restart gives; and a group with a membership service
//! shows those that break what the group is promised.

mod faulty;

use model::drive::{Group, Machine, Peers, Powered, Style, Subject};
use model::replica::{Report, SLOTS};
use model::samples::Random;
use model::trace::{Call, Restart};

pub use self::faulty::Faulty;
use crate::common::{make, start_values, station};

/// What a replica does wrong.
#[derive(Clone, Copy, Debug, PartialEq, Eq)]
pub enum Fault {
    None,
    /// The *next* of an own out slot is not journaled.
    OwnNextUnjournaled,
    /// The *next* of another's out slot is not journaled.
    NextUnjournaled,
    /// A *next* of an out slot is journaled twice.
    NextTwice,
    /// 29 is tested before 17.
    OutBeforePast,
    /// 29 is tested behind 18.
    OutBehindFar,
    /// 29 is tested before 11.
    OutBeforeTurn,
    /// A work on an out slot waits for a block.
    OutAwaited,
    /// Behind the last slot there is one more, if it is out.
    PastTheEnd,
    /// The block given back is looked for by the last outage alone.
    LastOutageAlone,
    /// A *next* of an own out slot is given back.
    OwnNextGivenBack,
    /// A restart forgets the notices.
    NoticesForgotten,
    /// Back is taken whatever the turn is.
    BackAtAnyTurn,
    /// Out is taken whatever the turn is.
    OutAtAnyTurn,
    /// A notice whose slot is the turn is too late.
    AtTheTurn,
    /// Already out is one that is out at the turn.
    OutFromNowOn,
    /// A last Back at the turn is above it.
    BackIsAbove,
    /// Back does nothing.
    BackForgotten,
    /// Out is taken although a block behind it is placed.
    PlacedIgnored,
    /// Out of the replica itself is taken although its block is sent.
    SentIgnored,
    /// A slot that is out is sent for.
    SendsOut,
    /// Out of the replica itself ends what it has asked.
    DropsAsked,
}

/// What shows a fault in a group whose service does as it should.
#[derive(Clone, Copy, Debug, PartialEq, Eq)]
pub enum Shown {
    /// The agreement's sentences do not hold.
    Agreement,
    /// They do not speak any more: a premise does not hold, the disk being what the premise is about too.
    Premise,
    /// Nobody can go on.
    Stuck,
    /// A notice is refused at its slot, for ever.
    Stranded,
}

/// Each fault, and whether a group shows it. Where not, only the contracts of the calls forbid it: in which
/// order numbers come, what is behind the last slot, and 28 where a right service says nothing of the kind.
pub const FAULTS: [(Fault, bool); 21] = [
    (Fault::OwnNextUnjournaled, true),
    (Fault::NextUnjournaled, true),
    (Fault::NextTwice, true),
    (Fault::OutBeforePast, false),
    (Fault::OutBehindFar, false),
    (Fault::OutBeforeTurn, false),
    (Fault::OutAwaited, true),
    (Fault::PastTheEnd, false),
    (Fault::LastOutageAlone, true),
    (Fault::OwnNextGivenBack, true),
    (Fault::NoticesForgotten, true),
    (Fault::BackAtAnyTurn, true),
    (Fault::OutAtAnyTurn, true),
    (Fault::AtTheTurn, true),
    (Fault::OutFromNowOn, true),
    (Fault::BackIsAbove, true),
    (Fault::BackForgotten, true),
    (Fault::PlacedIgnored, false),
    (Fault::SentIgnored, false),
    (Fault::SendsOut, true),
    (Fault::DropsAsked, true),
];

const STYLE: Style = Style::new(6, 30, 15).with_notices(12);

/// What a run shows of a fault that all replicas of a group have, or only the first.
fn shown(fault: Fault, every: bool, seed: u64) -> Option<Shown> {
    let n = 2 + seed as u32 % 5;
    let member = |own| {
        let fault = if every || own == 0 {
            fault
        } else {
            Fault::None
        };
        Faulty::of(Machine::new(make(n, own)), fault)
    };
    let mut group = Group::new((0..n).map(member).collect(), STYLE);
    let mut random = Random::new(seed);
    for call in 0..1_000 {
        match random.below(60) {
            0 => group.random_cut(&mut random),
            1 => {
                group.bring_all();
                if group.moves() == Some(false) {
                    return Some(Shown::Stuck);
                }
            }
            _ => group.random_call(&mut random),
        }
        if call % 20 > 0 {
            continue;
        }
        if !group.stranded().is_empty() {
            return Some(Shown::Stranded);
        }
        if !group.observer.premise() {
            return Some(Shown::Premise);
        }
        if !group.violations().is_empty() {
            return Some(Shown::Agreement);
        }
    }
    None
}

#[test]
fn a_group_shows() {
    let mut ways = Vec::new();
    for (fault, due) in [(Fault::None, false)].into_iter().chain(FAULTS) {
        for every in [true, false] {
            let runs = if due { 200 } else { 20 };
            let found = (0..runs).find_map(|seed| shown(fault, every, seed));
            assert_eq!(found.is_some(), due, "{fault:?}, {every}: {found:?}");
            ways.extend(found.map(|found| (fault, found)));
        }
    }
    // What is left out of a journal is seen by the journal, and what is still awaited by nothing else.
    for way in [
        (Fault::OwnNextUnjournaled, Shown::Premise),
        (Fault::LastOutageAlone, Shown::Premise),
        (Fault::OutAwaited, Shown::Stuck),
        (Fault::BackIsAbove, Shown::Stranded),
        (Fault::DropsAsked, Shown::Agreement),
    ] {
        assert!(ways.contains(&way), "{way:?}: {ways:?}");
    }
}

/// Whether a replica or station with the fault differs from the model's in a random run among forged
/// peers, or in what it journals.
fn differs(fault: Fault, seed: u64) -> bool {
    let n = 2 + seed as u32 % 5;
    let own = seed as u32 / 5 % n;
    let late = if seed.is_multiple_of(4) {
        SLOTS - 40
    } else {
        0
    };
    let (made, mut peers) = match seed % 3 {
        0 => (station(n), Peers::of_station(n, Report::default())),
        _ => (make(n, own), Peers::new(n, own, Report::default())),
    };
    let mut right = Machine::new(made.fast_forward(late, 0));
    peers.tally.report = right.report();
    let mut wrong = Faulty::of(right.clone(), fault);
    let mut random = Random::new(seed);
    (0..800).any(|_| {
        let call = peers.random_call(&mut random, STYLE);
        let answer = right.call(&call);
        peers.feed(&call, &answer);
        wrong.call(&call) != answer
            || wrong.report() != right.report()
            || wrong.machine.disk != right.disk
    })
}

/// Whether machines differ in a restart behind a random run, or in some call after it.
fn differs_after_a_restart(fault: Fault, seed: u64) -> bool {
    let n = 2 + seed as u32 % 5;
    let own = seed as u32 / 5 % n;
    let mut right = Faulty::of(Machine::new(make(n, own)), Fault::None);
    let mut peers = Peers::new(n, own, right.report());
    let mut random = Random::new(seed);
    for _ in 0..200 {
        let call = peers.random_call(&mut random, STYLE);
        let answer = right.call(&call);
        peers.feed(&call, &answer);
    }
    let mut wrong = Faulty::of(right.machine.clone(), fault);
    let restart = Restart {
        n,
        own,
        values: start_values().to_vec(),
        journal: right.disk().to_vec(),
        notices: right.machine.replica.notices.clone(),
    };
    right.restart(&restart) != wrong.restart(&restart)
        || (0..4).any(|_| right.call(&Call::Work) != wrong.call(&Call::Work))
}

#[test]
fn the_comparison_finds_each() {
    let at_restart = [
        Fault::LastOutageAlone,
        Fault::OwnNextGivenBack,
        Fault::NoticesForgotten,
    ];
    assert!(!(0..60).any(|seed| differs(Fault::None, seed)));
    assert!(!(0..60).any(|seed| differs_after_a_restart(Fault::None, seed)));
    for (fault, _) in FAULTS {
        let found = match at_restart.contains(&fault) {
            true => (0..300).any(|seed| differs_after_a_restart(fault, seed)),
            false => (0..60).any(|seed| differs(fault, seed)),
        };
        assert!(found, "{fault:?}");
    }
}
