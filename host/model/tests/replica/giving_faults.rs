//! Replicas that are wrong about windows and givings (document 02, Req 11 and 12) and look finished. Each differs from
//! the model in some giving; and a group with a membership service shows each, but where turns told wrongly are
//! what it takes.

mod faulty;

use model::drive::{Gives, Group, Machine, Peers, Style, Subject};
use model::samples::Random;

pub use self::faulty::Faulty;
use crate::common::make;

/// What a replica does wrong.
#[derive(Clone, Copy, Debug, PartialEq, Eq)]
pub enum Fault {
    None,
    /// Own blocks are not in the window.
    OwnNotKept,
    /// Others' blocks are not in the window.
    OthersNotKept,
    /// The *next* of out slots is not in the window.
    OutNotKept,
    /// A restart leaves the window empty.
    NotRefilled,
    /// A restart fills the window with the first blocks of the journal.
    FirstRefilled,
    /// The window has 63 blocks.
    OneLess,
    /// The window has 65 blocks.
    OneMore,
    /// The block at the turn is in the window before the turn has left it.
    KeptOnArrival,
    /// 31 is found slot by slot, while blocks are delivered.
    LackFoundLate,
    /// Slots whose block is in place are left out of 31's test.
    InPlaceSpared,
    /// Out slots are left out of it.
    OutSpared,
    /// The last slot is left out of it.
    LastSpared,
    /// 31 is answered also where nothing is to be given, and the window has not the turn's slot.
    LackingWhenLevel,
    /// One work for each slot.
    OneWork,
    /// A block in place is delivered once more.
    InPlaceDelivered,
    /// A block is delivered for an out slot.
    OutDelivered,
    /// Slots are delivered first, all of them, and then worked.
    DeliversFirst,
    /// Tickets come in the order aborted.
    AsAborted,
    /// Only the tickets of the last work that aborted some are named.
    LastAborted,
    /// A refused deliver is passed over.
    RefusalPassed,
    /// A refused deliver takes back what went before.
    TakenBack,
    /// The own entry is counted.
    OwnCounted,
    /// Who is down has the highest turn.
    DownCounted,
    /// Ties go to the lowest number, as before Req 12.
    TiesToLowest,
    /// Ties go to the highest number.
    TiesToHighest,
    /// Ties go to the first before the own number: counted downward.
    TiesDownward,
    /// Ties go upward from the own number, and not round: else to the last before it.
    TiesNotRound,
    /// The lowest number gives that is up.
    LowestGives,
    /// The giver's turn is taken from its window, and not as it was told.
    TrueTurn,
}

/// All faults.
pub const FAULTS: [Fault; 29] = [
    Fault::OwnNotKept,
    Fault::OthersNotKept,
    Fault::OutNotKept,
    Fault::NotRefilled,
    Fault::FirstRefilled,
    Fault::OneLess,
    Fault::OneMore,
    Fault::KeptOnArrival,
    Fault::LackFoundLate,
    Fault::InPlaceSpared,
    Fault::OutSpared,
    Fault::LastSpared,
    Fault::LackingWhenLevel,
    Fault::OneWork,
    Fault::InPlaceDelivered,
    Fault::OutDelivered,
    Fault::DeliversFirst,
    Fault::AsAborted,
    Fault::LastAborted,
    Fault::RefusalPassed,
    Fault::TakenBack,
    Fault::OwnCounted,
    Fault::DownCounted,
    Fault::TiesToLowest,
    Fault::TiesToHighest,
    Fault::TiesDownward,
    Fault::TiesNotRound,
    Fault::LowestGives,
    Fault::TrueTurn,
];

/// Those of the window: a giving with a right returner tells them, and one without another's window does not.
const OF_WINDOWS: [Fault; 8] = [
    Fault::OwnNotKept,
    Fault::OthersNotKept,
    Fault::OutNotKept,
    Fault::NotRefilled,
    Fault::FirstRefilled,
    Fault::OneLess,
    Fault::OneMore,
    Fault::KeptOnArrival,
];

/// Whether some of so many runs tells a fault that all replicas of a group have, or only one.
fn told(fault: Fault, every: bool, runs: u64, tells: fn(&Group<Faulty>) -> bool) -> bool {
    (0..runs).any(|seed| {
        let n = 2 + seed as u32 % 5;
        let member = |own| match every || own == seed as u32 / 5 % n {
            true => Faulty::of(Machine::new(make(n, own)), fault),
            false => Faulty::of(Machine::new(make(n, own)), Fault::None),
        };
        let style = Style::new(6, 40, 20).with_notices(5);
        let mut group = Group::new((0..n).map(member).collect(), style);
        let mut random = Random::new(seed);
        (0..150).any(|_| {
            (0..10).for_each(|_| step(&mut group, &mut random));
            tells(&group)
        })
    })
}

fn step(group: &mut Group<Faulty>, random: &mut Random) {
    match random.below(100) {
        0..5 => group.random_giving(random),
        5 => {
            let slots = random.pick(&[10, 62, 63, 64, 65, 66]);
            group.holiday(random.below(group.members.len()), slots);
            group.random_giving(random);
        }
        6 => group.random_cut(random),
        7 => drop(group.random_cut_giving(random)),
        _ => group.random_call(random),
    }
}

/// A giving is not what it is by the sheet, or does not lead where it should. A right service and right windows refuse no deliver, so that a group
/// does not tell what becomes of a refusal.
#[test]
fn a_giving_tells() {
    let tells = |group: &Group<Faulty>| !group.givings.broken().is_empty();
    let untold = [Fault::None, Fault::RefusalPassed, Fault::TakenBack];
    for fault in [Fault::None].into_iter().chain(FAULTS) {
        let due = !untold.contains(&fault);
        let runs = if due { 1000 } else { 10 };
        for every in [true, false] {
            assert_eq!(told(fault, every, runs, tells), due, "{fault:?}, {every}");
        }
    }
}

/// It does not lead where it should. Of the others only the answer of the call says what is right: the
/// numbers and their order, the tickets', and what is done where a turn is not told truly.
#[test]
fn the_promise_tells() {
    let tells = |group: &Group<Faulty>| !group.givings.unkept().is_empty();
    let due = [
        Fault::OwnNotKept,
        Fault::OthersNotKept,
        Fault::OutNotKept,
        Fault::NotRefilled,
        Fault::FirstRefilled,
        Fault::OneLess,
        Fault::LackingWhenLevel,
        Fault::OneWork,
        Fault::InPlaceDelivered,
        Fault::OutDelivered,
        Fault::DeliversFirst,
        Fault::OwnCounted,
        Fault::DownCounted,
        Fault::LowestGives,
    ];
    for fault in [Fault::None].into_iter().chain(FAULTS) {
        let due = due.contains(&fault);
        let runs = if due { 300 } else { 5 };
        assert_eq!(told(fault, true, runs, tells), due, "{fault:?}");
    }
}

#[test]
fn the_windows_tell() {
    let tells = |group: &Group<Faulty>| !group.wrong_windows().is_empty();
    assert!(!told(Fault::None, true, 10, tells));
    for fault in OF_WINDOWS {
        assert!(told(fault, true, 300, tells), "{fault:?}");
    }
}

/// Whether a replica with the fault differs from the model's in a giving of a random run among forged peers.
fn differs(fault: Fault, seed: u64) -> bool {
    let n = 2 + seed as u32 % 5;
    let own = seed as u32 / 5 % n;
    let mut right = Machine::new(make(n, own));
    let mut peers = Peers::new(n, own, right.report());
    let mut wrong = Faulty::of(right.clone(), fault);
    let mut random = Random::new(seed);
    let style = Style::new(8, 40, 5).with_notices(12);
    (0..600).any(|_| {
        if random.below(8) > 0 {
            let call = peers.random_call(&mut random, style);
            let answer = right.call(&call);
            peers.feed(&call, &answer);
            return wrong.call(&call) != answer;
        }
        let (turns, window) = peers.random_giving(&mut random, style);
        let given = right.give(&turns, &window);
        for (call, answer) in &given.calls {
            peers.feed(call, answer);
        }
        wrong.give(&turns, &window) != given || wrong.machine != right
    })
}

#[test]
fn the_comparison_finds_each() {
    assert!(!(0..60).any(|seed| differs(Fault::None, seed)));
    for fault in FAULTS {
        let found = (0..100).any(|seed| differs(fault, seed));
        assert_eq!(found, !OF_WINDOWS.contains(&fault), "{fault:?}");
    }
}
