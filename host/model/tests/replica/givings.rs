//! The choice of the giver and the giving (document 02, Req 11 and 12), by hand; at random in `giving_runs`.

use model::block::BLOCK;
use model::drive::{Gives, Group, Machine, Style, Subject, STYLES};
use model::giving::{give, giver, Given, DOWN};
use model::notice::Notice;
use model::replica::{Replica, SLOTS};
use model::trace::{Answer, Call};
use model::window::Window;

use crate::common::{ask, block_of, make, pass_to, start_values, station, take};

const STYLE: Style = STYLES[0];

#[test]
fn who_gives() {
    for (own, turns, due) in [
        (2, vec![3, 2, 9], Some(0)),
        (2, vec![2, 3, 9], Some(1)),
        // Ties go to the first behind the own number, upward and round.
        (0, vec![5, 3, 3, 3], Some(1)),
        (1, vec![3, 5, 3, 3], Some(2)),
        (2, vec![3, 3, 5, 3], Some(3)),
        (3, vec![3, 3, 3, 5], Some(0)),
        (3, vec![2, 3, 3, 5], Some(1)),
        (1, vec![3, 5, 2, 3], Some(3)),
        (2, vec![3, 3, 5, 2], Some(0)),
        (2, vec![3, 3, 5, DOWN], Some(0)),
        // The own entry is not looked at, whatever it says.
        (1, vec![0, DOWN], Some(0)),
        (1, vec![0, DOWN - 1], Some(0)),
        (0, vec![7, 0], Some(1)),
        // Who is down does not give, and has not the highest turn.
        (0, vec![0, DOWN, 1, DOWN], Some(2)),
        (2, vec![DOWN, DOWN, 1], None),
        (0, vec![DOWN, DOWN], None),
        (0, vec![DOWN - 1, DOWN - 1], Some(1)),
        (5, vec![4, 8, 8, 2, DOWN, 8], Some(1)),
        (1, vec![8, 8, 4, 2, DOWN, 8], Some(5)),
    ] {
        assert_eq!(giver(own, &turns), due, "{own}, {turns:?}");
        let n = turns.len() as u32;
        assert_eq!(make(n, own.into()).giver(&turns), due.ok_or(30));
    }
}

/// Where all stand level, each gives to one: the one before it.
#[test]
fn each_gives_once() {
    for n in 2..=6u8 {
        let due = (1..n).chain([0]).map(Some);
        let givers = (0..n).map(|own| giver(own, &vec![7; n.into()]));
        assert!(givers.eq(due), "{n}");
    }
}

/// That a giving is refused, and changes nothing.
fn refuses(replica: &mut Replica, turns: &[u32], window: &Window, number: u8) {
    let before = replica.clone();
    let given = give(replica, turns, window);
    assert_eq!((given.number, given.calls.len()), (number, 0), "{turns:?}");
    assert_eq!(given.aborted, []);
    let named = (number == 31).then(|| giver(replica.own.unwrap(), turns).unwrap());
    assert_eq!(given.giver, named);
    assert_eq!(*replica, before);
}

/// 25 before 1 before 30 before 31.
#[test]
fn what_refuses_it() {
    let none = Window::empty(0);
    let mut at_station = station(3);
    let before = at_station.clone();
    for turns in [&[DOWN; 3][..], &[4; 2], &[4; 3]] {
        let given = give(&mut at_station, turns, &none);
        assert_eq!((given.number, given.giver), (25, None));
        assert_eq!(at_station.giver(turns), Err(25));
    }
    assert_eq!(at_station, before);
    let mut replica = make(3, 1);
    for turns in [&[][..], &[DOWN; 2], &[4; 4]] {
        refuses(&mut replica, turns, &none, 1);
        assert_eq!(replica.giver(turns), Err(1));
    }
    refuses(&mut replica, &[DOWN, 4, DOWN], &none, 30);
    refuses(&mut replica, &[1, 4, DOWN], &none, 31);
}

/// Blocks without records of slots.
fn blocks(n: u32, slots: std::ops::Range<u32>) -> Window {
    Window::of(slots.start, slots.map(|slot| block_of(n, slot, &[])))
}

/// By the ends of the range, before anything is delivered, and in no time; slots in place and out ones count.
#[test]
fn what_a_window_lacks() {
    let mut replica = make(3, 2).fast_forward(9, 0);
    let told = |turn| [turn, DOWN, DOWN];
    for window in [
        blocks(3, 10..20),
        blocks(3, 0..19),
        blocks(3, 9..12),
        Window::empty(9),
    ] {
        refuses(&mut replica, &told(20), &window, 31);
    }
    let window = blocks(3, 0..11);
    for turn in [12, 74, SLOTS, SLOTS + 1, DOWN - 1] {
        refuses(&mut replica, &told(turn), &window, 31);
    }
    // Slot 9 is in place, or out.
    let late = blocks(3, 10..11);
    let mut placed = replica.clone();
    placed.deliver(&block_of(3, 9, &[])).unwrap();
    refuses(&mut placed, &told(11), &late, 31);
    let mut out = replica.clone();
    out.notice(Notice::out(0, 9)).unwrap();
    refuses(&mut out, &told(11), &late, 31);
    for mut replica in [replica, placed, out] {
        assert_eq!(give(&mut replica, &told(11), &window).number, 0);
        assert_eq!(replica.turn, 11);
    }
}

/// Level or ahead: nothing is given, and no window is looked at.
#[test]
fn nothing_is_given() {
    let mut replica = make(2, 0).fast_forward(10, 0);
    ask(&mut replica, &[(5, 1)]);
    let before = replica.clone();
    for turn in [10, 9, 0] {
        let given = give(&mut replica, &[DOWN, turn], &Window::empty(0));
        let due = Given {
            giver: Some(1),
            ..Given::default()
        };
        assert_eq!(given, due);
    }
    assert_eq!(replica, before);
}

/// A work for each writeset; the tickets of all of them in rising order.
#[test]
fn tickets() {
    let mut replica = make(2, 1);
    for item in [5, 6, 7] {
        let ticket = replica.begin().unwrap();
        replica.write(ticket, item, 1).unwrap();
    }
    replica.ask(2).unwrap();
    let block = block_of(
        2,
        0,
        &[(4, &[(7, 70)]), (5, &[(9, 90)]), (6, &[(5, 50), (6, 60)])],
    );
    let given = give(&mut replica, &[1, DOWN], &Window::of(0, [block]));
    assert_eq!((given.number, given.giver), (0, Some(0)));
    assert_eq!(given.aborted, [1, 2, 3]);
    let aborted = |answer: &Result<Answer, u8>| match answer {
        Ok(Answer::Work(work)) => work.aborted.clone(),
        _ => Vec::new(),
    };
    let steps: Vec<(bool, Vec<u32>)> = given
        .calls
        .iter()
        .map(|(call, answer)| (*call == Call::Work, aborted(answer)))
        .collect();
    let due = [
        (false, vec![]),
        (true, vec![3]),
        (true, vec![]),
        (true, vec![1, 2]),
    ];
    assert_eq!(steps, due);
    assert_eq!((replica.turn, replica.commits, replica.aborted), (1, 3, 3));
}

/// A block in place is not delivered again, be it half applied; what is in place behind it neither.
#[test]
fn in_place() {
    let [first, second] = [0, 1].map(|slot| {
        let item = slot as u8;
        block_of(3, slot, &[(1, &[(item, 1)]), (2, &[(item + 5, 2)])])
    });
    let window = Window::of(0, [first, second]);
    let mut replica = make(3, 2);
    replica.deliver(&second).unwrap();
    replica.deliver(&first).unwrap();
    replica.work().unwrap();
    assert!(replica.applying);
    let given = give(&mut replica, &[0, 2, 0], &window);
    assert_eq!(given.number, 0);
    assert!(given.calls.iter().all(|(call, _)| *call == Call::Work));
    assert_eq!(given.calls.len(), 3);
    assert_eq!((replica.turn, replica.commits), (2, 4));
    // It need not be the block of the window.
    let mut other = make(3, 2);
    other.deliver(&block_of(3, 0, &[(9, &[(5, 5)])])).unwrap();
    let given = give(&mut other, &[1, 0, 0], &window);
    assert_eq!((given.number, given.calls.len()), (0, 1));
    assert_eq!(other.values[5], 5);
}

/// Out slots are passed by one work each, own ones too, and get their *next* in journal and window.
#[test]
fn out_slots() {
    let mut returner = Machine::new(make(3, 1));
    for notice in [Notice::out(1, 0), Notice::out(2, 2), Notice::back(2, 5)] {
        returner.call(&Call::Notice(notice)).unwrap();
    }
    let window = blocks(3, 0..6);
    let given = returner.give(&[6, 0, 0], &window);
    assert_eq!(given.number, 0);
    let delivered = given.calls.iter().filter(|(call, _)| *call != Call::Work);
    let slots: Vec<u8> = delivered
        .map(|(call, _)| match call {
            Call::Deliver { bytes } => bytes[4],
            other => panic!("{other:?}"),
        })
        .collect();
    assert_eq!(slots, [0, 3, 5]);
    assert_eq!(given.calls.len(), 9);
    assert_eq!(
        returner.disk,
        window.blocks().flatten().copied().collect::<Vec<u8>>()
    );
    assert_eq!(returner.window(), window);
    // Behind the last out slot, 4, one block may be lost.
    assert_eq!(returner.floor, 5 * BLOCK);
}

/// The returner's own block: one that it sent for its turn it takes, and another is refused by 19.
#[test]
fn own_blocks() {
    let mut replica = make(2, 0);
    ask(&mut replica, &[(5, 50)]);
    let sent = replica.send().unwrap();
    let window = Window::of(0, [sent, block_of(2, 1, &[])]);
    let mut other = replica.clone();
    let given = give(&mut replica, &[0, 2], &window);
    assert_eq!((given.number, given.aborted.len()), (0, 0));
    assert_eq!(
        (replica.turn, replica.committed, replica.open.len()),
        (2, 1, 0)
    );
    let forged = Window::of(0, [block_of(2, 0, &[]), block_of(2, 1, &[])]);
    let given = give(&mut other, &[0, 2], &forged);
    assert_eq!((given.number, given.giver), (19, Some(1)));
    assert_eq!(other.turn, 0);
}

/// What refuses a deliver ends it, and names the giver and the tickets; what went before stands.
#[test]
fn ended() {
    let mut replica = make(3, 2);
    let ticket = replica.begin().unwrap();
    replica.write(ticket, 5, 1).unwrap();
    let good = block_of(3, 0, &[(1, &[(5, 50)])]);
    let mut bad = block_of(3, 1, &[]);
    bad[100] = 1;
    let wrong = [
        (bad, 14),
        (block_of(2, 1, &[]), 16),
        (block_of(3, 0, &[]), 17),
        (block_of(3, 300, &[]), 18),
        (block_of(3, 2, &[]), 19),
    ];
    for (block, number) in wrong {
        let window = Window::of(0, [good, block, block_of(3, 2, &[])]);
        let mut returner = replica.clone();
        let given = give(&mut returner, &[3, 0, 0], &window);
        assert_eq!((given.number, given.giver), (number, Some(0)));
        assert_eq!(given.aborted, [ticket]);
        assert_eq!((returner.turn, returner.commits), (1, 1), "{number}");
        let (last, answer) = given.calls.last().unwrap();
        assert_eq!((last != &Call::Work, answer), (true, &Err(number)));
    }
    // No window has this: the block is taken, and is of another slot.
    let window = Window::of(0, [block_of(3, 1, &[])]);
    let given = give(&mut replica, &[1, 0, 0], &window);
    assert_eq!((given.number, given.calls.len()), (21, 2));
}

/// A giving leaves what its calls leave, one by one: memory, journal, floor.
#[test]
fn as_single_calls() {
    let mut giver = make(3, 0);
    pass_to(&mut giver, 3, 0, 7);
    let mut returner = Machine::new(make(3, 1));
    returner.call(&Call::Notice(Notice::out(1, 0))).unwrap();
    ask(&mut returner.replica, &[(5, 1)]);
    let mut single = returner.clone();
    let given = returner.give(&[7, 0, DOWN], &giver.window);
    for (call, answer) in &given.calls {
        assert_eq!(single.call(call), *answer);
    }
    assert_eq!(given.number, 0);
    assert_eq!(returner, single);
    assert_eq!(returner.disk.len(), 7 * BLOCK);
}

/// The values that the giver had when it came to its turn, and not those that it has.
#[test]
fn in_the_middle_of_a_slot() {
    let members = (0..3).map(|own| Machine::new(make(3, own)));
    let mut group = Group::new(members.collect(), STYLE);
    for item in [5, 6] {
        let begun = group.call(1, &Call::Begin);
        let Ok(Answer::Ticket(ticket)) = begun else {
            panic!("{begun:?}");
        };
        let value = 40;
        let write = Call::Write {
            ticket,
            item,
            value,
        };
        group.call(1, &write).unwrap();
        group.call(1, &Call::Ask { ticket }).unwrap();
    }
    for sender in [0, 1] {
        let Ok(Answer::Block(block)) = group.call(sender, &Call::Send) else {
            panic!("it is the turn of {sender}");
        };
        for k in [0, 1] {
            let bytes = block.to_vec();
            group.call(k, &Call::Deliver { bytes }).unwrap();
            group.call(k, &Call::Work).unwrap();
        }
    }
    let given = group.give(2, &[1, 1, 0]);
    assert_eq!((given.number, given.giver), (0, Some(0)));
    assert_eq!(group.members[2].report().turn, 1);
    assert_eq!(group.members[2].values(), start_values());
    assert_ne!(group.members[0].values(), start_values());
    assert_eq!(group.givings.broken(), [""; 0]);
    assert_eq!(
        (group.givings.promised, group.givings.giver_half_done),
        (1, 1)
    );
}

/// Without the same notices: a *next* that nobody handed out is taken, and the premise does not hold.
#[test]
fn other_notices() {
    let members = (0..3).map(|own| Machine::new(make(3, own)));
    let mut group = Group::new(members.collect(), STYLE);
    group.call(0, &Call::Notice(Notice::out(2, 2))).unwrap();
    for sender in [0, 1] {
        let Ok(Answer::Block(block)) = group.call(sender, &Call::Send) else {
            panic!("it is the turn of {sender}");
        };
        for k in [0, 1] {
            let bytes = block.to_vec();
            group.call(k, &Call::Deliver { bytes }).unwrap();
            group.call(k, &Call::Work).unwrap();
        }
    }
    group.call(0, &Call::Work).unwrap();
    assert!(group.observer.premise());
    // Replica 2 has not sent it.
    let given = group.give(2, &[3, DOWN, 0]);
    assert_eq!((given.number, given.giver), (19, Some(0)));
    assert!(group.observer.premise());
    let given = group.give(1, &[3, 0, DOWN]);
    assert_eq!((given.number, given.giver), (0, Some(0)));
    assert!(!group.observer.premise());
    assert_eq!((group.givings.promised, group.givings.ended), (0, 1));
    assert_eq!(group.givings.broken(), [""; 0]);
}

/// One slot is a deliver and its works.
#[test]
fn a_take_of_one_slot() {
    let mut replica = make(2, 1);
    let block = block_of(2, 0, &[]);
    let mut by_hand = replica.clone();
    take(&mut by_hand, &block);
    give(&mut replica, &[1, 0], &Window::of(0, [block]));
    assert_eq!(replica, by_hand);
}
