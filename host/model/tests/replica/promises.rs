//! Document 02's Req 06 with the notices of Req 10: how long an ask may wait, and when some replica can go
//! on. Here by hand, and for replicas that break it; at random in `notice_runs`.

use model::drive::{Group, Machine, Style, STYLES};
use model::notice::Notice;
use model::samples::Random;
use model::trace::{Answer, Call};

use crate::common::{make, start_values};
use crate::history::{Fault, Historical};

const STYLE: Style = STYLES[0];

fn group(n: u32) -> Group<Machine> {
    let members = (0..n).map(|own| Machine::new(make(n, own)));
    Group::new(members.collect(), STYLE)
}

/// All these take a notice.
fn takes(group: &mut Group<Machine>, members: &[usize], notice: Notice) {
    for &k in members {
        assert_eq!(group.call(k, &Call::Notice(notice)), Ok(Answer::Done));
    }
}

/// A block is sent, and worked off by these.
fn slot(group: &mut Group<Machine>, sender: usize, members: &[usize]) {
    let Ok(Answer::Block(block)) = group.call(sender, &Call::Send) else {
        panic!("replica {sender} is not at a slot of its own");
    };
    for &k in members {
        let bytes = block.to_vec();
        assert_eq!(group.call(k, &Call::Deliver { bytes }), Ok(Answer::Done));
        while group.call(k, &Call::Work).is_ok() {}
    }
}

/// Its slot 1 is out: what it asks at turn 0 is open at turn 3, above turn + N, and has ended when its turn is
/// above slot 3.
#[test]
fn turn_plus_n_alone_is_false() {
    let mut group = group(2);
    takes(&mut group, &[0, 1], Notice::out(1, 1));
    takes(&mut group, &[0, 1], Notice::back(1, 3));
    let write = Call::Write {
        ticket: 1,
        item: 5,
        value: 40,
    };
    for call in [Call::Begin, write, Call::Ask { ticket: 1 }] {
        group.call(1, &call).unwrap();
    }
    slot(&mut group, 0, &[0, 1]);
    slot(&mut group, 0, &[0, 1]);
    assert_eq!(
        (group.tallies[1].report.turn, &group.tallies[1].open[..]),
        (3, &[1][..])
    );
    slot(&mut group, 1, &[0, 1]);
    assert_eq!(
        (group.tallies[1].report.turn, &group.tallies[1].open[..]),
        (4, &[][..])
    );
    assert_eq!(group.waited_too_long(), [""; 0]);
    assert_eq!(group.violations(), [""; 0]);
}

/// Replicas that do not send what is asked.
#[test]
fn what_waits_too_long() {
    let waited = |fault| {
        let members = (0..3).map(|own| Historical::make(3, Some(own), start_values(), fault));
        let mut group = Group::new(members.collect(), STYLE.with_notices(5));
        let mut random = Random::new(1);
        for _ in 0..3_000 {
            group.random_call(&mut random);
        }
        assert!(group.seen.passed_out > 10);
        group.waited_too_long().first().cloned()
    };
    assert_eq!(waited(Fault::None), None);
    let text = waited(Fault::AlwaysNext).unwrap();
    assert!(text.contains("is open after its slot"), "{text}");
}

/// What replicas 0 to n - 1 answer to a work and a send.
fn answers(group: &mut Group<Machine>, n: usize) -> Vec<(Option<u8>, Option<u8>)> {
    let mut number = |k, call| group.call(k, &call).err();
    (0..n)
        .map(|k| (number(k, Call::Work), number(k, Call::Send)))
        .collect()
}

/// Three replicas that are up, every block given, and one lacks a notice: nobody can go on, and nobody said
/// that one could. Once it takes the notice, it can.
#[test]
fn the_same_notices() {
    let mut group = group(3);
    takes(&mut group, &[1, 2], Notice::out(2, 2));
    slot(&mut group, 0, &[0, 1, 2]);
    slot(&mut group, 1, &[0, 1, 2]);
    group.bring_all();
    assert_eq!(answers(&mut group, 3), [(Some(21), Some(11)); 3]);
    assert!(group.observer.premise());
    assert_eq!(group.moves(), None);
    takes(&mut group, &[0], Notice::out(2, 2));
    assert_eq!(group.moves(), Some(true));
}

/// A closed replica is waited for until it is out, and its slots before that have blocks.
#[test]
fn closed_and_out() {
    let mut group = group(3);
    slot(&mut group, 0, &[0, 1, 2]);
    assert!(group.close(2));
    let [out] = group.said(2) else {
        panic!("{:?}", group.said(2))
    };
    assert_eq!(*out, Notice::out(2, 1));
    // The others do not know it yet.
    assert_eq!(group.moves(), None);
    group.bring_all();
    assert_eq!(group.tallies[0].notices, [Notice::out(2, 1)]);
    slot(&mut group, 1, &[0, 1]);
    // Slot 2 was passed as out: the works of the last slot went on.
    assert_eq!(group.tallies[0].report.turn, 3);
    assert_eq!(group.moves(), Some(true));
    // Only one would be left that sends, and it is not closed, nor said to be out.
    assert!(group.close(1));
    assert!(!group.close(0) && !group.say_next(0, 0));
    assert_eq!(group.open_replicas(), [0]);
}

/// A closed replica that is out from a slot ahead, and has one before that for which it sent nothing.
#[test]
fn closed_and_awaited() {
    let mut group = group(2);
    assert!(group.say_next(1, 2));
    assert_eq!(group.said(1), [Notice::out(1, 2)]);
    assert!(group.close(1));
    group.bring_all();
    slot(&mut group, 0, &[0]);
    assert_eq!(answers(&mut group, 1), [(Some(21), Some(11))]);
    assert_eq!(group.moves(), None);
}

/// Blocks that are refused by 18 are not given: one that comes back is behind by more than its places.
#[test]
fn too_far_is_not_given() {
    let mut group = group(2);
    takes(&mut group, &[0, 1], Notice::out(1, 1));
    for _ in 0..3 {
        slot(&mut group, 0, &[0]);
    }
    // Of slots 0, 2 and 4 replica 1 has places for one more each time.
    for left in [2, 1] {
        let before = group.seen.far_at_replicas;
        group.bring_all();
        assert_eq!(group.seen.far_at_replicas - before, left);
        assert_eq!(group.moves(), None);
        while group.call(1, &Call::Work).is_ok() {}
    }
    group.bring_all();
    assert_eq!(group.moves(), Some(true));
}

/// Nor is one that is refused by 29, because it came before the Back was taken.
#[test]
fn out_is_not_given() {
    let mut group = group(2);
    takes(&mut group, &[0, 1], Notice::out(1, 1));
    slot(&mut group, 0, &[0, 1]);
    takes(&mut group, &[1], Notice::back(1, 3));
    slot(&mut group, 0, &[1]);
    // Replica 0 is at slot 2 still, its own.
    slot(&mut group, 1, &[1]);
    group.bring_all();
    assert_eq!(group.seen.refused[29], 1);
    takes(&mut group, &[0], Notice::back(1, 3));
    assert_eq!(group.moves(), None);
    group.bring_all();
    assert_eq!(group.moves(), Some(true));
    assert_eq!(group.violations(), [""; 0]);
    assert!(group.observer.premise());
}
