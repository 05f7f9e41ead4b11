//! Notices, givings and stations.

use super::*;
use crate::KEPT;

fn out(replica: u32, slot: u32) -> Notice {
    Notice::Out { replica, slot }
}

fn back(replica: u32, slot: u32) -> Notice {
    Notice::Back { replica, slot }
}

/// Replica 0 of two goes on alone for so many slots, each second one with a writeset.
fn alone(slots: u32) -> (Driver, Disk) {
    let (mut driver, disk) = replica(2, 0);
    driver.handle(Duration::ZERO, Input::Notice(out(1, 1)));
    driver.handle(Duration::ZERO, Input::Down(Peer::Replica(1)));
    for client in 0..u64::from(slots / 2) {
        set(&mut driver, client, &[client as u32 % 100]);
        driver.flush(Duration::ZERO);
    }
    assert_eq!(driver.digest().turn, slots);
    (driver, disk)
}

/// Two drivers that reach each other, for so many rounds of 10 milliseconds.
fn together(
    from: &mut Driver,
    from_peer: Peer,
    to: &mut Driver,
    to_peer: Peer,
    rounds: u32,
) -> Vec<String> {
    let mut words = Vec::new();
    from.handle(Duration::ZERO, Input::Up(to_peer));
    to.handle(Duration::ZERO, Input::Up(from_peer));
    for round in 1..=rounds {
        let now = from.now.max(to.now).max(round * 10 * MILLI) + MILLI;
        for forth in [true, false] {
            let (one, other, peer, from) = match forth {
                true => (&mut *from, &mut *to, to_peer, from_peer),
                false => (&mut *to, &mut *from, from_peer, to_peer),
            };
            let outputs = one.flush(now);
            words.extend(said(&outputs));
            let group = group(2).mark();
            for body in sent(&outputs, peer) {
                let frame = Frame { group, body };
                other.handle(now, Input::Frame { from, frame });
            }
        }
    }
    words
}

/// Within a window by a giving, further away from the journal; both at a replica and at a station.
#[test]
fn who_comes_back() {
    for slots in [20, KEPT as u32, KEPT as u32 + 2, 300] {
        let (mut first, _) = alone(slots);
        let disk = Disk::new();
        let (mut second, _) = disk.open(&group(2), 1, waits(), &[out(1, 1)]).unwrap();
        let (a, b) = (Peer::Replica(0), Peer::Replica(1));
        let words = together(&mut first, a, &mut second, b, 12);
        assert!(second.digest().turn >= slots, "{slots}: {words:?}");
        assert_eq!(first.contents(), second.contents());
        assert_eq!(second.stopped(), None);
        // What was given is in its journal.
        let turn = second.digest().turn;
        drop(second);
        let (second, reopened) = disk.open(&group(2), 1, waits(), &[]).unwrap();
        assert_eq!((reopened.blocks, second.digest().turn), (turn, turn));

        let mut station = Driver::station(&group(2), waits(), &[out(1, 1)]).unwrap();
        let (mut first, _) = alone(slots);
        together(&mut first, a, &mut station, Peer::Station(3), 12);
        assert_eq!(first.contents(), station.contents());
        let at = first.member.digest_at(station.digest().turn);
        assert_eq!(at, Some(station.digest()));
        let ticket = station.begin().unwrap();
        let error = station.write(ticket, 5, Some(1)).unwrap_err();
        assert_eq!(error.refusal(), Some(Refusal::StationOnlyReads));
        assert_eq!(station.ask(ticket, 1), Ok(crate::Asked::ReadOnly));
        set(&mut station, 2, &[5]);
        let told = told(&station.flush(Duration::from_secs(9)));
        assert_eq!(told[0], (1, Answer::ReadOnly { ticket }));
        assert!(matches!(
            told[1],
            (
                2,
                Answer::Refused(CallError::Refused(Refusal::StationOnlyReads))
            )
        ));
    }
}

/// An Out whose Back before is still ahead is taken on the way, as is what is said twice.
#[test]
fn notices_on_the_way() {
    let list = [out(1, 1), back(1, 20), out(1, 40)];
    let (mut first, _) = alone(18);
    let (mut station, now) = (
        Driver::station(&group(2), waits(), &list).unwrap(),
        Duration::ZERO,
    );
    assert_eq!(station.status().pending, [out(1, 40)]);
    for notice in list {
        station.handle(now, Input::Notice(notice));
    }
    assert_eq!(
        (station.notices(), station.status().pending.len()),
        (&list[..2], 1)
    );
    first.handle(now, Input::Notice(back(1, 20)));
    for _ in 0..3 {
        set(&mut first, 1, &[3]);
        first.flush(now);
    }
    assert_eq!(first.digest().turn, 21, "it waits for replica 1");
    first.handle(now, Input::Notice(out(1, 40)));
    let (a, b) = (Peer::Replica(0), Peer::Station(0));
    let words = together(&mut first, a, &mut station, b, 12);
    assert_eq!(station.notices(), list, "{words:?}");
    assert_eq!(station.digest(), first.digest());
}

/// A notice that cannot be taken is said; where it is about this replica or comes with the open, it is the end.
#[test]
fn notices_that_come_too_late() {
    let (mut first, disk) = alone(20);
    first.handle(Duration::ZERO, Input::Notice(back(1, 3)));
    let due = "Back 1 at 3 cannot be taken here: the notice does not fit the turn, the notices taken before or a \
               block that is here (28)";
    assert!(said(&first.flush(MILLI)).contains(&due.to_string()));
    assert_eq!(first.stopped(), None);
    first.handle(MILLI, Input::Notice(out(0, 3)));
    let outputs = first.flush(2 * MILLI);
    assert!(outputs
        .iter()
        .any(|output| matches!(output, Output::Say(event) if event.is_fatal())));
    assert!(first.stopped().is_some());
    drop(first);
    let (mut first, _) = disk
        .open(&group(2), 0, waits(), &[out(1, 1), back(1, 3)])
        .unwrap();
    assert_eq!(first.stopped(), Some(due));
    first.handle(MILLI, Input::Up(Peer::Replica(1)));
    let sends = |output: &Output| matches!(output, Output::Send { .. });
    assert!(
        !first.flush(MILLI).iter().any(sends),
        "it is to hand nothing out"
    );
}

/// One that cannot read what it is asked for says so, and goes on.
#[test]
fn a_journal_that_is_damaged() {
    let (mut first, disk) = alone(198);
    // An empty block behind the last writeset, then it waits.
    first.flush(MILLI);
    disk.damage(crate::HEAD as u64 + 5 * 512 + 20);
    let from = Peer::Replica(1);
    first.handle(MILLI, Input::Up(from));
    let frame = |from, to| Frame {
        group: group(2).mark(),
        body: Body::Ask { from, to },
    };
    first.flush(MILLI);
    first.handle(
        MILLI,
        Input::Frame {
            from,
            frame: frame(0, 200),
        },
    );
    let outputs = first.flush(MILLI);
    let due = "blocks that replica 1 asked for cannot be read: cannot read the journal simulated.journal: its block \
               5 is damaged";
    assert_eq!(said(&outputs), [due]);
    let none = Body::Blocks {
        from: 0,
        turn: 200,
        blocks: Vec::new(),
    };
    assert_eq!(sent(&outputs, from), [none]);
    // From behind it on, and what its turn has not left.
    for (slots, count) in [
        (6..200, 64),
        (136..200, 64),
        (199..300, 1),
        (200..300, 0),
        (9..5, 0),
    ] {
        first.handle(
            MILLI,
            Input::Frame {
                from,
                frame: frame(slots.start, slots.end),
            },
        );
        let outputs = first.flush(MILLI);
        let [Body::Blocks {
            from,
            turn: 200,
            blocks,
        }] = &sent(&outputs, from)[..]
        else {
            panic!("{outputs:?}");
        };
        assert_eq!((*from, blocks.len()), (slots.start, count));
        let due = |(block, slot): (&[u8; BLOCK], u32)| Block::read(block).unwrap().slot() == slot;
        assert!(blocks.iter().zip(slots).all(due));
    }
    assert_eq!(first.stopped(), None);
}
