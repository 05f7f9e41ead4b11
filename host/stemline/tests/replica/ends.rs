//! Makes; and states that no list of calls leads to, or none of reasonable length: the last ticket,
//! the last slot, and an own writeset whose transaction is not open as sent.

use model::block::MAX_TICKET;
use model::drive::{start_values, Subject};
use model::replica::{self as second, Stage, SLOTS};
use model::samples::block_of;
use model::trace::{Answer, Call};
use stemline::{Replica, Station};

use crate::both::{same, Both};
use crate::lent::Lent;

/// Every N and own number, in range or not; and a make on a memory that was used before, which
/// keeps everything where it is refused, the counts too.
#[test]
fn makes() {
    let values = start_values();
    let mut used = Lent::of(with_own_block().library.memory());
    (used.turn.sent, used.turn.applying) = (255, 2);
    used.classes.fill(3);
    for n in (0..10).chain([256, 258, 1 << 31, u32::MAX]) {
        for own in (0..10).chain([256, 1 << 31, u32::MAX]) {
            let model = second::Replica::make(n, own, &values);
            let library = Replica::new(n, own, &values);
            let before = Lent {
                n,
                own,
                ..used.clone()
            };
            let mut again = before.clone();
            let (number, _) = again.call("make");
            match (library, model) {
                (Ok(library), Ok(model)) => {
                    same(&model, library.memory());
                    let made = Lent {
                        n,
                        own,
                        ..Lent::of(library.memory())
                    };
                    // The places of the used one are for two; 1 stands before 2.
                    let due = if n == 2 { (0, made) } else { (1, before) };
                    assert!((number, again) == due, "{n}, {own}");
                }
                (Err(refusal), Err(due)) => {
                    assert_eq!(refusal.number(), due);
                    let due = if (3..=6).contains(&n) { 1 } else { 2 };
                    assert!(number == due && again == before, "{n}, {own}");
                }
                _ => panic!("{n}, {own}: one is refused"),
            }
        }
    }
}

/// Stations the same, which are given no number.
#[test]
fn makes_of_stations() {
    let values = start_values();
    let used = Lent::of(with_own_block().library.memory());
    for n in (0..10).chain([256, 258, 1 << 31, u32::MAX]) {
        let model = second::Replica::station(n, &values);
        let library = Station::new(n, &values);
        let before = Lent { n, ..used.clone() };
        let mut again = before.clone();
        let (number, _) = again.call("make_station");
        match (library, model) {
            (Ok(library), Ok(model)) => {
                same(&model, library.memory());
                let made = Lent {
                    n,
                    ..Lent::of(library.memory())
                };
                let due = if n == 2 { (0, made) } else { (1, before) };
                assert!((number, again) == due, "{n}");
            }
            (Err(refusal), Err(due)) => {
                assert_eq!(refusal.number(), due);
                assert!(number == 2 && again == before, "{n}");
            }
            _ => panic!("{n}: one is refused"),
        }
    }
}

#[test]
fn the_last_tickets() {
    let mut both = Both::new(3, 1, &start_values()).late(0, MAX_TICKET - 2);
    for ticket in [MAX_TICKET - 1, MAX_TICKET] {
        assert_eq!(both.call(&Call::Begin), Ok(Answer::Ticket(ticket)));
    }
    assert_eq!(both.call(&Call::Begin), Err(6));
    // With six open it is 5: that stands first.
    let mut both = Both::new(3, 1, &start_values()).late(0, MAX_TICKET - 6);
    for _ in 0..6 {
        assert!(both.call(&Call::Begin).is_ok());
    }
    assert_eq!(both.call(&Call::Begin), Err(5));
    let ticket = MAX_TICKET;
    assert_eq!(both.call(&Call::Withdraw { ticket }), Ok(Answer::Done));
    assert_eq!(both.call(&Call::Begin), Err(6));
}

#[test]
fn the_last_slots() {
    for n in 2..=6 {
        let last = SLOTS - 1;
        let mut both = Both::new(n, last % n, &start_values()).late(last, 0);
        let Ok(Answer::Block(block)) = both.call(&Call::Send) else {
            panic!("the last slot is not sent");
        };
        let bytes = block.to_vec();
        let deliver = Call::Deliver { bytes };
        assert_eq!(both.call(&deliver), Ok(Answer::Done));
        assert!(both.call(&Call::Work).is_ok());
        assert_eq!(both.report().turn, SLOTS);
        assert_eq!(both.call(&Call::Send), Err(13));
        assert_eq!(both.call(&deliver), Err(17));
        assert_eq!(both.call(&Call::Work), Err(21));
        assert_eq!(both.call(&Call::Begin), Ok(Answer::Ticket(1)));
    }
}

/// A replica 0 of 2 with its own block of six writesets back at its place.
pub fn with_own_block() -> Both {
    let mut both = Both::new(2, 0, &start_values());
    for ticket in 1..=6 {
        both.call(&Call::Begin).unwrap();
        for item in [2 * ticket, 100 + ticket] {
            let value = 7;
            let write = Call::Write {
                ticket,
                item,
                value,
            };
            both.call(&write).unwrap();
        }
        both.call(&Call::Ask { ticket }).unwrap();
    }
    let Ok(Answer::Block(block)) = both.call(&Call::Send) else {
        panic!("nothing is sent");
    };
    let bytes = block.to_vec();
    both.call(&Call::Deliver { bytes }).unwrap();
    both
}

/// A sent transaction and a block of another at the turn, which no list of calls leads to: the
/// writeset spares it.
#[test]
fn sent_is_beyond_reach() {
    let mut both = Both::new(2, 1, &start_values());
    for (ticket, item) in [(1, 5), (2, 6), (3, 7)] {
        both.call(&Call::Begin).unwrap();
        let value = 1;
        let write = Call::Write {
            ticket,
            item,
            value,
        };
        both.call(&write).unwrap();
    }
    both.call(&Call::Ask { ticket: 2 }).unwrap();
    let mut memory = both.library.memory().clone();
    memory.table[2].stage = 2;
    both.model.open[2].stage = Stage::Sent;
    let mut both = Both::of(Replica::from_memory(memory), both.model);
    let bytes = block_of(2, 0, &[(9, &[(5, 1), (6, 1), (7, 1)])]).to_vec();
    both.call(&Call::Deliver { bytes }).unwrap();
    let Ok(Answer::Work(work)) = both.call(&Call::Work) else {
        panic!("nothing is committed");
    };
    assert_eq!(work.aborted, [1, 2]);
}
