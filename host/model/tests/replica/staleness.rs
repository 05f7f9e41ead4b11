//! Document 02, Req 07: staleness comes before the lock. A write of now beside one with the order of
//! before, on the same state.

use model::block::ENTRIES;
use model::drive::{Peers, Style};
use model::replica::{Replica, Stage, ITEMS};
use model::samples::Random;
use model::trace::Call;

use crate::common::{block_of, make, pass_to, take};

/// A write as it was: 25; 2, 3, 4, 7; an item held already; 8, 9, 10.
fn former(replica: &mut Replica, ticket: u32, item: u32, value: i32) -> Result<(), u8> {
    if replica.own.is_none() {
        return Err(25);
    }
    if item as usize >= ITEMS {
        return Err(2);
    }
    let at = replica.open.iter().position(|t| t.ticket == ticket);
    let at = at.ok_or(3)?;
    if replica.open[at].stage != Stage::Active {
        return Err(4);
    }
    if replica.applying && is_to_come(replica, item as usize) {
        return Err(7);
    }
    let key = item as u8;
    let held = replica.open.iter().any(|t| t.writes.contains_key(&key));
    let stale = replica.stamps[item as usize] > replica.open[at].snapshot;
    let transaction = &mut replica.open[at];
    if transaction.writes.contains_key(&key) {
        transaction.writes.insert(key, value);
        return Ok(());
    }
    if held {
        return Err(8);
    }
    if stale {
        replica.open.remove(at);
        replica.aborted += 1;
        return Err(9);
    }
    if transaction.writes.len() == ENTRIES {
        return Err(10);
    }
    transaction.writes.insert(key, value);
    Ok(())
}

/// Whether a writeset that is still to be applied has an item of this one's class.
fn is_to_come(replica: &Replica, item: usize) -> bool {
    let place = replica.turn as usize % replica.inbox.len();
    let records = replica.inbox[place].iter().flat_map(|m| &m.records);
    let mut entries = records.skip(replica.done).flat_map(|r| &r.entries);
    entries.any(|e| replica.classes[usize::from(e.item)] == replica.classes[item])
}

/// Plays a write on copies of a state, as it was and as it is. Answers and what is left are equal, but
/// where the item is stale and another holds it: 8 with nothing changed is now 9 with the transaction
/// ended. It gives the answer of before, and whether that was so.
fn relation(state: &Replica, ticket: u32, item: u32, value: i32) -> (Result<(), u8>, bool) {
    let (mut before, mut now) = (state.clone(), state.clone());
    let answers = (
        former(&mut before, ticket, item, value),
        now.write(ticket, item, value),
    );
    let transaction = state.open.iter().find(|t| t.ticket == ticket);
    let stale = transaction.is_some_and(|t| state.stamps[item as usize % ITEMS] > t.snapshot);
    let both = answers.0 == Err(8) && stale;
    if both {
        let mut ended = state.clone();
        ended.open.retain(|t| t.ticket != ticket);
        ended.aborted += 1;
        assert_eq!(answers.1, Err(9));
        assert_eq!((before, now), (state.clone(), ended));
    } else {
        assert_eq!(answers.0, answers.1, "{ticket}, {item}");
        assert_eq!(before, now, "{ticket}, {item}");
    }
    (answers.0, both)
}

/// Few items, of which some are stale and held at once; all items, with large writesets.
const STYLES: [Style; 2] = [Style::new(12, 75, 3), Style::new(128, 50, 5)];

/// Random runs of one replica or station among forged peers. Each write is also played where the item
/// has a random stamp, which mostly no list of calls leads to.
#[test]
fn former_and_new_writes() {
    let (mut met, mut altered) = (0, 0);
    let mut seen = [0; 26];
    for seed in 0..120 {
        let n = 2 + seed as u32 % 5;
        let own = seed as u32 / 5 % n;
        let mut replica = make(n, own);
        let mut peers = Peers::new(n, own, replica.report());
        if seed % 20 == 0 {
            replica.own = None;
            peers = Peers::of_station(n, replica.report());
        }
        let mut random = Random::new(seed);
        for _ in 0..1_500 {
            let call = peers.random_call(&mut random, STYLES[seed as usize % 2]);
            if let Call::Write {
                ticket,
                item,
                value,
            } = call
            {
                let (answer, both) = relation(&replica, ticket, item, value);
                seen[answer.map_or_else(usize::from, |()| 0)] += 1;
                met += u32::from(both);
                let mut state = replica.clone();
                let stamp = random.below(replica.commits as usize + 3) as u32;
                state.stamps[item as usize % ITEMS] = stamp;
                altered += u32::from(relation(&state, ticket, item, value).1);
            }
            let answer = replica.call(&call);
            peers.feed(&call, &answer);
        }
    }
    assert!(met > 100 && altered > 500, "{met}, {altered}");
    for number in [0, 2, 3, 4, 7, 8, 9, 10, 25] {
        assert!(seen[number] > 50, "{number}: {seen:?}");
    }
}

/// The worked list of before: 8 as often as it is tried, and 9 when the other has withdrawn.
#[test]
fn in_vain() {
    let mut replica = make(2, 0);
    let early = replica.begin().unwrap();
    pass_to(&mut replica, 2, 0, 1);
    take(&mut replica, &block_of(2, 1, &[(1, &[(5, 50)])]));
    let holder = replica.begin().unwrap();
    replica.write(holder, 5, 7).unwrap();
    let mut before = replica.clone();
    for _ in 0..2 {
        assert_eq!(former(&mut before, early, 5, 8), Err(8));
        assert_eq!(before, replica);
    }
    before.withdraw(holder).unwrap();
    assert_eq!(former(&mut before, early, 5, 8), Err(9));
    assert_eq!(replica.write(early, 5, 8), Err(9));
    assert_eq!(replica.write(early, 5, 8), Err(3));
    replica.withdraw(holder).unwrap();
    assert_eq!(before, replica);
}
