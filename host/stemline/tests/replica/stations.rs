//! Stations: what they answer, and that every sender is another to them.

use model::block::{self, Message};
use model::drive::start_values;
use model::samples::{self, block_of, Random, Writes};
use stemline::{Refusal, Replica, Station, Step, Work, BLOCK, ITEMS, NO_NUMBER};

/// What steps say at a station.
pub fn said(steps: &[Step]) -> Vec<(u8, u32, bool)> {
    let step = |step: &Step| (step.sender, step.ticket, step.moved);
    steps.iter().map(step).collect()
}

/// The same of a replica's steps.
pub fn said_by_replica(steps: &[Work]) -> Vec<(u8, u32, bool)> {
    let step = |work: &Work| (work.sender, work.ticket, work.moved);
    steps.iter().map(step).collect()
}

/// A replica over a station's memory, for the calls that a [`Station`] has not.
fn over(station: &Station) -> Replica {
    Replica::from_memory(station.memory().clone())
}

/// Step by step in a group of two. A station takes every sender as another: a block of two writesets leaves
/// the mark on between them, and nobody is aborted.
#[test]
fn step_by_step() {
    assert_eq!(Station::new(7, &[5; ITEMS]), Err(Refusal::OutOfRange));
    assert_eq!(Station::new(1, &[5; ITEMS]), Err(Refusal::OutOfRange));
    let mut station = Station::new(2, &[5; ITEMS]).unwrap();
    assert_eq!(station.begin(), Ok(1));
    let mut calling = over(&station);
    for (ticket, item) in [(1, 5), (9, 128), (0, u32::MAX)] {
        assert_eq!(
            calling.write(ticket, item, 40),
            Err(Refusal::StationOnlyReads)
        );
    }
    assert_eq!(calling.send(), Err(Refusal::StationOnlyReads));
    assert!(calling == over(&station) && !calling.is_turn());
    assert_eq!(station.deliver(&block_of(2, 0, &[])), Ok(()));
    let step = |sender, ticket, moved| {
        Ok(Step {
            sender,
            ticket,
            moved,
        })
    };
    assert_eq!(station.work(), step(0, 0, true));
    let records: [Writes; 2] = [(1, &[(5, 50)]), (2, &[(6, 60)])];
    assert_eq!(station.deliver(&block_of(2, 1, &records)), Ok(()));
    let far = block_of(2, 3, &[]);
    assert_eq!(station.deliver(&far), Err(Refusal::FarSlot));
    assert_eq!(station.work(), step(1, 1, false));
    assert_eq!(station.memory().turn.applying, 1);
    assert_eq!(station.begin(), Ok(2));
    assert_eq!((station.read(1, 5), station.read(2, 5)), (Ok(5), Ok(50)));
    assert_eq!(station.work(), step(1, 2, true));
    // Now it is near enough.
    assert_eq!(station.deliver(&far), Ok(()));
    assert_eq!(station.work(), Err(Refusal::NothingWaits));
    assert_eq!((station.ask(1), station.withdraw(2)), (Ok(()), Ok(())));
    assert_eq!(station.ask(1), Err(Refusal::NotOpen));
    assert_eq!(station.withdraw(2), Err(Refusal::NotOpen));
    assert_eq!(station.read(2, 5), Err(Refusal::NotOpen));
    let said =
        "turn 2, commits 2; tickets 2: open 0, committed 0, read-only 1, aborted 0, withdrawn 1";
    assert_eq!(station.report().to_string(), said);
    assert_eq!(station.values()[..8], [5, 5, 5, 5, 5, 50, 60, 5]);
}

/// A station just made is a replica just made in all but its number.
#[test]
fn made_like_a_replica() {
    for n in 2..=6 {
        let station = Station::new(n, &start_values()).unwrap();
        for own in 0..n {
            let mut memory = Replica::new(n, own, &start_values())
                .unwrap()
                .memory()
                .clone();
            assert_eq!(Station::from_memory(memory.clone()), None);
            memory.group.own = NO_NUMBER;
            assert_eq!(Station::from_memory(memory).as_ref(), Some(&station));
        }
    }
}

/// Blocks of each slot of the window with every byte as their sender, under a right check: the owner's are
/// taken, and none is refused as the station's own.
#[test]
fn no_sender_is_the_station() {
    let mut random = Random::new(0);
    for n in 2..=6 {
        let station = Station::new(n, &start_values()).unwrap();
        for slot in 0..n {
            for sender in 0..=255 {
                let mut block = block::encode(&Message {
                    sender,
                    replicas: n as u8,
                    slot,
                    ..samples::message(&mut random)
                });
                block::put_check(&mut block);
                let due = match u32::from(sender) == slot {
                    true => Ok(()),
                    false => Err(Refusal::WrongForm),
                };
                assert_eq!(station.clone().deliver(&block), due, "{slot}, {sender}");
            }
        }
        // A replica is one of the senders.
        let own = block_of(n, n - 1, &[]);
        let mut replica = Replica::new(n, n - 1, &start_values()).unwrap();
        assert_eq!(replica.deliver(&own), Err(Refusal::NotSent));
    }
}

/// A group of `n` after so many slots, and its blocks in slot order.
fn handed_out(n: u32, slots: u32) -> (Replica, Vec<[u8; BLOCK]>) {
    let make = |own| Replica::new(n, own, &start_values()).unwrap();
    let mut group: Vec<Replica> = (0..n).map(make).collect();
    let mut blocks = Vec::new();
    for slot in 0..slots {
        let owner = &mut group[(slot % n) as usize];
        for at in 0..slot % 4 {
            let ticket = owner.begin().unwrap();
            let item = (7 * slot + at) % ITEMS as u32;
            owner.write(ticket, item, slot as i32).unwrap();
            owner.ask(ticket).unwrap();
        }
        let block = owner.send().unwrap();
        for replica in &mut group {
            replica.take(&block).unwrap();
        }
        blocks.push(block);
    }
    (group.remove(0), blocks)
}

/// Offers a station blocks in their order of arrival, and gives those that it refused by 18.
fn offer(station: &mut Station, blocks: Vec<[u8; BLOCK]>) -> Vec<[u8; BLOCK]> {
    let far = |block: &[u8; BLOCK]| {
        let slot = block::header(block).slot;
        let turn = station.report().turn;
        let n = u32::from(station.memory().group.replicas);
        let taken = station.take(block).map(|_| ());
        assert_eq!(taken == Err(Refusal::FarSlot), slot >= turn + n);
        let past = taken == Err(Refusal::PastSlot) && slot < turn;
        let waits = taken == Err(Refusal::SlotTaken) && slot > turn;
        assert!(taken.is_ok() || past || waits || slot >= turn + n, "{slot}");
        slot >= turn + n
    };
    blocks.into_iter().filter(far).collect()
}

/// The group does not wait for a station, which gets its blocks in any order, some of them twice. Offered
/// again what it refused by 18, it comes to where the group is; without that it stays behind.
#[test]
fn blocks_are_offered_again() {
    let mut random = Random::new(5);
    for n in 2..=6 {
        let (replica, mut blocks) = handed_out(n, 60);
        let twice: Vec<_> = blocks.iter().copied().step_by(7).collect();
        blocks.extend(twice);
        for at in 0..blocks.len() {
            let other = random.below(blocks.len());
            blocks.swap(at, other);
        }
        let mut station = Station::new(n, &start_values()).unwrap();
        let mut kept = offer(&mut station, blocks);
        let stays = station.clone();
        assert!(stays.report().turn < 60 && !kept.is_empty(), "{n}");
        let mut rounds = 0;
        while !kept.is_empty() {
            kept = offer(&mut station, kept);
            rounds += 1;
            assert!(rounds <= 60, "{n}: it does not come on");
        }
        assert_eq!(station.values(), replica.values());
        let [at, due] = [station.report(), replica.report()];
        assert_eq!((at.turn, at.commits), (due.turn, due.commits));
        assert_ne!(stays.values(), replica.values(), "{n}");
    }
}

/// In the order of a replica's journal, from the station's turn on, no block is refused: so a station is
/// fed that is made later, or anew after a cut of the power.
#[test]
fn fed_from_a_journal() {
    let (replica, blocks) = handed_out(3, 40);
    let mut station = Station::new(3, &start_values()).unwrap();
    let mut begun = Vec::new();
    while let Some(block) = blocks.get(station.report().turn as usize) {
        let taken = station.take(block).unwrap();
        assert!(taken.steps.last().is_some_and(|step| step.moved));
        if begun.len() < 6 {
            begun.push((station.begin().unwrap(), *station.values()));
        }
    }
    assert_eq!(station.values(), replica.values());
    // What was begun on the way still reads what was there, and no work has ended it.
    for (ticket, values) in begun {
        let read = (0..ITEMS as u32).map(|item| station.read(ticket, item).unwrap());
        assert!(read.eq(values), "{ticket}");
        assert_eq!(station.ask(ticket), Ok(()));
    }
    let said = station.report();
    assert_eq!((said.read_only, said.open_count, said.aborted), (6, 0, 0));
}
