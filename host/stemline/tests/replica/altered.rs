//! Memory altered by something else than a call: every call returns, the same call on the same
//! memory gives the same, and a refused one changes nothing and answers no more than its number.

mod windows;

use model::block::{self, Message, BLOCK, MAX_TICKET};
use model::drive::{start_values, Peers, Subject, STYLES};
use model::samples::{self, Random};
use soak::runs::NUMBERS;
use stemline::ffi::Txn;
use stemline::{Memory, Refusal, Replica, Station, Taken, ITEMS, LEFT, NO_NUMBER, SLOTS, STEPS};

use self::windows::{alter_window, same_give, same_window, tell};
use crate::both::Both;
use crate::lengths::ONLY_READS;
use crate::lent::{check_refused, Lent};
use crate::seeds::Seeds;
use crate::stations;

const RUNS: u64 = 2_000;
/// Calls at one altered memory, each on what the last one left.
const CALLS: usize = 60;
/// The calls, write twice: it has the most to look at.
const CALLED: [&str; 19] = [
    "make",
    "make_station",
    "restart",
    "begin",
    "read",
    "write",
    "write",
    "ask",
    "withdraw",
    "report",
    "send",
    "deliver",
    "work",
    "load",
    "out",
    "back",
    "giver",
    "give",
    "give",
];

/// A number with the limits of what a call compares it with.
fn number(random: &mut Random) -> u32 {
    let any = random.bits() as u32;
    let small = random.below(12) as u32;
    let last = MAX_TICKET - 1 + random.below(3) as u32;
    random.pick(&[0, small, small, small, last, u32::MAX - 1, u32::MAX, any])
}

fn byte(random: &mut Random) -> u8 {
    let any = random.byte();
    let small = random.below(10) as u8;
    random.pick(&[0, small, small, small, 7, 8, 9, 127, 128, 200, 255, any])
}

/// A stage or a count of writes: most often small.
fn small(random: &mut Random) -> u32 {
    let any = number(random);
    let byte = u32::from(byte(random));
    random.pick(&[byte, byte, byte, any])
}

fn fill_numbers(random: &mut Random, numbers: &mut [u32]) {
    numbers.fill_with(|| number(random));
}

fn row(random: &mut Random) -> Txn {
    Txn {
        ticket: number(random),
        stage: small(random),
        snapshot: number(random),
        writes: small(random),
    }
}

/// A block, most often with a right check: well formed, or with bytes of any kind in it.
fn place(random: &mut Random, replicas: u8) -> [u8; BLOCK] {
    let mut block = block::encode(&samples::message(random));
    block[2] = replicas;
    for _ in 0..random.pick(&[0, 0, 1, 3, 20]) {
        let reach = random.pick(&[24, BLOCK]);
        let at = random.below(reach);
        block[at] = byte(random);
    }
    if random.below(4) == 0 {
        random.fill(&mut block);
        block[0] = byte(random);
        block[3] = byte(random);
    }
    if random.below(8) > 0 {
        block::put_check(&mut block);
    }
    block
}

/// A memory that calls have led to.
fn reached(random: &mut Random, seed: u64) -> Lent {
    let n = 2 + random.below(5) as u32;
    let own = random.below(n as usize) as u32;
    let mut both = Both::new(n, own, &start_values());
    let mut peers = Peers::new(n, own, both.report());
    for _ in 0..random.below(200) {
        let style = STYLES[seed as usize % 4].with_notices(4);
        let call = peers.random_call(random, style);
        let answer = both.call(&call);
        peers.feed(&call, &answer);
    }
    Lent::of(both.library.memory())
}

/// Alters one part.
fn alter(random: &mut Random, memory: &mut Lent) {
    let replicas = memory.group.replicas;
    let counts = &mut memory.counts;
    match random.below(22) {
        0 => memory.table[random.below(6)] = row(random),
        1 => memory.table.fill_with(|| row(random)),
        2 => memory.table[random.below(6)].stage = small(random),
        3 => memory.table[random.below(6)].writes = small(random),
        4 => memory.turn.slot = number(random),
        5 => memory.turn.sent = byte(random),
        6 => memory.turn.applying = byte(random),
        7 => memory.items.fill_with(|| byte(random)),
        8 => fill_numbers(random, &mut memory.queue),
        9 => fill_numbers(random, &mut memory.stamps),
        10 => counts.done = byte(random),
        11 => memory.group.own = byte(random),
        12 => {
            counts.commits = number(random);
            counts.tickets = number(random);
            counts.committed = number(random);
            counts.read_only = number(random);
            counts.aborted = number(random);
            counts.withdrawn = number(random);
        }
        13 => {
            // Most often with places of the right length, so that the calls get past 1.
            memory.group.replicas = byte(random);
            let length = BLOCK * usize::from(memory.group.replicas);
            if random.below(8) > 0 {
                memory.places.resize(length, random.byte());
            }
        }
        14 => {
            let (places, _) = memory.places.as_chunks_mut::<BLOCK>();
            places
                .iter_mut()
                .for_each(|at| *at = place(random, replicas));
        }
        15 => memory.outbox = place(random, replicas).to_vec(),
        16 => memory.classes.fill_with(|| byte(random)),
        17 => memory.group.own = NO_NUMBER,
        18 => {
            let slot = memory.turn.slot;
            let near = || slot.saturating_sub(2)..=slot.saturating_add(2);
            let at = random.below(memory.group.from.len());
            let any = number(random);
            let picked = random.below(5);
            memory.group.from[at] = near().nth(picked).unwrap_or(any);
            memory.group.until[at] = random.pick(&[0, any, slot, SLOTS, SLOTS, u32::MAX]);
        }
        19 => {
            fill_numbers(random, &mut memory.group.from);
            fill_numbers(random, &mut memory.group.until);
        }
        20 => alter_window(random, memory),
        _ => memory.classes[random.below(ITEMS)] = byte(random),
    }
}

/// What goes with the next call.
fn give(random: &mut Random, memory: &mut Lent) {
    let row = memory.table[random.below(6)];
    let any = number(random);
    memory.n = random.below(8) as u32;
    memory.own = random.below(8) as u32;
    memory.ticket = random.pick(&[row.ticket, row.ticket, row.ticket, any]);
    memory.item = random.below(130) as u32;
    memory.value = samples::value(random);
    memory.bytes = match random.below(4) {
        0 => memory.outbox.clone(),
        1 => samples::block_of(2, any % 1_000, &[]).to_vec(),
        _ => place(random, memory.group.replicas).to_vec(),
    };
    memory.given = samples::classes(random);
    memory.journal = match random.below(3) {
        0 => memory.places.clone(),
        _ => journal(random, memory.n),
    };
    let slot = memory.turn.slot;
    memory.replica = random.below(8) as u32;
    memory.slot = random.pick(&[slot, slot.saturating_add(1), slot.saturating_add(3), any]);
    memory.notices.resize(random.pick(&[0, 3, 6, 30, 31]), 0);
    memory.notices.fill_with(|| number(random));
    tell(random, memory);
}

/// A journal of a few blocks, with bytes of any kind among and behind them.
fn journal(random: &mut Random, n: u32) -> Vec<u8> {
    let mut journal = Vec::new();
    for slot in 0..random.below(6) as u32 {
        let message = Message {
            sender: (slot % n.max(2)) as u8,
            replicas: n.max(2) as u8,
            slot,
            ..samples::message(random)
        };
        journal.extend(block::encode(&message));
        if random.below(12) == 0 {
            let at = random.below(journal.len());
            journal[at] = byte(random);
        }
    }
    journal.resize(journal.len() + random.pick(&[0, 0, 1, 700]), byte(random));
    journal
}

#[test]
fn every_call_returns() {
    let mut numbers = [0u32; 32];
    let seeds = Seeds::new(RUNS);
    seeds.each(|seed| {
        let mut random = Random::new(seed);
        let mut memory = reached(&mut random, seed);
        for _ in 0..random.pick(&[1, 2, 3, 40]) {
            alter(&mut random, &mut memory);
        }
        for call in 0..CALLS {
            if random.below(10) == 0 {
                alter(&mut random, &mut memory);
            }
            give(&mut random, &mut memory);
            let name = random.pick(&CALLED);
            let before = memory.clone();
            let mut copy = memory.clone();
            let answer = memory.call(name);
            let again = copy.call(name);
            let place = format!("call {call}: {name}");
            assert_eq!(answer, again, "{place}");
            assert!(memory == copy, "{place}: the memories differ");
            if answer.0 != 0 {
                check_refused(name, &before, &memory, &answer);
            }
            // Whatever else it holds, a memory without a number is a station's, and no other is.
            let is_station = before.group.own == NO_NUMBER;
            let only_reads = is_station && ONLY_READS.contains(&name);
            assert_eq!(answer.0 == 25, only_reads, "{place}: {answer:?}");
            assert!(answer.0 != 19 || !is_station, "{place}: 19");
            match name {
                "report" => assert_eq!(answer.0, 0, "{place}"),
                "send" => {
                    let is_turn = Replica::from_memory(before.memory()).is_turn();
                    assert_eq!(is_turn, answer.0 == 0, "{place}: is_turn");
                }
                "deliver" => same_take(&before),
                "give" => same_give(&before, &memory, answer.0),
                "work" => {
                    same_window(&before, &memory, &answer.1);
                    let waits = Replica::from_memory(before.memory()).waits();
                    assert_eq!(waits, answer.0 != 21, "{place}: waits");
                }
                _ => (),
            }
            numbers[usize::from(answer.0)] += 1;
        }
    });
    let met: Vec<usize> = (1..32).filter(|&number| numbers[number] > 0).collect();
    // Every number of the table is met here too, unless fewer runs are asked for, and no other is.
    let due = [&NUMBERS[..], &[30, 31]].concat();
    let known = met.iter().all(|number| due.contains(number));
    assert!(known, "{numbers:?}");
    assert!(seeds.runs < RUNS || met == due, "{numbers:?}");
}

/// A take is a deliver and its works, as many as a take has at most; all return. At a station it is the
/// same, by steps that say less.
fn same_take(memory: &Lent) {
    let mut calling = Replica::from_memory(memory.memory());
    let mut due = calling
        .deliver(&memory.bytes)
        .map(|()| Taken { steps: Vec::new() });
    if let Ok(due) = &mut due {
        let mut left = 0;
        while due.steps.len() < STEPS && left < LEFT {
            match calling.work() {
                Ok(step) => {
                    left += usize::from(step.moved);
                    due.steps.push(step);
                }
                // Behind a deliver that is accepted no work is refused by another number.
                Err(refusal) => {
                    assert_eq!(refusal, Refusal::NothingWaits);
                    break;
                }
            }
        }
    }
    let mut taking = Replica::from_memory(memory.memory());
    assert_eq!(taking.take(&memory.bytes), due);
    assert!(taking == calling, "take: another memory");
    let station = Station::from_memory(memory.memory());
    assert_eq!(station.is_some(), memory.group.own == NO_NUMBER);
    if let Some(mut station) = station {
        let taken = station.take(&memory.bytes);
        let steps = taken.map(|taken| stations::said(&taken.steps));
        let due = due.map(|due| stations::said_by_replica(&due.steps));
        assert_eq!(steps, due);
        assert!(station.memory() == calling.memory(), "take: another memory");
    }
}

/// A replica 0 of 2 with one transaction open, and its memory altered.
fn altered(alter: impl FnOnce(&mut Memory)) -> Replica {
    let mut replica = Replica::new(2, 0, &start_values()).unwrap();
    replica.begin().unwrap();
    let mut memory = replica.memory().clone();
    alter(&mut memory);
    Replica::from_memory(memory)
}

/// What the engine's definitions say of single alterations.
#[test]
fn single_alterations() {
    // A row that claims more than 8 writes has 8: the ninth item is refused by 10.
    let mut replica = altered(|memory| {
        memory.table[0].writes = 200;
        for (at, item) in memory.items[..8].iter_mut().enumerate() {
            *item = 10 + at as u8;
        }
    });
    assert_eq!(replica.write(1, 9, 0), Err(Refusal::WritesetFull));
    assert_eq!(replica.write(1, 12, 0), Ok(()));
    // A count at its type's limit stays.
    let mut replica = altered(|memory| memory.counts.withdrawn = u32::MAX);
    assert_eq!(replica.withdraw(1), Ok(()));
    assert_eq!(replica.report().withdrawn, u32::MAX);
    // A stage above 2 is not active.
    let mut replica = altered(|memory| memory.table[0].stage = 3);
    assert_eq!(replica.ask(1), Err(Refusal::NotActive));
    // With the applying mark on and nothing left to be applied no write waits; a load looks at the mark.
    let mut replica = altered(|memory| memory.turn.applying = 2);
    assert_eq!(replica.write(1, 5, 0), Ok(()));
    assert_eq!(replica.load(&[1; ITEMS]), Err(Refusal::LoadWhileApplying));
    // With an N of 0 and no place every place is empty; of 200, every block is another group's.
    let places = |replicas: u8, places: usize| {
        altered(|memory| {
            memory.group.replicas = replicas;
            memory.places = vec![0; BLOCK * places].into_boxed_slice();
        })
    };
    assert_eq!(places(0, 2).work(), Err(Refusal::WrongLength));
    assert_eq!(places(0, 2).write(1, 5, 0), Err(Refusal::WrongLength));
    assert_eq!(places(0, 0).write(1, 5, 0), Ok(()));
    assert_eq!(places(0, 0).work(), Err(Refusal::NothingWaits));
    // At slot 255 of no replicas the turn is that of own number 255, and is no station's.
    let mut station = altered(|memory| {
        (memory.group.own, memory.group.replicas) = (NO_NUMBER, 0);
        memory.turn.slot = u32::from(NO_NUMBER);
    });
    assert_eq!(station.send(), Err(Refusal::StationOnlyReads));
    assert!(!station.is_turn());
    let good = samples::block_of(2, 1, &[]);
    let mut replica = places(200, 0);
    assert_eq!(replica.deliver(&good), Err(Refusal::WrongLength));
    let mut replica = places(200, 200);
    assert_eq!(replica.deliver(&good), Err(Refusal::WrongGroup));
}
