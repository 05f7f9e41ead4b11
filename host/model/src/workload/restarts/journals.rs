//! Journals of any bytes: blocks in slot order, with a fault in some, and what follows a restart from
//! them.

use crate::block::{self, Message, BLOCK};
use crate::replay::{hex, MAX_JOURNAL};
use crate::samples::{self, block_of, break_form, damage, Random};
use crate::workload::List;

/// The journals.
const JOURNALS: u64 = 80;
/// Apart from the seeds of the random groups.
const FIRST_SEED: u64 = 1_000;

pub(super) fn all(list: &mut List) {
    for seed in FIRST_SEED..FIRST_SEED + JOURNALS {
        let mut random = Random::new(seed);
        let n = 2 + random.below(5) as u32;
        let own = random.below(n as usize);
        let place = random.below(6);
        let value = samples::value(&mut random);
        let bytes = journal(&mut random, n);
        list.call(&format!("Y {place} {n} {own} {value} {}", hex(&bytes)));
        follow(list, &mut random, place, value);
    }
}

/// Up to four blocks, most often with a fault somewhere.
pub(super) fn journal(random: &mut Random, n: u32) -> Vec<u8> {
    let count = random.pick(&[0, 1, 2, 3, 4, 4]);
    let mut blocks: Vec<_> = (0..count).map(|slot| forged(random, n, slot)).collect();
    if let Some(at) = (count > 0).then(|| random.below(count as usize)) {
        harm(random, n, &mut blocks, at);
    }
    let mut bytes = blocks.concat();
    match random.below(4) {
        // Torn, or with more bytes behind.
        0 => bytes.truncate(random.below(bytes.len() + 1)),
        1 => bytes.resize(MAX_JOURNAL.min(bytes.len() + random.below(BLOCK)), 0),
        2 => {
            let mut tail = vec![0; random.below(MAX_JOURNAL - bytes.len())];
            random.fill(&mut tail);
            tail.truncate(random.pick(&[3, 52, 520]));
            bytes.extend(tail);
        }
        _ => {}
    }
    bytes
}

/// A well-formed block of any writesets.
fn forged(random: &mut Random, n: u32, slot: u32) -> [u8; BLOCK] {
    let records = random.pick(&[0, 1, 1, 2, 3, 6]);
    if records == 0 {
        return block_of(n, slot, &[]);
    }
    block::encode(&Message {
        sender: (slot % n) as u8,
        replicas: n as u8,
        slot,
        ..samples::to_commit(random, records)
    })
}

/// Puts a fault into one of the blocks, or none.
fn harm(random: &mut Random, n: u32, blocks: &mut [[u8; BLOCK]], at: usize) {
    let other = random.below(blocks.len());
    match random.below(12) {
        0 => damage(random, &mut blocks[at]),
        1 => break_form(random, &mut blocks[at]),
        2 => random.fill(&mut blocks[at]),
        3 => blocks[at] = [0; BLOCK],
        4 => blocks.swap(at, other),
        5 => blocks[at] = blocks[other],
        6 => blocks[at] = forged(random, 2 + (n + 1) % 5, at as u32),
        7 => blocks[at] = forged(random, n, at as u32 + n),
        _ => {}
    }
}

/// Shows the replica and its journal; then calls, and a restart from some part of the journal.
fn follow(list: &mut List, random: &mut Random, place: usize, value: i32) {
    let blocks = list.replica(place).report().turn;
    list.call(&format!("Q {place}"));
    let at = random.pick(&[blocks, blocks.saturating_sub(1)]);
    list.call(&format!("J {place} {at}"));
    if random.below(3) == 0 {
        list.call(&format!("V {place}"));
    }
    let item = random.below(128) as u32;
    if list.replica(place).report().tickets < block::MAX_TICKET {
        list.ask(place, &[(item, value)]);
    }
    list.calls(&format!("B {place}, S {place}, Q {place}"));
    let length = list.replay.journal(place).map_or(0, <[u8]>::len);
    let any = random.below(length + 1);
    let bytes = random.pick(&[any, any, length, length + 1]);
    list.calls(&format!("Z {place} {bytes} {value}, Q {place}, B {place}"));
}
