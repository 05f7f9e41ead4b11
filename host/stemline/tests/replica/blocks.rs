//! Blocks through send and deliver: what is written, and what is refused by 1, 14 and 15. Every
//! deliver is made at the library and at the model, whose check and form are its own.

mod form;

use model::block::{
    self, Entry, Record, BLOCK, ENTRIES, MAX_ITEM, MAX_SLOT, NEXT, RECORDS, TO_COMMIT,
};
use model::drive::{start_values, Subject};
use model::samples::{self, Random};
use model::trace::{Answer, Call};

use crate::both::Both;

const LENGTH: u8 = 1;
const CHECK: u8 = 14;
const FORM: u8 = 15;

/// A pair of replicas whose turn is the slot that these bytes name, and is another's; any pair where
/// no group has such a slot.
fn taker(bytes: &[u8; BLOCK]) -> Both {
    let header = block::header(bytes);
    let (n, slot) = match (header.replicas, header.slot) {
        (n @ 2..=6, slot @ 0..=MAX_SLOT) => (u32::from(n), slot),
        _ => (2, 0),
    };
    Both::new(n, (slot + 1) % n, &start_values()).late(slot, 0)
}

/// The number for these bytes, 0 where they are kept.
fn deliver(both: &mut Both, bytes: &[u8]) -> u8 {
    let bytes = bytes.to_vec();
    both.call(&Call::Deliver { bytes }).err().unwrap_or(0)
}

/// Works until the turn moves.
fn work_off(both: &mut Both) {
    loop {
        let Ok(Answer::Work(work)) = both.call(&Call::Work) else {
            panic!("a kept block is not worked off");
        };
        if work.moved {
            return;
        }
    }
}

/// The number of a block at its own turn, under its own check. What is kept is worked off, so that
/// each of its records is read.
fn decide(block: &[u8; BLOCK]) -> u8 {
    let mut both = taker(block);
    let number = deliver(&mut both, block);
    if number == 0 {
        work_off(&mut both);
        let message = block::decode(block).unwrap();
        assert_eq!(block::encode(&message), *block, "the only block");
        let mut values = start_values();
        for entry in message.records.iter().flat_map(|record| &record.entries) {
            values[usize::from(entry.item)] = entry.value;
        }
        assert!(both.values() == values, "the values of {message:?}");
    }
    number
}

fn send(both: &mut Both) -> [u8; BLOCK] {
    match both.call(&Call::Send) {
        Ok(Answer::Block(block)) => *block,
        answer => panic!("{answer:?} of a send"),
    }
}

/// Asks for the commit of one transaction with these writes and gives its ticket.
fn ask(both: &mut Both, writes: &[(u8, i32)]) -> u32 {
    let Ok(Answer::Ticket(ticket)) = both.call(&Call::Begin) else {
        panic!("no ticket");
    };
    for &(item, value) in writes {
        let item = u32::from(item);
        let write = Call::Write {
            ticket,
            item,
            value,
        };
        assert_eq!(both.call(&write), Ok(Answer::Done));
    }
    assert_eq!(
        both.call(&Call::Ask { ticket }),
        Ok(Answer::ReadOnly(false))
    );
    ticket
}

/// Document 01's two marked blocks, byte by byte, as a group of two sends them.
#[test]
fn marked_blocks() {
    let mut pair = [0, 1].map(|own| Both::new(2, own, &start_values()));
    let next = send(&mut pair[0]);
    let mut due = [0; BLOCK];
    due[..4].copy_from_slice(&[NEXT, 0, 2, 0]);
    due[504..].copy_from_slice(&[0x03, 0, 0, 0, 0xF2, 0x02, 0, 0]);
    assert_eq!(next, due);
    for both in &mut pair {
        assert_eq!(deliver(both, &next), 0);
        work_off(both);
    }
    ask(&mut pair[1], &[(5, 40)]);
    let block = send(&mut pair[1]);
    let mut due = [0; BLOCK];
    due[..5].copy_from_slice(&[TO_COMMIT, 1, 2, 1, 1]);
    due[16..29].copy_from_slice(&[1, 0, 0, 0, 1, 0, 0, 0, 5, 0, 0, 0, 40]);
    due[504..].copy_from_slice(&[0x34, 0x02, 0, 0, 0xAE, 0x27, 0x02, 0]);
    assert_eq!(block, due);
}

/// What a send writes, of every number of records and of writes, reads as what was asked; values at
/// both ends of their range come back unchanged.
#[test]
fn sent_and_taken() {
    let mut ends = [0; 2];
    for seed in 0..40 {
        let mut random = Random::new(seed);
        for records in 0..=RECORDS {
            let slot = random.pick(&[0, 1, 255, 65_536, MAX_SLOT]);
            let mut both = Both::new(2, slot % 2, &start_values()).late(slot, 0);
            let mut values = start_values();
            let asked: Vec<Record> = (0..records)
                .map(|j| {
                    // The items of one transaction: those of a remainder by 6, so that all differ.
                    let writes = 1 + random.below(ENTRIES);
                    let mut entries: Vec<Entry> = (0..writes)
                        .map(|e| Entry {
                            item: (j + 6 * (2 * e + random.below(2))) as u8,
                            value: random.pick(&[i32::MIN, i32::MAX, -1, 0, 1, 1 << 16]),
                        })
                        .collect();
                    if j == 1 && writes == ENTRIES {
                        entries[7].item = MAX_ITEM;
                    }
                    for entry in &entries {
                        values[usize::from(entry.item)] = entry.value;
                        ends[0] += u32::from(entry.value == i32::MIN);
                        ends[1] += u32::from(entry.value == i32::MAX);
                    }
                    let writes: Vec<_> = entries.iter().rev().map(|e| (e.item, e.value)).collect();
                    let ticket = ask(&mut both, &writes);
                    Record { ticket, entries }
                })
                .collect();
            let block = send(&mut both);
            assert_eq!(block::decode(&block).unwrap().records, asked);
            assert_eq!(decide(&block), 0);
            assert_eq!(deliver(&mut both, &block), 0);
            work_off(&mut both);
            assert!(both.values() == values, "seed {seed}, {records} records");
        }
    }
    assert!(ends.iter().all(|&seen| seen > 500), "{ends:?}");
}

#[test]
fn every_length() {
    let block = samples::block_of(2, 0, &[(1, &[(5, 40)])]);
    let mut both = taker(&block);
    for length in (0..=520).filter(|&length| length != BLOCK) {
        let mut bytes = block.to_vec();
        bytes.resize(length, 0);
        assert_eq!(deliver(&mut both, &bytes), LENGTH, "{length} bytes");
    }
    assert_eq!(deliver(&mut both, &block), 0);
}

/// Every one of the 4,096 bits, at a replica that takes the block as it was.
#[test]
fn every_bit() {
    let mut random = Random::new(1);
    let mut messages = vec![samples::marked_next(), samples::marked_record()];
    for _ in 0..4 {
        messages.push(samples::message(&mut random));
        messages.push(samples::full(&mut random));
    }
    let mut own = Both::new(3, 0, &start_values());
    ask(&mut own, &[(7, i32::MIN), (127, i32::MAX)]);
    let sent = send(&mut own);
    let others = messages.iter().map(block::encode);
    let others = others.map(|block| (taker(&block), block));
    for (mut both, block) in others.chain([(own, sent)]) {
        for bit in 0..8 * BLOCK {
            let mut changed = block;
            changed[bit / 8] ^= 1 << (bit % 8);
            assert_eq!(deliver(&mut both, &changed), CHECK, "bit {bit}");
        }
        assert_eq!(deliver(&mut both, &block), 0);
    }
}

/// Each bit's own part in the two numbers of the check, worked out here from the definition: with
/// those numbers the form refuses the block, with any other the check does.
#[test]
fn every_weight() {
    let with_check = |mut block: [u8; BLOCK], first: u32, second: u32| {
        block[504..508].copy_from_slice(&first.to_le_bytes());
        block[508..].copy_from_slice(&second.to_le_bytes());
        decide(&block)
    };
    for i in 0..252 {
        for bit in 0..16 {
            let mut block = [0; BLOCK];
            block[2 * i..][..2].copy_from_slice(&(1u16 << bit).to_le_bytes());
            let first = 1 << bit;
            let second = (252 - i as u32) << bit;
            assert_eq!(with_check(block, first, second), FORM, "{i}, {bit}");
            assert_eq!(with_check(block, first, second + 1), CHECK, "{i}, {bit}");
            assert_eq!(with_check(block, first + 1, second), CHECK, "{i}, {bit}");
        }
    }
    // The smallest sums and the largest, whole: no other number of the same remainder.
    for (byte, first, second) in [(0, 0, 0), (255, 16_514_820, 2_089_124_730)] {
        let block = [byte; BLOCK];
        assert_eq!(with_check(block, first, second), FORM);
        for modulus in [65_535, 65_536] {
            assert_eq!(with_check(block, first + modulus, second), CHECK);
            assert_eq!(with_check(block, first, second + modulus), CHECK);
        }
    }
    assert_eq!(with_check([255; BLOCK], 0, 0), CHECK);
}

/// Any two words, those of the check too, at a replica that takes the block as it was.
#[test]
fn every_two_words() {
    let mut random = Random::new(2);
    for round in 0..60 {
        let block = block::encode(&samples::message(&mut random));
        let mut both = taker(&block);
        for i in 0..BLOCK / 2 {
            let any = random.below(BLOCK / 2);
            let check = 252 + random.below(4);
            let mut changed = block;
            // Down in one by as much as up in the other, to the limits, or to anything.
            let by = random.bits() as u16;
            let by = random.pick(&[1, 256, 0xFFFF, by]);
            for (word, by) in [(i, by), (random.pick(&[any, check]), by.wrapping_neg())] {
                let at = &mut changed[2 * word..][..2];
                let now = u16::from_le_bytes([at[0], at[1]]).wrapping_add(by);
                let any = random.bits() as u16;
                at.copy_from_slice(&random.pick(&[now, now, 0, 0xFFFF, any]).to_le_bytes());
            }
            if changed != block {
                let number = deliver(&mut both, &changed);
                assert_eq!(number, CHECK, "round {round}, word {i}");
            }
        }
        assert_eq!(deliver(&mut both, &block), 0);
    }
}

/// A word of zeros that arrives as all ones, in a value or where nothing is used.
#[test]
fn zero_word_as_all_ones() {
    let block = samples::block_of(2, 0, &[(1, &[(5, 7), (6, 8)])]);
    for word in [15, 4, 7, 11, 13, 20, 51, 52, 200, 224, 251, 253] {
        let mut changed = block;
        assert_eq!(changed[2 * word..][..2], [0, 0]);
        changed[2 * word..][..2].fill(255);
        assert_eq!(decide(&changed), CHECK, "word {word}");
    }
}
