//! The block by hand-worked bytes and by random messages.

use super::*;
use crate::drive::start_values;
use crate::replica::Replica;
use crate::samples::{self, Random};

fn message(slot: u32, records: Vec<Record>) -> Message {
    Message {
        kind: if records.is_empty() { NEXT } else { TO_COMMIT },
        sender: (slot % 2) as u8,
        replicas: 2,
        slot,
        records,
    }
}

fn record(ticket: u32, entries: &[(u8, i32)]) -> Record {
    Record {
        ticket,
        entries: entries
            .iter()
            .map(|&(item, value)| Entry { item, value })
            .collect(),
    }
}

#[test]
fn marked_next() {
    let message = message(0, vec![]);
    let mut expected = [0u8; BLOCK];
    expected[..8].copy_from_slice(&[1, 0, 2, 0, 0, 0, 0, 0]);
    expected[504..].copy_from_slice(&[0x03, 0, 0, 0, 0xF2, 0x02, 0, 0]);
    assert_eq!(encode(&message), expected);
    assert_eq!(decode(&expected), Ok(message));
}

#[test]
fn marked_record() {
    let message = message(1, vec![record(1, &[(5, 40)])]);
    let mut expected = [0u8; BLOCK];
    expected[..8].copy_from_slice(&[2, 1, 2, 1, 1, 0, 0, 0]);
    expected[16..24].copy_from_slice(&[1, 0, 0, 0, 1, 0, 0, 0]);
    expected[24..32].copy_from_slice(&[5, 0, 0, 0, 40, 0, 0, 0]);
    expected[504..].copy_from_slice(&[0x34, 0x02, 0, 0, 0xAE, 0x27, 0x02, 0]);
    assert_eq!(encode(&message), expected);
    assert_eq!(decode(&expected), Ok(message));
}

#[test]
fn every_byte_has_its_place() {
    let entries: Vec<(u8, i32)> = (0..8).map(|e| (e, i32::from(e) - 4)).collect();
    let records = (1..=6).map(|j| record(0x0102_0300 + j, &entries)).collect();
    let block = encode(&message(0x0504_0302, records));
    assert_eq!(block[..8], [2, 0, 2, 6, 0x02, 0x03, 0x04, 0x05]);
    assert_eq!(block[8..16], [0; 8]);
    for j in 0..6 {
        let part = &block[16 + 72 * j..][..72];
        assert_eq!(part[..8], [j as u8 + 1, 0x03, 0x02, 0x01, 8, 0, 0, 0]);
        for e in 0..8 {
            let low = (e as u8).wrapping_sub(4);
            let high = if e < 4 { 255 } else { 0 };
            let expected = [e as u8, 0, 0, 0, low, high, high, high];
            assert_eq!(part[8 + 8 * e..][..8], expected);
        }
    }
    assert_eq!(block[448..504], [0; 56]);
}

#[test]
fn extreme_values_come_back() {
    let entries = [(0, i32::MIN), (64, i32::MAX), (127, -1)];
    let message = message(MAX_SLOT, vec![record(MAX_TICKET, &entries)]);
    let block = encode(&message);
    assert_eq!(block[28..32], [0, 0, 0, 0x80]);
    assert_eq!(block[36..40], [0xFF, 0xFF, 0xFF, 0x7F]);
    assert_eq!(decode(&block), Ok(message));
}

#[test]
fn round_trips() {
    let seed = 1;
    let mut random = Random::new(seed);
    let mut counts = [0; 7];
    let mut block = [0u8; BLOCK];
    for round in 0..10_000 {
        let message = samples::message(&mut random);
        counts[message.records.len()] += 1;
        // The bytes before must not matter.
        random.fill(&mut block);
        encode_into(&message, &mut block);
        assert_eq!(block, encode(&message), "seed {seed}, round {round}");
        let header = read(&block).unwrap_or_else(|number| {
            panic!("seed {seed}, round {round}: refused by {number}");
        });
        assert_eq!(usize::from(header.count), message.records.len());
        for (j, record) in message.records.iter().enumerate() {
            let head = record_head(&block, j);
            assert_eq!(head.ticket, record.ticket);
            assert_eq!(usize::from(head.writes), record.entries.len());
            for (e, expected) in record.entries.iter().enumerate() {
                assert_eq!(entry(&block, j, e), *expected);
            }
        }
        assert_eq!(decode(&block), Ok(message), "seed {seed}, round {round}");
    }
    assert!(counts.iter().all(|&seen| seen > 100), "{counts:?}");
}

#[test]
fn refusals_in_order() {
    let good = encode(&message(1, vec![record(1, &[(5, 40)])]));
    for length in (0..=600).filter(|&length| length != BLOCK) {
        let mut bytes = good.to_vec();
        bytes.resize(length, 0);
        assert_eq!(read(&bytes), Err(WRONG_LENGTH), "length {length}");
    }
    // Ill formed as well as unchecked: the check comes first.
    let mut block = good;
    block[0] = 3;
    assert_eq!(decode(&block), Err(WRONG_CHECK));
    put_check(&mut block);
    assert_eq!(decode(&block), Err(WRONG_FORM));
    block[0] = 2;
    put_check(&mut block);
    assert_eq!(block, good);
    assert!(decode(&block).is_ok());
}

#[test]
fn one_bit_is_refused() {
    let mut random = Random::new(3);
    let samples = [
        message(0, vec![]),
        message(1, vec![record(1, &[(5, 40)])]),
        samples::full(&mut random),
    ];
    for message in samples {
        for bit in 0..8 * BLOCK {
            let mut block = encode(&message);
            block[bit / 8] ^= 1 << (bit % 8);
            assert_eq!(read(&block), Err(WRONG_CHECK), "bit {bit} of {message:?}");
        }
    }
}

/// A word of a block.
fn word_at(block: &[u8; BLOCK], i: usize) -> u16 {
    u16::from_le_bytes([block[2 * i], block[2 * i + 1]])
}

fn set_word(block: &mut [u8; BLOCK], i: usize, word: u16) {
    block[2 * i..][..2].copy_from_slice(&word.to_le_bytes());
}

/// Any change of one or two words, those of the check too: to any number, to the limits, and such
/// that the two keep their sum.
#[test]
fn two_words_are_refused() {
    let mut random = Random::new(4);
    for round in 0..2_000 {
        let good = encode(&samples::message(&mut random));
        for _ in 0..200 {
            let mut block = good;
            let any = random.below(256);
            let check = 252 + random.below(4);
            let (i, j) = (random.below(256), random.pick(&[any, any, check]));
            let by = random.bits() as u16;
            let by = random.pick(&[1, 256, 0x8000, 0xFFFF, by]);
            let (one, other) = (word_at(&good, i), word_at(&good, j));
            let one = random.pick(&[0, 0xFFFF, one.wrapping_add(by)]);
            let other = random.pick(&[other, 0, 0xFFFF, other.wrapping_sub(by)]);
            set_word(&mut block, i, one);
            set_word(&mut block, j, other);
            if block != good {
                assert_eq!(read(&block), Err(WRONG_CHECK), "round {round}: {i}, {j}");
            }
        }
    }
}

/// One data word, and the word of the check that would hold its sum: the other sum does not fit.
#[test]
fn one_word_and_its_sum_are_refused() {
    let mut random = Random::new(5);
    for _ in 0..200 {
        let good = encode(&samples::message(&mut random));
        for i in 0..CHECKED / 2 {
            let mut block = good;
            let word = random.bits() as u16;
            set_word(&mut block, i, word);
            if block == good {
                continue;
            }
            let mut mended = block;
            put_check(&mut mended);
            assert_ne!(read(&mended), Err(WRONG_CHECK));
            for held in [CHECKED..CHECKED + 4, CHECKED + 4..BLOCK] {
                let mut block = block;
                block[held.clone()].copy_from_slice(&mended[held]);
                assert_eq!(read(&block), Err(WRONG_CHECK), "word {i}");
            }
        }
    }
}

/// The check of document 01, which document 02's Req 04 replaced: two sums modulo 65,535 over the
/// first 508 bytes, in 16 bits each.
fn check_before(block: &[u8; BLOCK]) -> [u8; 4] {
    let words = || (0..254).map(|i| u32::from(word_at(block, i)));
    let first = words().sum::<u32>() % 65_535;
    let weighed = words().zip(1..).map(|(word, i)| (255 - i) * word);
    let second = weighed.sum::<u32>() % 65_535;
    let [low, high] = (first as u16).to_le_bytes();
    let [lower, upper] = (second as u16).to_le_bytes();
    [low, high, lower, upper]
}

/// The block of a message as it was before.
fn encode_before(message: &Message) -> [u8; BLOCK] {
    let mut block = encode(message);
    block[CHECKED..].fill(0);
    let stored = check_before(&block);
    block[508..].copy_from_slice(&stored);
    block
}

/// The fault of Req 04: zero words that arrive as words of all ones, any number of them. Whatever the
/// block, the check of before took it.
#[test]
fn zeros_as_all_ones() {
    let mut random = Random::new(6);
    for round in 0..2_000 {
        let message = samples::message(&mut random);
        let (good, before) = (encode(&message), encode_before(&message));
        let zeros: Vec<usize> = (0..252).filter(|&i| word_at(&good, i) == 0).collect();
        let some = 1 + random.below(zeros.len());
        for count in [1, 2, some, zeros.len()] {
            let (mut now, mut then) = (good, before);
            for _ in 0..count {
                let word = zeros[random.below(zeros.len())];
                set_word(&mut now, word, 0xFFFF);
                set_word(&mut then, word, 0xFFFF);
            }
            assert_eq!(read(&now), Err(WRONG_CHECK), "round {round}, {count} words");
            assert_eq!(
                check_before(&then),
                before[508..],
                "round {round}, {count} words"
            );
        }
    }
}

/// Journals start afresh: a restart reads one of before as empty.
#[test]
fn journals_of_before() {
    let blocks = [message(0, vec![]), message(1, vec![record(1, &[(5, 40)])])];
    let now = blocks.each_ref().map(encode).concat();
    let before = blocks.each_ref().map(encode_before).concat();
    assert_eq!(read(&before[..BLOCK]), Err(WRONG_CHECK));
    for (journal, count) in [(now, 2), (before, 0)] {
        let (replica, restarted) = Replica::restart(2, 0, &start_values(), &journal, &[]).unwrap();
        assert_eq!((replica.report().turn, restarted.count), (count, count));
        assert_eq!(restarted.gave_back(), count > 0);
    }
}

/// Each condition of the form, broken alone or just met, under a right check.
#[test]
fn form() {
    let good = message(
        7,
        vec![record(3, &[(5, 40), (6, 50)]), record(4, &[(9, 1)])],
    );
    let number = |change: &dyn Fn(&mut Message)| {
        let mut message = good.clone();
        change(&mut message);
        read(&encode(&message)).err()
    };
    let slot = |m: &mut Message, slot: u32| {
        m.slot = slot;
        m.sender = (slot % u32::from(m.replicas)) as u8;
    };
    let refused = Some(WRONG_FORM);

    assert_eq!(number(&|_| ()), None);
    assert_eq!(number(&|m| m.kind = NEXT), refused);
    assert_eq!(number(&|m| m.kind = 0), refused);
    assert_eq!(number(&|m| m.kind = 3), refused);
    assert_eq!(number(&|m| m.records.clear()), refused);
    for replicas in [1, 7, 255] {
        let change = |m: &mut Message| (m.replicas, m.sender) = (replicas, 7 % replicas);
        assert_eq!(number(&change), refused, "{replicas} replicas");
    }
    assert_eq!(number(&|m| m.replicas = 0), refused);
    assert_eq!(number(&|m| m.replicas = 6), None);
    assert_eq!(number(&|m| m.sender = 0), refused);
    assert_eq!(number(&|m| m.sender = 3), refused);
    assert_eq!(number(&|m| slot(m, MAX_SLOT)), None);
    assert_eq!(number(&|m| slot(m, MAX_SLOT + 1)), refused);
    assert_eq!(number(&|m| m.records[1].ticket = 0), refused);
    assert_eq!(number(&|m| m.records[1].ticket = 3), refused);
    assert_eq!(number(&|m| m.records[1].ticket = MAX_TICKET), None);
    assert_eq!(number(&|m| m.records[1].ticket = MAX_TICKET + 1), refused);
    assert_eq!(number(&|m| m.records[1].entries.clear()), refused);
    assert_eq!(number(&|m| m.records[0].entries[1].item = 5), refused);
    assert_eq!(number(&|m| m.records[0].entries[1].item = 4), refused);
    assert_eq!(number(&|m| m.records[0].entries[1].item = 127), None);
    assert_eq!(number(&|m| m.records[0].entries[1].item = 128), refused);
}

#[test]
fn unused_bytes_are_zero() {
    let good = encode(&message(1, vec![record(1, &[(5, 40)])]));
    // Kind to slot; ticket and number of writes; item and value of the one entry.
    let used = |at: usize| matches!(at, 0..8 | 16..21 | 24 | 28..32);
    for at in (0..CHECKED).filter(|&at| !used(at)) {
        let mut block = good;
        block[at] = 1;
        put_check(&mut block);
        assert_eq!(read(&block), Err(WRONG_FORM), "byte {at}");
    }
}

#[test]
#[should_panic(expected = "more than 6 records")]
fn seven_records() {
    encode(&message(0, vec![record(1, &[]); 7]));
}

#[test]
#[should_panic(expected = "more than 8 entries")]
fn nine_entries() {
    encode(&message(0, vec![record(1, &[(0, 0); 9])]));
}
