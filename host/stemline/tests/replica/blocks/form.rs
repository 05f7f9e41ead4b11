//! Blocks that break the form, or just meet it, under a right check: the form decides.

use model::block::{
    self, Message, BLOCK, ENTRIES, MAX_ITEM, MAX_SLOT, MAX_TICKET, NEXT, RECORDS, TO_COMMIT,
};
use model::samples::{self, Random};

use super::{decide, FORM};

/// Byte 16 + 72·j of a block.
fn record_at(j: usize) -> usize {
    16 + 72 * j
}

fn put_ticket(block: &mut [u8; BLOCK], j: usize, ticket: u32) {
    block[record_at(j)..][..4].copy_from_slice(&ticket.to_le_bytes());
}

/// Asserts what becomes of a block with one change, under a right check.
fn expect(good: bool, block: &[u8; BLOCK], name: &str, change: impl FnOnce(&mut [u8; BLOCK])) {
    let mut block = *block;
    change(&mut block);
    block::put_check(&mut block);
    let due = if good { 0 } else { FORM };
    assert_eq!(decide(&block), due, "{name}");
}

/// The limits of the header from both sides: kind and count, N, slot, sender.
#[test]
fn header_limits() {
    let mut random = Random::new(2);
    let next = block::encode(&samples::next(&mut random));
    for byte in [0, 1, 2, 3, 4, 5, 6, 7, 8, 127, 128, 255] {
        expect(byte == NEXT, &next, "kind of a next", |b| b[0] = byte);
        expect(byte == 0, &next, "count of a next", |b| b[3] = byte);
        for records in 1..=RECORDS {
            let block = block::encode(&samples::to_commit(&mut random, records));
            expect(byte == TO_COMMIT, &block, "kind", |b| b[0] = byte);
            expect(usize::from(byte) == records, &block, "count", |b| {
                b[3] = byte
            });
        }
    }
    let mut put = |good: bool, n: u8, slot: u32, sender: u8| {
        let block = block::encode(&samples::message(&mut random));
        expect(good, &block, &format!("{n}, {slot}, {sender}"), |b| {
            (b[1], b[2]) = (sender, n);
            b[4..8].copy_from_slice(&slot.to_le_bytes());
        });
    };
    let owner = |n: u8, slot: u32| slot.checked_rem(u32::from(n)).unwrap_or(0) as u8;
    for n in [0, 1, 2, 3, 4, 5, 6, 7, 8, 128, 255] {
        let fits = (2..=6).contains(&n);
        let last = MAX_SLOT;
        for slot in [0, 1, 5, 6, 255, 256, 65_536, last - 1, last] {
            put(fits, n, slot, owner(n, slot));
            for sender in (0..9).chain([128, 255]) {
                put(fits && sender == owner(n, slot), n, slot, sender);
            }
        }
        for slot in [last + 1, last + 2, 1 << 31, u32::MAX] {
            put(false, n, slot, owner(n, slot));
        }
    }
}

/// The limits of a record from both sides, at each record and each entry of a full block.
#[test]
fn record_limits() {
    let mut random = Random::new(3);
    for j in 0..RECORDS {
        let mut message = samples::full(&mut random);
        // Tickets and items in the middle of their range, so that a limit is not there already.
        for (other, record) in message.records.iter_mut().enumerate() {
            record.ticket = 0x0201_0100 + other as u32;
            for (e, entry) in record.entries.iter_mut().enumerate() {
                entry.item = 20 + 12 * e as u8;
            }
        }
        let block = block::encode(&message);
        let last = MAX_TICKET;
        for ticket in [1, 2, 256, last - 1, last] {
            expect(true, &block, "ticket", |b| put_ticket(b, j, ticket));
        }
        for ticket in [0, last + 1, 1 << 31, u32::MAX] {
            expect(false, &block, "ticket", |b| put_ticket(b, j, ticket));
        }
        for other in (0..RECORDS).filter(|&other| other != j) {
            let ticket = message.records[other].ticket;
            expect(false, &block, "equal", |b| put_ticket(b, j, ticket));
            // Equal but for one byte.
            for byte in 1..4 {
                let ticket = ticket ^ 1 << (8 * byte);
                expect(true, &block, "nearly", |b| put_ticket(b, j, ticket));
            }
        }
        for e in 0..ENTRIES {
            let at = record_at(j) + 8 + 8 * e;
            let item = block[at];
            // Above the item before and below the item behind, which are 12 away.
            for to in [item - 11, item + 11] {
                expect(true, &block, "rising", |b| b[at] = to);
            }
            for to in [item - 13, item - 12] {
                expect(e == 0, &block, "not above", |b| b[at] = to);
            }
            for to in [item + 12, item + 13] {
                expect(e == 7, &block, "not below", |b| b[at] = to);
            }
            for to in [127, 128, 255] {
                let good = e == 7 && to == MAX_ITEM;
                expect(good, &block, "last item", |b| b[at] = to);
            }
        }
        for writes in 1..=ENTRIES {
            message.records[j].entries.truncate(ENTRIES + 1 - writes);
            let used = message.records[j].entries.len();
            let block = block::encode(&message);
            for number in (0..=9).chain([128, 255]) {
                let good = usize::from(number) == used;
                expect(good, &block, "writes", |b| b[record_at(j) + 4] = number);
            }
        }
    }
}

/// The bytes that a message leaves zero, from document 01's list.
fn unused(message: &Message) -> Vec<usize> {
    let mut bytes: Vec<usize> = (8..16).chain(448..504).collect();
    for j in 0..RECORDS {
        let at = record_at(j);
        let Some(record) = message.records.get(j) else {
            bytes.extend(at..at + 72);
            continue;
        };
        bytes.extend(at + 5..at + 8);
        for e in 0..ENTRIES {
            let at = at + 8 + 8 * e;
            let used = e < record.entries.len();
            bytes.extend(if used { at + 1..at + 4 } else { at..at + 8 });
        }
    }
    bytes
}

#[test]
fn every_unused_byte() {
    let mut random = Random::new(4);
    let mut seen = [false; BLOCK];
    for round in 0..12 {
        let message = match round % 3 {
            0 => samples::next(&mut random),
            1 => samples::full(&mut random),
            _ => samples::to_commit(&mut random, 1 + round / 2),
        };
        let block = block::encode(&message);
        for at in unused(&message) {
            for byte in [1, 128, 255] {
                expect(false, &block, &format!("byte {at}"), |b| b[at] = byte);
            }
            seen[at] = true;
        }
    }
    // Every byte but the header's eight and the check is unused in some block.
    for (at, &seen) in seen.iter().enumerate() {
        assert_eq!(seen, (8..504).contains(&at), "byte {at}");
    }
}

/// One to three bytes changed to numbers at the limits, with no thought of what they make, under a
/// right check or a wrong one.
#[test]
fn random_damage() {
    let mut random = Random::new(5);
    let mut numbers = [0; 16];
    for _ in 0..40_000 {
        let mut block = block::encode(&samples::message(&mut random));
        for _ in 0..random.pick(&[1, 1, 1, 2, 3]) {
            let header = random.below(16);
            let entry = 8 * random.below(9) + random.pick(&[0, 1, 3, 4, 7]);
            let record = record_at(random.below(6)) + entry;
            let at = random.pick(&[header, record]);
            let any = random.byte();
            block[at] = random.pick(&[0, 1, 2, 3, 6, 7, 8, 9, 127, 128, 255, any]);
        }
        if random.below(8) > 0 {
            block::put_check(&mut block);
        }
        numbers[usize::from(decide(&block))] += 1;
    }
    assert!(
        [0, 14, 15].iter().all(|&n| numbers[n] > 2_000),
        "{numbers:?}"
    );
    assert_eq!(numbers[0] + numbers[14] + numbers[15], 40_000);
}
