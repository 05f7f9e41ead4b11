//! The block: one message between replicas, 512 bytes, little-endian.
//!
//! | Bytes | Content |
//! |---|---|
//! | 0 | kind: [`NEXT`] or [`TO_COMMIT`] |
//! | 1 | sender |
//! | 2 | number of replicas, N |
//! | 3 | number of records |
//! | 4–7 | slot |
//! | 8–15 | zero |
//! | 16 + 72·j | record j, 0 to 5 |
//! | 448–503 | zero |
//! | 504–511 | the check: two 32-bit numbers |
//!
//! A record: ticket (4 bytes), number of writes (1), zero (3), eight entries of 8 bytes.
//! An entry: item (1 byte), zero (3), value (4). Unused entries and records are zero.

/// Bytes of a block.
pub const BLOCK: usize = 512;
/// Bytes that the check is taken over: all before it.
pub const CHECKED: usize = 504;
/// Bytes before the first record.
pub const HEADER: usize = 16;
/// Bytes of a record.
pub const RECORD: usize = 72;
/// Bytes of a record before its first entry.
pub const RECORD_HEAD: usize = 8;
/// Bytes of an entry.
pub const ENTRY: usize = 8;

/// The most records in a block.
pub const RECORDS: usize = 6;
/// The most entries in a record.
pub const ENTRIES: usize = 8;
/// The highest item.
pub const MAX_ITEM: u8 = 127;
/// The highest ticket; the lowest is 1.
pub const MAX_TICKET: u32 = 100_000_000;
/// The highest slot; the lowest is 0.
pub const MAX_SLOT: u32 = 99_999_999;

/// The kind of a message without records (document 01's *next*).
pub const NEXT: u8 = 1;
/// The kind of a message with 1 to 6 records (document 01's *tocommit*).
pub const TO_COMMIT: u8 = 2;

/// Refusal: the length is not 512.
pub const WRONG_LENGTH: u8 = 1;
/// Refusal: the check does not match.
pub const WRONG_CHECK: u8 = 14;
/// Refusal: not well formed.
pub const WRONG_FORM: u8 = 15;

/// What a block carries.
#[derive(Clone, Debug, PartialEq, Eq)]
pub struct Message {
    /// [`NEXT`] or [`TO_COMMIT`].
    pub kind: u8,
    /// The replica that sent it.
    pub sender: u8,
    /// The replicas of its group.
    pub replicas: u8,
    /// The slot that it was sent for.
    pub slot: u32,
    /// The writesets, none to six.
    pub records: Vec<Record>,
}

/// The writeset of one transaction.
#[derive(Clone, Debug, PartialEq, Eq)]
pub struct Record {
    /// The ticket of the transaction at its sender.
    pub ticket: u32,
    /// What it wrote, one to eight items, rising.
    pub entries: Vec<Entry>,
}

/// One item and its new value.
#[derive(Clone, Copy, Debug, Default, PartialEq, Eq)]
pub struct Entry {
    /// The item.
    pub item: u8,
    /// Its new value.
    pub value: i32,
}

/// The first eight bytes of a block.
#[derive(Clone, Copy, Debug, Default, PartialEq, Eq)]
pub struct Header {
    /// [`NEXT`] or [`TO_COMMIT`].
    pub kind: u8,
    /// The replica that sent it.
    pub sender: u8,
    /// The replicas of its group.
    pub replicas: u8,
    /// The number of its records.
    pub count: u8,
    /// The slot that it was sent for.
    pub slot: u32,
}

/// The first five bytes of a record.
#[derive(Clone, Copy, Debug, Default, PartialEq, Eq)]
pub struct RecordHead {
    /// The ticket of the transaction at its sender.
    pub ticket: u32,
    /// The number of its entries.
    pub writes: u8,
}

/// The block of a message. See [`encode_into`].
pub fn encode(message: &Message) -> [u8; BLOCK] {
    let mut block = [0u8; BLOCK];
    encode_into(message, &mut block);
    block
}

/// Writes the block of a message, whatever the bytes were before.
///
/// The fields go in as they are: a message that breaks the form gives a block that [`decode`]
/// refuses.
///
/// # Panics
///
/// If the message has more than 6 records or a record more than 8 entries: no block holds it.
pub fn encode_into(message: &Message, block: &mut [u8; BLOCK]) {
    assert!(message.records.len() <= RECORDS, "more than 6 records");
    let header = Header {
        kind: message.kind,
        sender: message.sender,
        replicas: message.replicas,
        count: message.records.len() as u8,
        slot: message.slot,
    };
    let records = message.records.iter().map(|record| {
        assert!(record.entries.len() <= ENTRIES, "more than 8 entries");
        let entries = record.entries.iter().map(|entry| (entry.item, entry.value));
        (record.ticket, entries)
    });
    encode_records(&header, records, block);
}

/// Writes the block of a header and as many records as its count says, at most 6: each a ticket
/// and at most 8 entries.
pub fn encode_records<E>(
    header: &Header,
    records: impl Iterator<Item = (u32, E)>,
    block: &mut [u8; BLOCK],
) where
    E: ExactSizeIterator<Item = (u8, i32)>,
{
    *block = [0; BLOCK];
    put_header(block, header);
    let (parts, _) = block[HEADER..CHECKED].as_chunks_mut();
    for (part, (ticket, entries)) in parts.iter_mut().zip(records) {
        put_record(part, ticket, entries);
    }
    put_check(block);
}

/// The message of a block, or why it is refused. See [`read`].
pub fn decode(bytes: &[u8]) -> Result<Message, u8> {
    let header = read(bytes)?;
    Ok(message(&header, bytes))
}

/// The message of a block that [`read`] accepted and gave this header of.
pub fn message(header: &Header, bytes: &[u8]) -> Message {
    let (parts, _) = bytes[HEADER..].as_chunks();
    Message {
        kind: header.kind,
        sender: header.sender,
        replicas: header.replicas,
        slot: header.slot,
        records: parts[..usize::from(header.count)]
            .iter()
            .map(record)
            .collect(),
    }
}

/// The header of a block, or why the block is refused: 1, 14 or 15, the first that applies.
/// All of the block is checked, and nothing is allocated.
pub fn read(bytes: &[u8]) -> Result<Header, u8> {
    let block: &[u8; BLOCK] = bytes.try_into().map_err(|_| WRONG_LENGTH)?;
    if !check_matches(block) {
        return Err(WRONG_CHECK);
    }
    if !well_formed(block) {
        return Err(WRONG_FORM);
    }
    Ok(header(block))
}

/// The check: with w(i) the 16-bit word at byte 2·i, i from 0 to 251, the sum of w(i) and the sum
/// of (252 − i)·w(i), both whole.
pub fn check(bytes: &[u8; CHECKED]) -> (u32, u32) {
    // Both fit 32 bits: at most 252·65,535 and 252·253/2·65,535.
    let mut first = 0u32;
    let mut second = 0u32;
    let (words, _) = bytes.as_chunks();
    for (i, &word) in words.iter().enumerate() {
        let word = u32::from(u16::from_le_bytes(word));
        first += word;
        second += (252 - i as u32) * word;
    }
    (first, second)
}

/// Whether the last eight bytes are the check of the others.
pub fn check_matches(block: &[u8; BLOCK]) -> bool {
    let (bytes, stored) = block.split_first_chunk().unwrap();
    let (first, second) = check(bytes);
    stored[..4] == first.to_le_bytes() && stored[4..] == second.to_le_bytes()
}

/// Puts the check of the first 504 bytes behind them.
pub fn put_check(block: &mut [u8; BLOCK]) {
    let (bytes, stored) = block.split_first_chunk_mut().unwrap();
    let (first, second) = check(bytes);
    stored[..4].copy_from_slice(&first.to_le_bytes());
    stored[4..].copy_from_slice(&second.to_le_bytes());
}

/// Whether the block is well formed. The check is not looked at.
pub fn well_formed(block: &[u8; BLOCK]) -> bool {
    let header = header(block);
    match (header.kind, header.count) {
        (NEXT, 0) | (TO_COMMIT, 1..=6) => {}
        _ => return false,
    }
    if !(2..=6).contains(&header.replicas)
        || header.slot > MAX_SLOT
        || u32::from(header.sender) != header.slot % u32::from(header.replicas)
        || block[8..HEADER] != [0; 8]
    {
        return false;
    }
    let (used, unused) = block[HEADER..CHECKED].split_at(usize::from(header.count) * RECORD);
    let (records, _) = used.as_chunks();
    is_zero(unused) && records.iter().all(well_formed_record) && tickets_differ(records)
}

fn well_formed_record(part: &[u8; RECORD]) -> bool {
    let ticket = word(part, 0);
    // The zero bytes behind a one-byte field are tested with it, as one 32-bit number.
    let writes = word(part, 4);
    if !(1..=MAX_TICKET).contains(&ticket) || !(1..=8).contains(&writes) {
        return false;
    }
    let (entries, _) = part[RECORD_HEAD..].as_chunks::<ENTRY>();
    let (used, unused) = entries.split_at(writes as usize);
    // Where the items rise, the last is the highest.
    used.is_sorted_by(|a, b| word(a, 0) < word(b, 0))
        && word(&used[used.len() - 1], 0) <= u32::from(MAX_ITEM)
        && is_zero(unused.as_flattened())
}

fn tickets_differ(records: &[[u8; RECORD]]) -> bool {
    (1..records.len()).all(|j| {
        let ticket = word(&records[j], 0);
        records[..j].iter().all(|other| word(other, 0) != ticket)
    })
}

/// The header of a block, whatever its bytes are.
pub fn header(block: &[u8; BLOCK]) -> Header {
    Header {
        kind: block[0],
        sender: block[1],
        replicas: block[2],
        count: block[3],
        slot: word(block, 4),
    }
}

/// Ticket and number of writes of record j, whatever the bytes are.
///
/// # Panics
///
/// If j is above 5.
pub fn record_head(block: &[u8; BLOCK], j: usize) -> RecordHead {
    assert!(j < RECORDS, "record {j} of a block");
    let part = &block[HEADER + RECORD * j..];
    RecordHead {
        ticket: word(part, 0),
        writes: part[4],
    }
}

/// Entry e of record j, whatever the bytes are.
///
/// # Panics
///
/// If j is above 5 or e above 7.
pub fn entry(block: &[u8; BLOCK], j: usize, e: usize) -> Entry {
    assert!(j < RECORDS && e < ENTRIES, "entry {e} of record {j}");
    let part = &block[HEADER + RECORD * j + RECORD_HEAD + ENTRY * e..];
    Entry {
        item: part[0],
        value: word(part, 4) as i32,
    }
}

/// The record in a part that is well formed.
fn record(part: &[u8; RECORD]) -> Record {
    let writes = usize::from(part[4]);
    Record {
        ticket: word(part, 0),
        entries: part[RECORD_HEAD..]
            .chunks_exact(ENTRY)
            .take(writes)
            .map(|entry| Entry {
                item: entry[0],
                value: word(entry, 4) as i32,
            })
            .collect(),
    }
}

/// Writes the header into a block of zeros.
fn put_header(block: &mut [u8; BLOCK], header: &Header) {
    block[0] = header.kind;
    block[1] = header.sender;
    block[2] = header.replicas;
    block[3] = header.count;
    block[4..8].copy_from_slice(&header.slot.to_le_bytes());
}

/// Writes a record of at most 8 entries into a part of zeros.
fn put_record(
    part: &mut [u8; RECORD],
    ticket: u32,
    entries: impl ExactSizeIterator<Item = (u8, i32)>,
) {
    part[..4].copy_from_slice(&ticket.to_le_bytes());
    part[4] = entries.len() as u8;
    let (places, _) = part[RECORD_HEAD..].as_chunks_mut::<ENTRY>();
    for (place, (item, value)) in places.iter_mut().zip(entries) {
        place[0] = item;
        place[4..].copy_from_slice(&value.to_le_bytes());
    }
}

/// The 32-bit number at a byte.
fn word(bytes: &[u8], at: usize) -> u32 {
    u32::from_le_bytes(bytes[at..at + 4].try_into().unwrap())
}

/// Whether all of a part of a block is zero: one comparison of memory, since a loop that can stop
/// at any byte goes byte by byte.
fn is_zero(part: &[u8]) -> bool {
    const ZEROS: [u8; BLOCK] = [0; BLOCK];
    *part == ZEROS[..part.len()]
}

#[cfg(test)]
mod tests;
