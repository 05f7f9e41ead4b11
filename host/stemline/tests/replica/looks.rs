//! Blocks and journals to look at: what `Block` and `Blocks` read is what the model reads, and what a restart
//! takes up; and their lines.

use model::block::{
    self, Entry as Second, Message, Record as SecondRecord, BLOCK, NEXT, TO_COMMIT,
};
use model::drive::{start_values, STYLES};
use model::samples::{self, block_of, Random};
use stemline::ffi::{self, BlockReply, Entry, Header, RecordHead};
use stemline::{Block, Blocks, DigitsError, Refusal, Replica, Report, Stop};

use crate::restarts::journal;
use crate::seeds::Seeds;

/// A block as the model has it.
fn message(block: &Block) -> Message {
    let records = block.records().map(|record| SecondRecord {
        ticket: record.ticket,
        entries: record
            .entries
            .iter()
            .map(|&Entry { item, value }| Second { item, value })
            .collect(),
    });
    Message {
        kind: if block.is_next() { NEXT } else { TO_COMMIT },
        sender: block.sender(),
        replicas: block.replicas(),
        slot: block.slot(),
        records: records.collect(),
    }
}

/// The line of a message.
fn line(message: &Message) -> String {
    let records: Vec<String> = message.records.iter().map(record_line).collect();
    format!(
        "slot {} of replica {} of {}: {}",
        message.slot,
        message.sender,
        message.replicas,
        match records.len() {
            0 => "nothing".to_string(),
            _ => records.join("; "),
        }
    )
}

fn record_line(record: &SecondRecord) -> String {
    let set = |entry: &Second| format!("{} = {}", entry.item, entry.value);
    let set: Vec<String> = record.entries.iter().map(set).collect();
    format!("ticket {} sets {}", record.ticket, set.join(", "))
}

/// Reads bytes by the crate and by the model, and gives the number.
fn read(bytes: &[u8]) -> u8 {
    match (Block::read(bytes), block::decode(bytes)) {
        (Ok(block), Ok(due)) => {
            assert_eq!(message(&block), due);
            assert_eq!(block.records().len(), due.records.len());
            assert_eq!(block.bytes()[..], *bytes);
            assert_eq!(block.to_string(), line(&due));
            0
        }
        (Err(refusal), Err(due)) => {
            assert_eq!(refusal.number(), due);
            let header = Header::default();
            let number = due;
            assert_eq!(ffi::block_header(bytes), BlockReply { number, header });
            due
        }
        (read, due) => panic!("{read:?}, and the model {due:?}"),
    }
}

/// A message of any sort that the samples have.
fn sample(random: &mut Random) -> Message {
    match random.below(8) {
        0 => samples::marked_next(),
        1 => samples::marked_record(),
        2 => samples::next(random),
        3 => samples::full(random),
        4 => {
            let records = 1 + random.below(6);
            samples::to_commit(random, records)
        }
        _ => samples::message(random),
    }
}

/// Every kind of sample, good, damaged, of another form or another length, and random bytes.
#[test]
fn blocks_are_read_as_the_model_reads_them() {
    // How often each number came back.
    let mut met = [0u32; 16];
    let seeds = Seeds::new(4_000);
    seeds.each(|seed| {
        let mut random = Random::new(seed);
        let mut bytes = block::encode(&sample(&mut random));
        assert_eq!(read(&bytes), 0);
        let number = match random.below(4) {
            0 => {
                samples::damage(&mut random, &mut bytes);
                read(&bytes)
            }
            1 => {
                samples::break_form(&mut random, &mut bytes);
                read(&bytes)
            }
            2 => {
                random.fill(&mut bytes);
                read(&bytes)
            }
            _ => read(&bytes.repeat(2)[..random.below(2 * BLOCK + 1)]),
        };
        met[usize::from(number)] += 1;
    });
    let enough = [1, 14, 15].iter().all(|&number: &usize| met[number] > 100);
    assert!(seeds.runs < 4_000 || enough, "{met:?}");
}

/// Records and entries of any bytes, at each place and past them, and at other lengths.
#[test]
fn records_and_entries_of_any_bytes() {
    let mut random = Random::new(9);
    for _ in 0..200 {
        let mut bytes = [0; BLOCK];
        random.fill(&mut bytes);
        let short = &bytes[..random.below(BLOCK)];
        let long = [&bytes[..], &[7]].concat();
        for j in (0..9).chain([256, 1 << 31, u32::MAX]) {
            let due = match j {
                0..6 => block::record_head(&bytes, j as usize),
                _ => block::RecordHead::default(),
            };
            let RecordHead { ticket, writes } = ffi::block_record(&bytes, j);
            assert_eq!((ticket, writes), (due.ticket, due.writes), "record {j}");
            for other in [short, &long] {
                assert_eq!(ffi::block_record(other, j), RecordHead::default());
            }
            for e in (0..11).chain([256, 1 << 31, u32::MAX]) {
                let due = match (j, e) {
                    (0..6, 0..8) => block::entry(&bytes, j as usize, e as usize),
                    _ => Second::default(),
                };
                let Entry { item, value } = ffi::block_entry(&bytes, j, e);
                assert_eq!((item, value), (due.item, due.value), "entry {e} of {j}");
                for other in [short, &long] {
                    assert_eq!(ffi::block_entry(other, j, e), Entry::default());
                }
            }
        }
    }
}

#[test]
fn lines() {
    let written = block_of(3, 7, &[(4, &[(5, 84), (9, -3)]), (6, &[(2, 1)])]);
    let block = Block::read(&written).unwrap();
    let due = "slot 7 of replica 1 of 3: ticket 4 sets 5 = 84, 9 = -3; ticket 6 sets 2 = 1";
    assert_eq!(block.to_string(), due);
    assert_eq!(format!("{block:?}"), due);
    assert_eq!((block.slot(), block.sender(), block.replicas()), (7, 1, 3));
    assert!(!block.is_next());
    let next = Block::read(&block_of(3, 8, &[])).unwrap();
    assert_eq!(next.to_string(), "slot 8 of replica 2 of 3: nothing");
    assert!(next.is_next());
    let report = Report {
        turn: 1,
        commits: 2,
        tickets: 3,
        open_count: 4,
        committed: 5,
        read_only: 6,
        aborted: 7,
        withdrawn: 8,
    };
    let due =
        "turn 1, commits 2; tickets 3: open 4, committed 5, read-only 6, aborted 7, withdrawn 8";
    assert_eq!(report.to_string(), due);
}

/// The digits of bytes.
pub fn digits(bytes: &[u8]) -> String {
    bytes.iter().map(|byte| format!("{byte:02x}")).collect()
}

#[test]
fn blocks_from_digits() {
    let mut random = Random::new(1);
    for _ in 0..200 {
        let bytes = block::encode(&sample(&mut random));
        let small = digits(&bytes);
        let block = Block::read(&bytes).unwrap();
        assert_eq!(small.parse(), Ok(block.clone()));
        assert_eq!(small.to_uppercase().parse(), Ok(block));
    }
    let good = digits(&block_of(2, 1, &[]));
    let said = |text: &str| text.parse::<Block>().unwrap_err();
    for wrong in [
        "",
        "1",
        &good[1..],
        &good[2..],
        &format!("{good}0"),
        &format!("{good}00"),
    ] {
        assert_eq!(said(wrong), DigitsError::WrongCount(wrong.len()));
    }
    let words = "a block has 1024 hexadecimal digits, and here are 1023";
    assert_eq!(said(&good[1..]).to_string(), words);
    for (no_digit, words) in [
        ('g', "'g' is not a hexadecimal digit"),
        ('\n', "'\\n' is not a hexadecimal digit"),
        ('٣', "'٣' is not a hexadecimal digit"),
    ] {
        let text = format!("{}{no_digit}", &good[1..]);
        assert_eq!(said(&text), DigitsError::NotADigit(no_digit));
        assert_eq!(said(&text).to_string(), words);
    }
    // The kind, which the check covers, and then the form alone.
    let damaged = format!("03{}", &good[2..]);
    assert_eq!(said(&damaged), DigitsError::Refused(Refusal::WrongCheck));
    assert_eq!(
        said(&damaged).to_string(),
        "the block's check does not match (14)"
    );
    let mut bytes = block_of(2, 1, &[]);
    bytes[0] = 3;
    block::put_check(&mut bytes);
    let refused = said(&digits(&bytes));
    assert_eq!(refused, DigitsError::Refused(Refusal::WrongForm));
}

/// The good blocks of a journal, why they stop, and the bytes behind them.
pub fn read_through(journal: &[u8]) -> (Vec<Block>, Stop, u64) {
    let (mut blocks, mut good) = (Blocks::new(journal), Vec::new());
    loop {
        match blocks.next_block().unwrap() {
            Ok(block) => good.push(block),
            Err(stop) => return (good, stop, blocks.left().unwrap()),
        }
    }
}

/// By the model: why a restart stops behind so many blocks of a group of `n`.
fn stop(n: u32, journal: &[u8], count: usize) -> Stop {
    let rest = &journal[BLOCK * count..];
    match rest.first_chunk::<BLOCK>().map(|block| block::read(block)) {
        None if rest.is_empty() => Stop::End,
        None => Stop::Torn(rest.len()),
        Some(Err(number)) => Stop::Refused(Refusal::from_number(number).unwrap()),
        Some(Ok(header)) if u32::from(header.replicas) != n => Stop::Group {
            found: header.replicas,
            due: n as u8,
        },
        Some(Ok(header)) => Stop::Slot {
            found: header.slot,
            due: count as u32,
        },
    }
}

/// The sizes of a group whose restart may take something up: the one that the first block names, where it is
/// good, else any.
pub fn sizes(journal: &[u8]) -> Vec<u32> {
    let first = journal.first_chunk::<BLOCK>();
    match first.map(|block| block::read(block)) {
        Some(Ok(header)) => vec![u32::from(header.replicas)],
        _ => (2..=6).collect(),
    }
}

/// Good, cut, damaged, forged and random journals: the good blocks are those that a restart commits.
#[test]
fn journals_are_read_as_a_restart_reads_them() {
    let mut met = [0u32; 6];
    let seeds = Seeds::new(600);
    seeds.each(|seed| {
        let mut random = Random::new(seed);
        let n = 2 + seed as u32 % 5;
        let journal = journal(&mut random, n, STYLES[seed as usize / 5 % 4]);
        let (good, why, left) = read_through(&journal);
        for n in sizes(&journal) {
            let own = random.below(n as usize) as u32;
            let restarted = Replica::restart(n, own, &start_values(), &journal, &[]);
            assert_eq!(good.len(), restarted.unwrap().1.blocks as usize);
            assert_eq!(why, stop(n, &journal, good.len()));
        }
        let bytes: Vec<u8> = good.iter().flat_map(|block| *block.bytes()).collect();
        assert!(journal.starts_with(&bytes));
        assert_eq!(left as usize, journal.len() - bytes.len());
        met[match why {
            Stop::End => 0,
            Stop::Torn(_) => 1,
            Stop::Refused(Refusal::WrongCheck) => 2,
            Stop::Refused(_) => 3,
            Stop::Group { .. } => 4,
            Stop::Slot { .. } => 5,
        }] += 1;
    });
    let enough = met.iter().all(|&count| count >= 5);
    assert!(seeds.runs < 600 || enough, "{met:?}");
}
