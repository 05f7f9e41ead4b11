//! A restart from a long journal by the proved library, the plain replica and the second model.

use std::hint::black_box;

use bench::plain;
use bench::timing::{self, Case, Side};
use model::block::{self, Message, Record};
use model::replica as second;
use model::samples::{self, Random};

const ITEMS: usize = 128;
const BLOCKS: u32 = 100_000;
const ROUNDS: usize = 21;
const N: u32 = 6;
const OWN: u32 = 2;

pub fn run() {
    let journal = journal();
    agree(&journal);
    let values = [0; ITEMS];
    let side = |restart: &'static dyn Fn(&[i32; ITEMS], &[u8]) -> u32| {
        let journal = &journal;
        Side::timed(
            BLOCKS as usize,
            || (),
            move |()| {
                black_box(restart(&values, black_box(journal)));
            },
        )
    };
    let mut cases = [Case::new(
        "restart, for each block",
        vec![
            side(&|values, journal| {
                let restarted = stemline::Replica::restart(N, OWN, values, journal, &[]);
                restarted.unwrap().1.blocks
            }),
            side(&|values, journal| {
                let restarted = plain::Replica::restart(N, OWN, values, journal, &[]);
                restarted.unwrap().1.blocks
            }),
            side(&|values, journal| {
                let restarted = second::Replica::restart(N, OWN, values, journal, &[]);
                restarted.unwrap().1.count
            }),
        ],
    )];
    timing::run(&mut cases, ROUNDS);

    println!();
    println!(
        "Restart from a journal of {BLOCKS} full blocks. Nanoseconds for each block, median of"
    );
    println!("{ROUNDS} rounds; the journal is in memory.");
    println!();
    timing::print(&["library", "plain", "model"], &cases);
}

/// Full blocks, of six writesets with eight items each; tickets rise.
fn journal() -> Vec<u8> {
    let mut random = Random::new(3);
    let samples: Vec<Message> = (0..64).map(|_| samples::full(&mut random)).collect();
    let block = |slot: u32| {
        let sample = &samples[slot as usize % samples.len()];
        let records = sample.records.iter().zip(1..);
        let records = records.map(|(record, at)| Record {
            ticket: 6 * (slot / N) + at,
            ..record.clone()
        });
        block::encode(&Message {
            kind: sample.kind,
            sender: (slot % N) as u8,
            replicas: N as u8,
            slot,
            records: records.collect(),
        })
    };
    (0..BLOCKS).flat_map(block).collect()
}

/// Times mean nothing unless all do the same: stops where they differ.
fn agree(journal: &[u8]) {
    let values = [0; ITEMS];
    for bytes in [journal.len(), journal.len() - 1, 513, 512, 0] {
        let journal = &journal[..bytes];
        let (a, first) = stemline::Replica::restart(N, OWN, &values, journal, &[]).unwrap();
        let (b, other) = plain::Replica::restart(N, OWN, &values, journal, &[]).unwrap();
        let (c, third) = second::Replica::restart(N, OWN, &values, journal, &[]).unwrap();
        assert_eq!((first.blocks, first.last), (other.blocks, other.last));
        assert_eq!(first.blocks, third.count);
        assert!(first.last.unwrap_or([0; 512]) == *third.block);
        assert_eq!(b.report(), c.report());
        assert_eq!(a.report().commits, c.report().commits);
        assert_eq!(a.report().committed, c.report().committed);
        assert!(a.values() == b.values() && a.values() == c.values());
        assert!(a.memory().stamps == c.stamps);
        assert_eq!(first.blocks as usize, bytes / 512);
    }
}
