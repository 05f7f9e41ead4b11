//! That the kit finds nothing wrong with the driver, and something with wrong ones.

use std::collections::BTreeSet;

use super::*;
use crate::driver::{Answer, Body, Frame, Input, Output, Peer};
use crate::Block;

/// The seeds that the wrong ones are tried with.
const SEEDS: std::ops::Range<u64> = 0..150;

#[test]
fn seeds() {
    let mut seen = Seen::default();
    for seed in SEEDS {
        seen.add(&run(seed).unwrap());
    }
    println!("{seen}");
    // Each of what can happen does.
    let Seen {
        cuts,
        disks,
        partitions,
        lost,
        notices,
        givings,
        dropped,
        committed,
        aborted,
        others,
        ..
    } = seen;
    let met = [
        cuts, disks, partitions, lost, notices, givings, dropped, committed, aborted, others,
    ];
    assert!(met.iter().all(|&count| count > 10), "{seen}");
}

#[test]
fn the_same_again() {
    for seed in [3, 44, 1_000_003] {
        assert_eq!(run(seed), run(seed));
    }
}

/// What is wrong with the first run in which something is.
fn wrong<T: Tamper + 'static>(tamper: impl Fn() -> T) -> String {
    wrong_by(Plan::of, tamper)
}

fn wrong_by<T: Tamper + 'static>(plan: fn(u64) -> Plan, tamper: impl Fn() -> T) -> String {
    let mut played = SEEDS.map(|seed| {
        let tamper = Box::new(tamper());
        play(Simulation::with(seed, plan(seed), tamper))
    });
    let complaint = played.find_map(Result::err);
    let words = complaint.expect("nothing is found").to_string();
    println!("{words}");
    words
}

struct Disks(Syncs);

impl Tamper for Disks {
    fn starts(&mut self, _: usize, disk: &mut Disk) {
        disk.sync_by(self.0);
    }
}

#[test]
fn one_that_never_syncs() {
    wrong(|| Disks(Syncs::Never));
}

#[test]
fn one_that_hands_out_before_it_syncs() {
    wrong(|| Disks(Syncs::Late));
}

/// Begins anew with an empty disk.
#[derive(Default)]
struct Forgetful(BTreeSet<usize>);

impl Tamper for Forgetful {
    fn starts(&mut self, member: usize, disk: &mut Disk) {
        if !self.0.insert(member) {
            *disk = Disk::new();
        }
    }
}

#[test]
fn one_that_loses_its_journal() {
    wrong(Forgetful::default);
}

/// Takes blocks from whoever brings them.
struct Trusting;

impl Tamper for Trusting {
    fn input(&mut self, _: usize, input: Input) -> Option<Input> {
        let Input::Frame { from, frame } = input else {
            return Some(input);
        };
        let from = match &frame.body {
            Body::Block { block, .. } => {
                let block = Block::read(&block[..]).ok()?;
                Peer::Replica(block.sender().into())
            }
            _ => from,
        };
        Some(Input::Frame { from, frame })
    }
}

#[test]
fn one_that_takes_blocks_from_anybody() {
    wrong(|| Trusting);
}

/// Sends nothing twice, and does not say where it is.
#[derive(Default)]
struct Once(BTreeSet<(usize, Peer, Vec<u8>)>);

impl Tamper for Once {
    fn outputs(&mut self, member: usize, mut outputs: Vec<Output>) -> Vec<Output> {
        outputs.retain(|output| match output {
            Output::Send { to, bytes } => match Frame::decode(&bytes[4..]).unwrap().body {
                Body::Block { block, .. } => self.0.insert((member, *to, block.to_vec())),
                Body::Turn { .. } => false,
                _ => true,
            },
            _ => true,
        });
        outputs
    }
}

#[test]
fn one_that_never_sends_again() {
    let words = wrong(Once::default);
    assert!(words.contains("it does not come to rest"), "{words}");
}

/// Tells clients something of its own.
struct Telling(fn(Answer) -> Vec<Answer>);

impl Tamper for Telling {
    fn outputs(&mut self, _: usize, outputs: Vec<Output>) -> Vec<Output> {
        let told = |output| match output {
            Output::Tell { client, answer } => {
                let answers = self.0(answer).into_iter();
                answers
                    .map(|answer| Output::Tell { client, answer })
                    .collect()
            }
            output => vec![output],
        };
        outputs.into_iter().flat_map(told).collect()
    }
}

#[test]
fn ones_that_tell_wrongly() {
    let words = wrong(|| Telling(|_| Vec::new()));
    assert!(words.contains("clients wait"), "{words}");
    let words = wrong(|| Telling(|answer| vec![answer.clone(), answer]));
    assert!(words.contains("twice"), "{words}");
    // One that is committed is told to be aborted.
    let words = wrong(|| {
        Telling(|answer| match answer {
            Answer::Committed { ticket, tries, .. } => vec![Answer::Aborted { ticket, tries }],
            answer => vec![answer],
        })
    });
    assert!(words.contains("told Some(Aborted"), "{words}");
}

/// One of which nothing is known, since a disk failed, is told to be aborted: its block may be on the disk, where the
/// power goes before that is mended.
#[test]
fn one_that_tells_what_it_does_not_know() {
    let plan = |seed| {
        let mut plan = Plan::of(seed);
        (plan.weights.cut, plan.weights.fault) = (4, 8);
        plan
    };
    let words = wrong_by(plan, || {
        Telling(|answer| match answer {
            Answer::Unknown { ticket } => vec![Answer::Aborted { ticket, tries: 1 }],
            answer => vec![answer],
        })
    });
    assert!(words.contains("told Some(Aborted"), "{words}");
}

/// Tells that a transaction is committed as soon as it is asked.
#[derive(Default)]
struct Early {
    asked: Vec<(usize, u64)>,
    told: BTreeSet<u64>,
    place: Vec<u32>,
}

impl Tamper for Early {
    fn input(&mut self, member: usize, input: Input) -> Option<Input> {
        if let Input::Transact { client, .. } = &input {
            self.asked.push((member, *client));
        }
        Some(input)
    }

    fn outputs(&mut self, member: usize, mut outputs: Vec<Output>) -> Vec<Output> {
        self.place.resize(16, 0);
        for output in &outputs {
            if let Output::Committed(change) = output {
                self.place[member] = change.place;
            }
        }
        outputs.retain(|output| match output {
            Output::Tell { client, .. } => !self.told.contains(client),
            _ => true,
        });
        for (_, client) in self.asked.extract_if(.., |asked| asked.0 == member) {
            self.told.insert(client);
            let answer = Answer::Committed {
                ticket: 1,
                place: self.place[member] + 1,
                tries: 1,
            };
            outputs.push(Output::Tell { client, answer });
        }
        outputs
    }
}

#[test]
fn one_that_tells_too_early() {
    wrong(Early::default);
}

/// Hears no notices.
struct Deaf;

impl Tamper for Deaf {
    fn input(&mut self, member: usize, input: Input) -> Option<Input> {
        let deaf = member == 0 && matches!(input, Input::Notice(_));
        (!deaf).then_some(input)
    }
}

#[test]
fn one_that_hears_no_notices() {
    wrong(|| Deaf);
}

/// Asks for nothing that it lacks.
struct Proud;

impl Tamper for Proud {
    fn outputs(&mut self, _: usize, mut outputs: Vec<Output>) -> Vec<Output> {
        outputs.retain(|output| match output {
            Output::Send { bytes, .. } => {
                !matches!(Frame::decode(&bytes[4..]).unwrap().body, Body::Ask { .. })
            }
            _ => true,
        });
        outputs
    }
}

#[test]
fn one_that_asks_for_no_blocks() {
    wrong(|| Proud);
}
