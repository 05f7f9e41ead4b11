//! A take beside the calls that it stands for: a deliver, and works until nothing waits.

use model::drive::{start_values, Group, Peers, Powered, Subject, STYLES};
use model::replica::{self as second, Report, ITEMS};
use model::samples::{block_of, Random};
use model::trace::{Answer, Call};
use stemline::{Recorder, Refusal, Replica, StationRecorder, BLOCK, LEFT, REPLICAS, STEPS};

use crate::both::{stepped, worked, Both};
use crate::seeds::Seeds;

const CALLS: usize = 2_000;
const RUNS: u64 = 40;

/// What takes gave: refused, without a step, with the steps of one block, of several.
#[derive(Clone, Debug, Default)]
struct Met {
    refused: u32,
    early: u32,
    one: u32,
    several: u32,
}

impl Met {
    fn add(&mut self, other: &Met) {
        self.refused += other.refused;
        self.early += other.early;
        self.one += other.one;
        self.several += other.several;
    }
}

/// A pair, of replicas or stations, at which each deliver is tried as a take before.
struct Taking {
    both: Both,
    met: Met,
}

impl Taking {
    fn new(both: Both) -> Taking {
        let met = Met::default();
        Taking { both, met }
    }

    /// On copies: a take by the library, and the calls by library and model.
    fn take(&mut self, bytes: &[u8]) {
        let mut calls = self.both.clone();
        let mut library = self.both.library.clone();
        let taken = library.take(bytes);
        let delivered = calls.call(&Call::Deliver {
            bytes: bytes.to_vec(),
        });
        let due = delivered.map(|_| works(&mut calls));
        match &due {
            Err(_) => self.met.refused += 1,
            Ok(steps) => match steps.iter().filter(|step| step.moved).count() {
                0 => self.met.early += 1,
                1 => self.met.one += 1,
                _ => self.met.several += 1,
            },
        }
        if let Some(mut station) = self.both.station.clone() {
            let taken = station.take(bytes);
            let steps = taken.map(|taken| taken.steps.into_iter().map(stepped).collect());
            assert_eq!(steps.map_err(Refusal::number), due, "a station's take");
            assert!(station.memory() == library.memory(), "another memory");
        } else {
            let first = self.both.disk().len() / BLOCK;
            let left =
                (first as u32..library.report().turn).map(|slot| library.window().block(slot));
            let appended: Vec<u8> = left.flat_map(|block| *block.unwrap()).collect();
            assert!(appended == calls.disk()[self.both.disk().len()..]);
        }
        let given = taken.map(|taken| taken.steps.iter().map(worked).collect());
        assert_eq!(given.map_err(Refusal::number), due);
        assert!(library.memory() == calls.library.memory(), "another memory");
    }
}

/// As many as a take has: a member that lacks a Back may have all others out, and works come to no end.
fn works(both: &mut Both) -> Vec<second::Work> {
    let mut steps: Vec<second::Work> = Vec::new();
    while steps.len() < STEPS && steps.iter().filter(|step| step.moved).count() < LEFT {
        match both.call(&Call::Work) {
            Ok(Answer::Work(step)) => steps.push(step),
            answer => {
                assert_eq!(answer, Err(21));
                break;
            }
        }
    }
    steps
}

impl Subject for Taking {
    fn call(&mut self, call: &Call) -> Result<Answer, u8> {
        if let Call::Deliver { bytes } = call {
            self.take(bytes);
        }
        self.both.call(call)
    }

    fn report(&self) -> Report {
        self.both.report()
    }

    fn values(&self) -> [i32; ITEMS] {
        self.both.values()
    }
}

#[test]
fn a_take_is_a_deliver_and_its_works() {
    let mut met = Met::default();
    let seeds = Seeds::new(RUNS);
    seeds.each(|seed| {
        let n = 2 + seed as u32 % 5;
        let style = STYLES[seed as usize / 5 % 4];
        let mut random = Random::new(seed);
        let replica = |own| Taking::new(Both::new(n, own, &start_values()));
        let style = style.with_notices([0, 8][seed as usize % 2]);
        let mut group = Group::new((0..n).map(replica).collect(), style);
        group.add_station(Taking::new(Both::station(n, &start_values())));
        let mut single = replica(0);
        let mut peers = Peers::new(n, 0, single.report());
        for _ in 0..CALLS {
            group.random_call(&mut random);
            let call = peers.random_call(&mut random, style);
            let answer = single.call(&call);
            peers.feed(&call, &answer);
        }
        group.members.iter().for_each(|member| met.add(&member.met));
        met.add(&single.met);
    });
    let least = [met.refused, met.early, met.one, met.several];
    let enough = least.iter().all(|&count| count >= 500);
    assert!(seeds.runs < RUNS || enough, "{met:?}");
}

/// Replica 0 of 6, at its turn, with six transactions sent and the full blocks of all others waiting, behind
/// which all but the last are out; and its own block, with which it has all to do that a replica can have.
fn all_waiting() -> (Replica, [u8; 512]) {
    let mut replica = Replica::new(REPLICAS as u32, 0, &start_values()).unwrap();
    for item in 0..6 {
        let ticket = replica.begin().unwrap();
        replica.write(ticket, item, -1).unwrap();
        replica.ask(ticket).unwrap();
    }
    let own = replica.send().unwrap();
    for slot in 1..6 {
        let records: Vec<(u32, [(u8, i32); 1])> = (1..=6)
            .map(|ticket| (ticket, [(ticket as u8, slot as i32)]))
            .collect();
        let records: Vec<(u32, &[(u8, i32)])> = records
            .iter()
            .map(|(ticket, entries)| (*ticket, &entries[..]))
            .collect();
        let taken = replica.take(&block_of(6, slot, &records)).unwrap();
        assert!(taken.steps.is_empty());
    }
    for k in 0..5 {
        replica.out(k, 6 + k).unwrap();
    }
    (replica, own)
}

/// The most steps; and a take that is refused leaves what waits.
#[test]
fn the_most_steps() {
    let (mut replica, own) = all_waiting();
    let before = replica.clone();
    let mut damaged = own;
    damaged[20] ^= 1;
    assert_eq!(replica.take(&damaged), Err(Refusal::WrongCheck));
    assert_eq!(replica.take(&own[1..]), Err(Refusal::WrongLength));
    assert!(replica == before, "changed by a refused take");
    let taken = replica.take(&own).unwrap();
    assert_eq!(taken.steps.len(), STEPS);
    assert_eq!(replica.report().turn as usize, LEFT);
    assert_eq!(replica.work(), Err(Refusal::NothingWaits));
    assert_eq!(replica.take(&own), Err(Refusal::PastSlot));
}

/// Where all are out there is no end of slots to pass: a take leaves some, and the rest goes on waiting.
#[test]
fn all_are_out() {
    let mut replica = Replica::new(2, 0, &start_values()).unwrap();
    let own = replica.send().unwrap();
    replica.out(1, 1).unwrap();
    replica.out(0, 2).unwrap();
    assert_eq!(replica.take(&own).unwrap().steps.len(), LEFT);
    assert_eq!(replica.report().turn as usize, LEFT);
    assert!(replica.waits() && !replica.is_turn());
    assert_eq!(replica.work().map(|work| work.sender), Ok(1));
}

/// A take asks for no work that has nothing to do: of a block at its turn one work is recorded, of an early one
/// none.
#[test]
fn no_work_is_refused() {
    let values = [0; ITEMS];
    let mut first = Recorder::new(2, 0, &values, Vec::new(), Vec::new()).unwrap();
    let mut second = Replica::new(2, 1, &values).unwrap();
    let mut station = StationRecorder::new(2, 7, &values, Vec::new(), Vec::new()).unwrap();
    let blocks = [first.send().unwrap(), {
        second.take(&first.replica().memory().outbox).unwrap();
        second.send().unwrap()
    }];
    assert!(!first.replica().waits());
    first.deliver(&blocks[0]).unwrap();
    assert!(first.replica().waits(), "the own block");
    first.work().unwrap();
    assert!(!first.replica().waits());
    first.take(&blocks[1]).unwrap();
    station.take(&blocks[1]).unwrap();
    station.take(&blocks[0]).unwrap();
    let (_, _, answers) = first.into_parts();
    let (_, _, of_station) = station.into_parts();
    let numbers = |answers: Vec<u8>| {
        let text = String::from_utf8(answers).unwrap();
        let works = text.lines().map(|line| match line.split(' ').count() {
            1 => "0".to_string(),
            5 => "work".to_string(),
            _ => "block".to_string(),
        });
        (!text.contains("21\n")).then(|| works.collect::<Vec<_>>())
    };
    let due = ["0", "block", "0", "work", "0", "work"];
    assert_eq!(numbers(answers).unwrap(), due);
    assert_eq!(
        numbers(of_station).unwrap(),
        ["0", "0", "0", "work", "work"]
    );
}

/// Altered memory: the writeset of an own transaction that is gone is committed and ends nobody, as the steps
/// beside it; and of more steps than a replica can have the rest is left.
#[test]
fn altered_memory() {
    let (replica, own) = all_waiting();
    let altered = |alter: &dyn Fn(&mut stemline::Memory)| {
        let mut memory = replica.memory().clone();
        alter(&mut memory);
        Replica::from_memory(memory)
    };
    let mut gone = altered(&|memory| memory.table[2].ticket = 0);
    let taken = gone.take(&own).unwrap();
    let tickets: Vec<u32> = taken.steps.iter().map(|step| step.ticket).collect();
    assert_eq!(tickets[..6], [1, 2, 3, 4, 5, 6]);
    assert_eq!(taken.steps.len(), STEPS);
    // One ending less than writesets of its own.
    assert_eq!(gone.report().committed, 5);
    assert_eq!(gone.report().open_count, 0);

    let mut many = altered(&|memory| memory.places[512 + 3] = 200);
    let taken = many.take(&own).unwrap();
    assert_eq!(taken.steps.len(), STEPS);
    assert_eq!(many.report().turn, 1);
    assert!(many.work().is_ok(), "the rest is left");
}
