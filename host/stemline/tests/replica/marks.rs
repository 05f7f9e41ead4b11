//! A mark of the turn is on where it is any number but 0: replicas whose marks are altered before
//! every call, beside the model.

use model::drive::{start_values, Group, Peers, Seen, Subject, STYLES};
use model::replica::{Report, ITEMS};
use model::samples::Random;
use model::trace::{Answer, Call};
use stemline::ffi::Turn;

use crate::both::Both;
use crate::seeds::Seeds;

const CALLS: usize = 2_000;
const RUNS: u64 = 60;

struct Marked {
    both: Both,
    random: Random,
}

impl Marked {
    fn new(both: Both, seed: u64) -> Marked {
        let random = Random::new(seed);
        Marked { both, random }
    }

    /// Puts other numbers for the marks that are on.
    fn alter(&mut self) -> Turn {
        let mut memory = self.both.library.memory().clone();
        for mark in [&mut memory.turn.sent, &mut memory.turn.applying] {
            if *mark != 0 {
                let any = 1 + self.random.below(255) as u8;
                *mark = self.random.pick(&[2, 255, any]);
            }
        }
        let turn = memory.turn;
        self.both.put(memory);
        turn
    }
}

impl Subject for Marked {
    fn call(&mut self, call: &Call) -> Result<Answer, u8> {
        let before = self.alter();
        let answer = self.both.call(call);
        let memory = self.both.library.memory();
        let due = match &answer {
            Ok(Answer::Block(_)) => Turn { sent: 1, ..before },
            Ok(Answer::Work(work)) if work.moved => Turn {
                slot: before.slot + 1,
                sent: 0,
                applying: 0,
            },
            Ok(Answer::Work(work)) if work.sender != memory.group.own => Turn {
                applying: 1,
                ..before
            },
            _ => before,
        };
        assert_eq!(memory.turn, due, "{call:?}, {answer:?}");
        answer
    }

    fn report(&self) -> Report {
        self.both.report()
    }

    fn values(&self) -> [i32; ITEMS] {
        self.both.values()
    }
}

#[test]
fn any_number_but_0_is_on() {
    let mut seen = Seen::default();
    let seeds = Seeds::new(RUNS);
    seeds.each(|seed| {
        let n = 2 + seed as u32 % 5;
        let style = STYLES[seed as usize / 5 % 4].with_notices([0, 6][seed as usize % 2]);
        let mut random = Random::new(seed);
        let replica = |own| Marked::new(Both::new(n, own, &start_values()), seed);
        let mut group = Group::new((0..n).map(replica).collect(), style);
        group.add_station(Marked::new(Both::station(n, &start_values()), seed));
        let mut single = replica(0);
        let mut peers = Peers::new(n, 0, single.report());
        for _ in 0..CALLS {
            group.random_call(&mut random);
            let call = peers.random_call(&mut random, style);
            let answer = single.call(&call);
            peers.feed(&call, &answer);
        }
        group.settle(2);
        assert_eq!(group.violations(), [""; 0]);
        seen.add(&group.seen);
        seen.add(&peers.seen);
    });
    // The numbers that a mark decides: 7, 12 and 23 where it is on, 19 most often where it is off.
    let met = |(number, least): (usize, u64)| seen.refused[number] >= least;
    let least = [(7, 1_000), (12, 1_000), (19, 1_000), (23, 100)];
    assert!(seeds.runs < RUNS || least.into_iter().all(met), "{seen:?}");
}
