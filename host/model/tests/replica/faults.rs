//! Replicas with a fault: each differs from the model in some call, and the observer objects to each
//! that demand 3 forbids.

use model::drive::{Group, Style};
use model::samples::Random;

use crate::common::start_values;
use crate::history::{Fault, Historical};
use crate::single::Pair;

/// Each fault, and whether demand 3 forbids it. Where not, only the contracts of the calls do:
/// what a write answers, what a report counts, when a number may be returned.
pub const FAULTS: [(Fault, bool); 16] = [
    (Fault::ArrivalOrder, true),
    (Fault::SparesAsked, true),
    (Fault::StaleAtAsk, false),
    (Fault::FreesSentLocks, true),
    (Fault::LateIntoBlock, true),
    (Fault::AlwaysNext, true),
    (Fault::FirstOnly, true),
    (Fault::DropsBlocks, true),
    (Fault::NoValues, true),
    (Fault::InventedCounts, false),
    (Fault::RefusesBegin, false),
    (Fault::NextOnly, false),
    (Fault::AppliedToo, false),
    (Fault::HeldFirst, false),
    (Fault::AbortsByClass, true),
    (Fault::LockFirst, false),
];

const STYLE: Style = Style::new(6, 50, 15);

/// What the observer objects to first in random runs of a group, in which every member has the
/// fault or only the first.
fn objections(fault: Fault, every: bool, runs: u64) -> Option<Vec<String>> {
    for seed in 0..runs {
        let n = 2 + seed as u32 % 5;
        let member = |own| {
            let fault = if every || own == 0 {
                fault
            } else {
                Fault::None
            };
            Historical::make(n, Some(own), start_values(), fault)
        };
        let mut group = Group::new((0..n).map(member).collect(), STYLE);
        let mut random = Random::new(seed);
        for _ in 0..40 {
            for _ in 0..20 {
                group.random_call(&mut random);
            }
            assert!(group.observer.premise(), "{fault:?}, seed {seed}");
            let violations = group.violations();
            if !violations.is_empty() {
                return Some(violations);
            }
        }
    }
    None
}

#[test]
fn the_observer_objects() {
    assert_eq!(objections(Fault::None, true, 20), None);
    for (fault, forbidden) in FAULTS {
        for every in [true, false] {
            let runs = if forbidden { 500 } else { 20 };
            let found = objections(fault, every, runs);
            assert_eq!(found.is_some(), forbidden, "{fault:?}, {every}: {found:#?}");
        }
    }
}

#[test]
fn the_comparison_finds_each() {
    for (fault, _) in FAULTS {
        let differs = |seed: u64| {
            let n = 2 + seed as u32 % 5;
            let mut pair = Pair::new(n, seed as u32 / 5 % n, fault);
            let mut random = Random::new(seed);
            (0..1_000).find_map(|_| pair.random_call(&mut random, STYLE).err())
        };
        let difference = (0..20).find_map(differs);
        assert!(difference.is_some(), "{fault:?} was not found");
    }
}
