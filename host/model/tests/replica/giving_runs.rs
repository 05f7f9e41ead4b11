//! Random runs of whole groups with givings (document 02, Req 11), under the observer: replicas are closed and
//! come back, lose power, also in the middle of a giving, and are given what they missed.

use model::block::MAX_TICKET;
use model::drive::{Givings, Group, Machine, Seen, Style, Subject, STYLES};
use model::replica::SLOTS;
use model::samples::Random;

use crate::common::{make, station};

/// What runs met.
#[derive(Debug, Default)]
struct Met {
    seen: Seen,
    givings: Givings,
    /// The slots processed in all runs.
    slots: u64,
}

/// How often something is done: once in so many calls, if that is not 0.
#[derive(Clone, Copy)]
struct Often {
    givings: usize,
    holidays: usize,
    cuts: usize,
    checks: usize,
}

fn group(n: u32, style: Style, stations: usize) -> Group<Machine> {
    let members = (0..n).map(|own| Machine::new(make(n, own)));
    let mut group = Group::new(members.collect(), style);
    for _ in 0..stations {
        group.add_station(Machine::new(station(n)));
    }
    group
}

/// That the premises hold and the observer objects to nothing; that each giving was what document 02 says, and
/// each window has the last blocks of its journal.
fn check(group: &Group<Machine>, what: &str) {
    assert_eq!(group.observer.one_list(), Ok(()), "{what}");
    assert!(group.observer.premise(), "{what}");
    assert_eq!(group.violations(), [""; 0], "{what}");
    assert_eq!(group.stranded(), [""; 0], "{what}");
    assert_eq!(group.waited_too_long(), [""; 0], "{what}");
    assert_eq!(group.givings.broken(), [""; 0], "{what}");
    assert_eq!(group.wrong_windows(), [""; 0], "{what}");
    for (k, member) in group.members.iter().enumerate() {
        assert_eq!(member.report(), group.tallies[k].report, "{what}: {k}");
        if member.replica.is_station() {
            continue;
        }
        let journal = group.observer.journal(k);
        assert!(member.disk == journal.bytes(), "{what}: disk of {k}");
        assert_eq!(member.floor, journal.floor(), "{what}: floor of {k}");
        // All slots from 0 on are in the journal: the window is never short.
        let turn = member.report().turn;
        let due = turn.saturating_sub(64)..turn;
        assert_eq!(member.replica.window.slots(), due, "{what}: {k}");
    }
}

/// A run, at whose end all are open and everything is delivered.
fn run(seed: u64, style: Style, calls: usize, often: Often, met: &mut Met) {
    let n = 2 + seed as u32 % 5;
    let mut group = group(n, style, seed as usize / 5 % 2);
    let mut random = Random::new(seed);
    for call in 0..calls {
        let mut is = |often: usize| often > 0 && random.below(often) == 0;
        if is(400) {
            group.round(true);
        } else if is(often.givings) {
            group.random_giving(&mut random);
        } else if is(often.holidays) {
            let slots = random.pick(&[1, 20, 60, 62, 63, 64, 65, 66, 70]);
            group.holiday(random.below(n as usize), slots);
            group.random_giving(&mut random);
        } else if is(often.cuts) {
            if random.below(2) == 0 || !group.random_cut_giving(&mut random) {
                group.random_cut(&mut random);
            }
        } else {
            group.random_call(&mut random);
        }
        if call % often.checks == 0 {
            check(&group, &format!("seed {seed}, call {call}"));
        }
    }
    (0..n as usize).for_each(|k| group.open(k));
    group.settle(2);
    check(&group, &format!("seed {seed}"));
    let first = &group.members[0];
    for member in &group.members {
        let found = (member.report().turn, member.values());
        assert!(
            found == (first.report().turn, first.values()),
            "seed {seed}"
        );
    }
    met.slots += u64::from(first.report().turn);
    met.seen.add(&group.seen);
    met.givings.add(&group.givings);
}

#[test]
fn those_that_come_back() {
    let mut met = Met::default();
    for seed in 0..200 {
        let style = STYLES[seed as usize / 5 % 4].with_notices([0, 6, 6][seed as usize % 3]);
        let often = Often {
            givings: 30,
            holidays: [0, 300][seed as usize % 2],
            cuts: [0, 60][seed as usize / 2 % 2],
            checks: 100,
        };
        run(seed, style, 3_000, often, &mut met);
    }
    let (seen, givings) = (&met.seen, &met.givings);
    assert!(
        givings.given > 5_000 && givings.promised > 10_000,
        "{met:?}"
    );
    assert!(
        givings.nothing > 2_000 && givings.nobody_up > 1_000,
        "{met:?}"
    );
    // A right service and true windows: no deliver is refused.
    assert!(givings.lacking > 1_000 && givings.ended == 0, "{met:?}");
    assert!(
        givings.lacking_spared > 20 && givings.longest == 64,
        "{met:?}"
    );
    assert!(
        givings.delivered > 10_000 && givings.out > 10_000,
        "{met:?}"
    );
    assert!(
        givings.in_place > 1_000 && givings.half_applied > 100,
        "{met:?}"
    );
    assert!(
        givings.unordered > 10 && givings.giver_half_done > 5,
        "{met:?}"
    );
    assert!(givings.cut > 500 && seen.restarts > 3_000, "{met:?}");
    assert!(seen.commits > 15_000 && seen.aborted > 1_500, "{met:?}");
}

/// A check after every call.
#[test]
fn a_check_after_any_call() {
    let mut met = Met::default();
    let style = Style::new(10, 30, 15).with_notices(15);
    for seed in 1_000..1_060 {
        let often = Often {
            givings: 15,
            holidays: [0, 100][seed as usize % 2],
            cuts: 30,
            checks: 1,
        };
        run(seed, style, 500, often, &mut met);
    }
    let givings = &met.givings;
    assert!(givings.given > 500 && givings.cut > 100, "{met:?}");
}

/// To the last slot, from a turn before which no window has anything.
#[test]
fn to_the_last_slot() {
    let mut givings = Givings::default();
    for seed in 0..40 {
        let n = 2 + seed as u32 % 5;
        let late = |own| Machine::new(make(n, own).fast_forward(SLOTS - 90, MAX_TICKET - 200));
        let style = Style::new(40, 40, 8).with_notices(6);
        let mut group = Group::new((0..n).map(late).collect(), style);
        let mut random = Random::new(seed);
        for call in 0..6_000 {
            match random.below(30) {
                0 => group.random_giving(&mut random),
                _ => group.random_call(&mut random),
            }
            if call % 1_000 == 0 {
                group.holiday(random.below(n as usize), 40);
            }
        }
        (0..n as usize).for_each(|k| group.open(k));
        group.settle(60);
        assert_eq!(group.violations(), [""; 0], "seed {seed}");
        assert_eq!(group.givings.broken(), [""; 0], "seed {seed}");
        assert_eq!(group.wrong_windows(), [""; 0], "seed {seed}");
        for member in &group.members {
            assert_eq!(member.report().turn, SLOTS, "seed {seed}");
            assert_eq!(member.replica.window.slots(), SLOTS - 64..SLOTS);
        }
        // There is nothing behind it.
        let told = vec![SLOTS; n as usize];
        assert_eq!(group.give(0, &told).number, 0);
        let told = vec![SLOTS + 1; n as usize];
        assert_eq!(group.give(0, &told).number, 31);
        givings.add(&group.givings);
    }
    assert!(givings.given > 500 && givings.out > 1_000, "{givings:?}");
}

/// Any notice at anybody, and any turns told: a giving is what it is by the sheet all the same; a deliver may end
/// it, or blocks may be taken that nobody handed out. Where the premise holds, the observer objects to nothing.
#[test]
fn a_careless_service() {
    let (mut held, mut failed) = (0, 0);
    let mut givings = Givings::default();
    for seed in 0..400 {
        let n = 2 + seed as u32 % 5;
        let mut group = group(n, Style::new(8, 40, 20), 0);
        let mut random = Random::new(seed);
        for call in 0..600 {
            match random.below(60) {
                0..2 => group.any_notice(&mut random),
                2 => group.random_cut(&mut random),
                3..6 => group.any_giving(&mut random),
                _ => group.random_call(&mut random),
            }
            let holds = group.observer.premise();
            held += i32::from(holds);
            failed += i32::from(!holds);
            if call % 20 == 0 {
                let what = format!("seed {seed}, call {call}");
                assert!(!holds || group.violations().is_empty(), "{what}");
                assert_eq!(group.givings.broken(), [""; 0], "{what}");
                assert_eq!(group.wrong_windows(), [""; 0], "{what}");
            }
        }
        givings.add(&group.givings);
    }
    assert!(held > 20_000 && failed > 20_000, "{held}, {failed}");
    assert!(givings.ended > 50 && givings.given > 1_000, "{givings:?}");
    assert!(givings.promised > 300, "{givings:?}");
}
