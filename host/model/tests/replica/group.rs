//! Random runs of whole groups under the observer. Only blocks that were handed out can be
//! accepted; others are damaged, ill formed or of another group, and refused.

use model::drive::{Group, Seen, Style, STYLES};
use model::replica::{Replica, Report, SLOTS};
use model::samples::Random;

use crate::common::make;

/// What a run of a group met, and how often it ended with what.
struct Run {
    seen: Seen,
    turn: u32,
    checks: u32,
}

/// One run: `calls` random calls with a check every `every` calls, then everything is delivered.
fn run(seed: u64, members: Vec<Replica>, style: Style, calls: usize, every: usize) -> Run {
    let mut random = Random::new(seed);
    let mut group = Group::new(members, style);
    let mut checks = 0;
    let mut check = |group: &Group<Replica>, call: usize| {
        let violations = group.violations();
        assert!(
            violations.is_empty(),
            "seed {seed}, call {call}: {violations:#?}"
        );
        checks += 1;
    };
    for call in 0..calls {
        group.random_call(&mut random);
        for (replica, tally) in group.members.iter().zip(&group.tallies) {
            assert_eq!(replica.report(), tally.report, "seed {seed}, call {call}");
        }
        if call % every == 0 {
            check(&group, call);
        }
    }
    group.settle(3);
    check(&group, calls);
    assert!(group.observer.premise(), "seed {seed}");
    let first = group.members[0].report();
    for replica in &group.members {
        let report = replica.report();
        let due = (first.turn, first.commits);
        assert_eq!((report.turn, report.commits), due, "seed {seed}");
        assert_eq!(replica.values(), group.members[0].values(), "seed {seed}");
        add_up(&report);
    }
    // What was not refused or ended before was sent, and what was sent was committed by all.
    let committed: u32 = group.members.iter().map(|m| m.report().committed).sum();
    assert_eq!(committed, first.commits, "seed {seed}");
    Run {
        seen: group.seen,
        turn: first.turn,
        checks,
    }
}

fn add_up(report: &Report) {
    let ended = report.committed + report.read_only + report.aborted + report.withdrawn;
    assert_eq!(report.tickets, report.open + ended);
}

fn total(runs: &[Run]) -> Seen {
    let mut total = Seen::default();
    for run in runs {
        total.add(&run.seen);
    }
    total
}

#[test]
fn no_violation() {
    let mut runs = Vec::new();
    for n in 2..=6 {
        for (round, style) in STYLES.into_iter().enumerate() {
            let members = (0..n).map(|own| make(n, own)).collect();
            let seed = u64::from(n) * 1000 + round as u64;
            let run = run(seed, members, style, 20_000, 200);
            assert!(run.turn > 30, "seed {seed}: only {} slots", run.turn);
            assert!(run.checks > 100, "seed {seed}");
            runs.push(run);
        }
    }
    let seen = total(&runs);
    assert!(seen.calls > 400_000, "{seen:?}");
    assert!(seen.commits > 10_000, "{seen:?}");
    assert!(seen.aborted > 1_000, "{seen:?}");
    assert!(seen.stale > 200 && seen.stale_and_held > 10, "{seen:?}");
    assert!(seen.read_only > 200 && seen.withdrawn > 200, "{seen:?}");
    assert!(seen.sent[0] > 100 && seen.sent[6] > 10, "{seen:?}");
    assert!(seen.sent.iter().all(|&blocks| blocks > 10), "{seen:?}");
    // Neither tickets nor slots are spent here, and 22 is no number any more.
    let due: Vec<usize> = (1..24).filter(|n| ![6, 13, 22].contains(n)).collect();
    assert_eq!(seen.numbers(20), due, "{seen:?}");
}

/// Short runs with a check after every call: demand 3 holds after each beginning of a list.
#[test]
fn no_violation_after_any_call() {
    let mut runs = Vec::new();
    let style = Style::new(10, 40, 15);
    for seed in 0..100 {
        let n = 2 + seed as u32 % 5;
        let members = (0..n).map(|own| make(n, own)).collect();
        runs.push(run(seed, members, style, 1_000, 1));
    }
    let seen = total(&runs);
    assert!(seen.commits > 3_000 && seen.aborted > 500, "{seen:?}");
    assert!(runs.iter().map(|run| run.checks).sum::<u32>() > 100_000);
}

/// Runs that end because slots and tickets do.
#[test]
fn to_the_last_slot() {
    let mut runs = Vec::new();
    let style = Style::new(40, 40, 8);
    for seed in 0..10 {
        let n = 2 + seed as u32 % 5;
        let late = |own| make(n, own).fast_forward(SLOTS - 60, SLOTS - 80);
        let run = run(seed, (0..n).map(late).collect(), style, 8_000, 100);
        assert_eq!(run.turn, SLOTS, "seed {seed}");
        runs.push(run);
    }
    let seen = total(&runs);
    assert!(seen.commits > 1_000, "{seen:?}");
    let due: Vec<usize> = (1..24).filter(|&n| n != 22).collect();
    assert_eq!(seen.numbers(5), due, "{seen:?}");
}
