//! Random runs of whole groups whose members lose power again and again, under the observer: blocks
//! come late, repeated, damaged or not at all for a while, and those that waited at a cut are lost.

use model::block::BLOCK;
use model::drive::{Group, Machine, Seen, Style, Subject, STYLES};
use model::samples::Random;
use model::trace::Call;

use crate::common::make;

/// The bytes of the last three blocks.
const LAST: usize = 3 * BLOCK;

fn group(n: u32, style: Style) -> Group<Machine> {
    let members = (0..n).map(|own| Machine::new(make(n, own)));
    Group::new(members.collect(), style)
}

/// That the observer objects to nothing, that each disk holds what the list of calls says, and that
/// each report is that of the answers.
fn check(group: &Group<Machine>, what: &str) {
    let violations = group.violations();
    assert!(violations.is_empty(), "{what}: {violations:#?}");
    assert!(group.observer.premise(), "{what}");
    for (k, member) in group.members.iter().enumerate() {
        let journal = group.observer.journal(k);
        assert!(member.disk == journal.bytes(), "{what}: disk of {k}");
        assert_eq!(member.floor, journal.floor(), "{what}: floor of {k}");
        assert_eq!(member.report(), group.tallies[k].report, "{what}: {k}");
        let blocks = member.report().turn + u32::from(member.replica.outbox.is_some());
        assert_eq!(member.disk.len(), BLOCK * blocks as usize, "{what}");
    }
}

/// That after everything is delivered all members are at one turn with the same values.
fn settle(group: &mut Group<Machine>, what: &str) {
    group.settle(2);
    check(group, what);
    let first = (group.members[0].report().turn, group.members[0].values());
    for member in &group.members {
        assert!((member.report().turn, member.values()) == first, "{what}");
    }
}

/// Thousands of short runs with a few cuts each, at every byte of the last three blocks.
#[test]
fn cuts_at_every_byte() {
    // How often so many bytes were lost. Of those that a cut may take, it takes the rarest.
    let mut cuts = [0; LAST + 1];
    let mut seen = Seen::default();
    for seed in 0..4_000 {
        let n = 2 + seed as u32 % 5;
        let mut random = Random::new(seed);
        let mut group = group(n, STYLES[seed as usize / 5 % 4]);
        for cut in 0..4 {
            for _ in 0..120 {
                group.random_call(&mut random);
            }
            let wide = widest(&group, &mut random);
            let (k, ended) = match cut {
                0 => (wide, None),
                1 => (wide, Some(Call::Work)),
                _ => (group.sender().unwrap_or(wide), Some(Call::Send)),
            };
            group.cut(k, ended, |floor, all| {
                let may_lose = if cut == 2 { 0 } else { LAST.min(all - floor) };
                let lost = (0..=may_lose).min_by_key(|&lost| cuts[lost]).unwrap();
                cuts[lost] += 1;
                all - lost
            });
        }
        settle(&mut group, &format!("seed {seed}"));
        seen.add(&group.seen);
    }
    let fewest = cuts.iter().min().unwrap();
    assert!(*fewest >= 2, "some byte was cut at {fewest} times");
    assert_eq!(seen.restarts, 16_000);
    assert!(seen.sent_by_restart > 500, "{seen:?}");
    assert!(seen.commits > 80_000 && seen.aborted > 5_000, "{seen:?}");
}

/// Often the member of which a cut can take most, else any.
fn widest(group: &Group<Machine>, random: &mut Random) -> usize {
    let n = group.members.len();
    let wide = |k: &usize| group.members[*k].disk.len() - group.members[*k].floor;
    match random.below(4) {
        0 => random.below(n),
        _ => (0..n).max_by_key(wide).unwrap(),
    }
}

/// Longer runs with cuts at random bytes, restarts one after the other among them.
#[test]
fn many_cuts() {
    let mut seen = Seen::default();
    for seed in 0..200 {
        let n = 2 + seed as u32 % 5;
        let mut random = Random::new(seed);
        let mut group = group(n, STYLES[seed as usize / 5 % 4]);
        for call in 0..5_000 {
            match random.below(100) {
                0 => group.random_cut(&mut random),
                _ => group.random_call(&mut random),
            }
            if call % 100 == 0 {
                check(&group, &format!("seed {seed}, call {call}"));
            }
        }
        settle(&mut group, &format!("seed {seed}"));
        seen.add(&group.seen);
    }
    assert!(
        seen.restarts > 8_000 && seen.sent_by_restart > 50,
        "{seen:?}"
    );
    assert!(seen.commits > 25_000 && seen.aborted > 3_000, "{seen:?}");
    let due: Vec<usize> = (1..24).filter(|n| ![6, 13, 22].contains(n)).collect();
    assert_eq!(seen.numbers(20), due, "{seen:?}");
}

/// A check after every call: demand 3 holds after each beginning of a list with restarts.
#[test]
fn cuts_and_a_check_after_any_call() {
    for seed in 0..60 {
        let n = 2 + seed as u32 % 5;
        let mut random = Random::new(seed);
        let mut group = group(n, Style::new(10, 40, 15));
        for call in 0..600 {
            match random.below(20) {
                0 => group.random_cut(&mut random),
                _ => group.random_call(&mut random),
            }
            check(&group, &format!("seed {seed}, call {call}"));
        }
    }
}
