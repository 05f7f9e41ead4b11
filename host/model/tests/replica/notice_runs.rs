//! Random runs of whole groups with notices (document 02, Req 10), under the observer: replicas are closed
//! and come back, lose power, and take notices late; stations take them too.

use model::block::{BLOCK, MAX_TICKET};
use model::drive::{Group, Machine, Seen, Style, Subject, Tally, STYLES};
use model::notice::{self, Kind};
use model::replica::SLOTS;
use model::samples::{self, Random};
use model::trace::Call;

use crate::common::{make, station};

/// What runs met, beyond what every run counts.
#[derive(Debug, Default)]
struct Met {
    seen: Seen,
    /// Slots passed as out by their own replica.
    own_passed_out: u64,
    /// How often the promise was tried that the group can go on, and of these with a replica closed.
    moves: u64,
    moves_without_one: u64,
    /// Runs at whose end a replica was closed.
    ends_closed: u64,
    /// The slots processed in all runs.
    slots: u64,
}

fn group(n: u32, style: Style, stations: usize) -> Group<Machine> {
    let members = (0..n).map(|own| Machine::new(make(n, own)));
    let mut group = Group::new(members.collect(), style);
    for _ in 0..stations {
        group.add_station(Machine::new(station(n)));
    }
    group
}

/// That the premises hold and the observer objects to nothing; that each disk and its floor are what the
/// list of calls says; that nothing waited too long and nobody is stranded.
fn check(group: &Group<Machine>, n: u32, what: &str) {
    assert_eq!(group.observer.one_list(), Ok(()), "{what}");
    assert!(group.observer.premise(), "{what}");
    assert_eq!(group.violations(), [""; 0], "{what}");
    assert_eq!(group.stranded(), [""; 0], "{what}");
    assert_eq!(group.waited_too_long(), [""; 0], "{what}");
    for (k, member) in group.members.iter().enumerate() {
        assert_eq!(member.report(), group.tallies[k].report, "{what}: {k}");
        assert_eq!(member.replica.notices, group.observer.notices(k), "{what}");
        if k >= n as usize {
            assert!(member.disk.is_empty(), "{what}: a station's journal");
            continue;
        }
        let journal = group.observer.journal(k);
        assert!(member.disk == journal.bytes(), "{what}: disk of {k}");
        assert_eq!(member.floor, journal.floor(), "{what}: floor of {k}");
        let blocks = member.report().turn + u32::from(member.replica.outbox.is_some());
        assert_eq!(member.disk.len(), BLOCK * blocks as usize, "{what}");
    }
}

/// That all that are not closed end at one turn with the same values.
fn settle(group: &mut Group<Machine>, n: u32, what: &str) {
    group.settle(2);
    check(group, n, what);
    let mut ends = group.open_replicas();
    ends.extend(group.stations());
    let first = &group.members[ends[0]];
    for &k in &ends {
        let one = &group.members[k];
        assert_eq!(one.report().turn, first.report().turn, "{what}: {k}");
        assert_eq!(one.replica.commits, first.replica.commits, "{what}: {k}");
        assert_eq!(one.values(), first.values(), "{what}: {k}");
    }
}

/// A run: random calls, cuts one in so many, and now and then all blocks brought to all, so that the group
/// must be able to go on.
fn run(seed: u64, style: Style, calls: usize, cuts: usize, every: usize, met: &mut Met) {
    let n = 2 + seed as u32 % 5;
    let mut group = group(n, style, seed as usize / 5 % 3);
    let mut random = Random::new(seed);
    for call in 0..calls {
        let what = format!("seed {seed}, call {call}");
        match random.below(400) {
            0 if !group.stations().is_empty() => {
                let lost = random.pick(group.stations());
                group.renew_station(lost, Machine::new(station(n)));
            }
            1..5 => {
                group.bring_all();
                let closed = group.open_replicas().len() < n as usize;
                let moves = group.moves();
                assert_ne!(moves, Some(false), "{what}");
                met.moves += u64::from(moves.is_some());
                met.moves_without_one += u64::from(moves.is_some() && closed);
            }
            5 => drop(group.round(true)),
            _ if cuts > 0 && random.below(cuts) == 0 => group.random_cut(&mut random),
            _ => group.random_call(&mut random),
        }
        if call % every == 0 {
            check(&group, n, &what);
        }
    }
    // Some that are closed stay so.
    for k in 0..n as usize {
        if random.below(2) == 0 {
            group.open(k);
        }
    }
    met.ends_closed += u64::from(group.open_replicas().len() < n as usize);
    settle(&mut group, n, &format!("seed {seed}"));
    for k in 0..n as usize {
        let own = |slot: &u32| slot % n == k as u32 && group.observer.is_out(k, *slot);
        met.own_passed_out += (0..group.tallies[k].report.turn).filter(own).count() as u64;
    }
    met.slots += u64::from(group.tallies[group.open_replicas()[0]].report.turn);
    met.seen.add(&group.seen);
}

#[test]
fn a_service_and_cuts() {
    let mut met = Met::default();
    for seed in 0..200 {
        let style = STYLES[seed as usize / 5 % 4].with_notices(8);
        let cuts = [0, 100, 40][seed as usize % 3];
        run(seed, style, 3_000, cuts, 100, &mut met);
    }
    let seen = &met.seen;
    assert!(seen.notices > 20_000 && seen.passed_out > 25_000, "{met:?}");
    assert!(met.own_passed_out > 4_000 && met.slots > 10_000, "{met:?}");
    assert!(
        seen.refused[28] > 10_000 && seen.refused[29] > 2_000,
        "{met:?}"
    );
    assert!(
        met.moves > 2_000 && met.moves_without_one > 1_000,
        "{met:?}"
    );
    assert!(met.ends_closed > 50 && seen.restarts > 5_000, "{met:?}");
    assert!(seen.commits > 10_000 && seen.aborted > 1_000, "{met:?}");
    // One that comes back is behind by more than its places.
    assert!(
        seen.far_at_replicas > 5_000 && seen.sent_by_restart > 30,
        "{met:?}"
    );
}

/// A check after every call: with this service the premise holds all the time.
#[test]
fn a_check_after_any_call() {
    let mut met = Met::default();
    for seed in 1_000..1_060 {
        run(
            seed,
            Style::new(10, 30, 15).with_notices(15),
            600,
            30,
            1,
            &mut met,
        );
    }
    assert!(met.seen.passed_out > 3_000, "{met:?}");
    assert!(met.moves > 100 && met.moves_without_one > 50, "{met:?}");
}

/// To the last slot: behind it there is none, also where its replica would be out.
#[test]
fn to_the_last_slot() {
    let (mut out_at_the_end, mut seen) = (0, Seen::default());
    for seed in 0..40 {
        let n = 2 + seed as u32 % 5;
        let late = |own| Machine::new(make(n, own).fast_forward(SLOTS - 60, MAX_TICKET - 200));
        let style = Style::new(40, 40, 8).with_notices(8);
        let mut group = Group::new((0..n).map(late).collect(), style);
        let mut random = Random::new(seed);
        for _ in 0..8_000 {
            group.random_call(&mut random);
        }
        (0..n as usize).for_each(|k| group.open(k));
        group.settle(40);
        assert_eq!(group.violations(), [""; 0], "seed {seed}");
        assert_eq!(group.observer.one_list(), Ok(()), "seed {seed}");
        assert_eq!(group.waited_too_long(), [""; 0], "seed {seed}");
        for k in 0..n as usize {
            assert_eq!(group.members[k].report().turn, SLOTS, "seed {seed}");
            assert_eq!(group.members[k].values(), group.members[0].values());
            assert_eq!(group.moves(), None, "seed {seed}");
        }
        let owner = SLOTS as usize % n as usize;
        let last = group.said(owner).last();
        out_at_the_end += i32::from(last.is_some_and(|last| last.kind == Kind::Out));
        seen.add(&group.seen);
    }
    assert!(out_at_the_end > 5, "{out_at_the_end}");
    assert!(seen.passed_out > 1_000 && seen.refused[13] > 50, "{seen:?}");
}

/// A service that says anything, to members that take it at any time, or never. Where the premise holds all
/// the same, be it only at the end, the observer objects to nothing.
#[test]
fn a_careless_service() {
    let (mut held, mut failed, mut again) = (0, 0, 0);
    for seed in 0..600 {
        let n = 2 + seed as u32 % 4;
        let mut group = group(n, Style::new(8, 40, 20), seed as usize % 2);
        let mut random = Random::new(seed);
        let mut lists = vec![Vec::new(); n as usize];
        let mut before = true;
        for call in 0..500 {
            let member = random.below(group.members.len());
            match random.below(100) {
                0..2 => {
                    let Tally {
                        report, notices, ..
                    } = &group.tallies[member];
                    let notice = samples::notice(&mut random, n, report.turn, notices);
                    if let Some(list) = lists.get_mut(notice.about as usize) {
                        list.push(notice);
                    }
                }
                2..20 => {
                    let about = random.below(n as usize);
                    let taken = notice::about(group.observer.notices(member), about as u32);
                    if let Some(next) = lists[about].get(taken.count()) {
                        let answer = group.call(member, &Call::Notice(*next));
                        // What nobody can take any more is taken back.
                        let is_last = lists[about].last() == Some(next);
                        if answer.is_err() && is_last && random.below(4) == 0 {
                            lists[about].pop();
                        }
                    }
                }
                20 => group.random_cut(&mut random),
                _ => group.random_call(&mut random),
            }
            let holds = group.observer.premise();
            let taken = (0..group.members.len()).any(|k| !group.observer.notices(k).is_empty());
            held += i32::from(holds && taken);
            failed += i32::from(!holds);
            again += i32::from(holds && !before);
            before = holds;
            if holds && (call % 10 == 0 || call == 499) {
                let what = format!("seed {seed}, call {call}");
                assert_eq!(group.violations(), [""; 0], "{what}");
                assert_eq!(group.waited_too_long(), [""; 0], "{what}");
            }
        }
    }
    // Only a restart brings a turn back below what was missed.
    assert!(
        held > 50_000 && failed > 50_000 && again > 2,
        "{held}, {failed}, {again}"
    );
}
