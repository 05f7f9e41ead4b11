//! Stations (document 02, Req 05): what they refuse before all else, whose blocks they take, and random
//! runs of groups with stations that fall behind.

use model::block::{BLOCK, MAX_TICKET};
use model::drive::{Group, Machine, Seen, Style, Subject, STYLES};
use model::replica::{Replica, ITEMS, SLOTS};
use model::samples::Random;

use crate::common::{block_of, make, start_values, station, take};

#[test]
fn made_with_n_and_values() {
    let values = start_values();
    for n in [0, 1, 7, 8, 256 + 2, u32::MAX] {
        assert_eq!(Replica::station(n, &values), Err(2), "{n}");
    }
    for length in [0, ITEMS - 1, ITEMS + 1] {
        assert_eq!(Replica::station(2, &vec![0; length]), Err(1), "{length}");
        assert_eq!(Replica::station(7, &vec![0; length]), Err(1), "{length}");
    }
    for n in 2..=6 {
        let station = station(n);
        assert!(station.is_station());
        assert_eq!(station.values(), &values);
        // But for its number it is as a replica just made, and that one is no station.
        let mut replica = make(n, n - 1);
        assert!(!replica.is_station());
        replica.own = None;
        assert_eq!(replica, station);
    }
}

/// 25, and nothing changed: a station, and the bytes that are lent to a send.
fn only_reads(station: &mut Replica) {
    let before = station.clone();
    for ticket in [0, 1, 2, 7, u32::MAX] {
        for item in [0, 5, 127, 128, u32::MAX] {
            assert_eq!(station.write(ticket, item, 1), Err(25), "{ticket}, {item}");
        }
    }
    assert_eq!(station.send(), Err(25));
    for length in [0, 1, BLOCK - 1, BLOCK, BLOCK + 1] {
        let mut bytes = vec![7; length];
        assert_eq!(station.send_into(&mut bytes), Err(25), "{length}");
        assert_eq!(bytes, vec![7; length]);
    }
    assert_eq!(*station, before);
}

/// Before 1, 2, 3, 7, 13 and 11, and where a replica would write or send.
#[test]
fn before_any_other_reason() {
    let mut station = station(3);
    only_reads(&mut station);
    let ticket = station.begin().unwrap();
    only_reads(&mut station);
    station
        .deliver(&block_of(3, 0, &[(1, &[(5, 1)]), (2, &[(6, 1)])]))
        .unwrap();
    station.work().unwrap();
    assert!(station.applying);
    only_reads(&mut station);
    station.work().unwrap();
    only_reads(&mut station);
    assert_eq!(station.ask(ticket), Ok(true));
    for slot in 1..=3 {
        take(&mut station, &block_of(3, slot, &[]));
        only_reads(&mut station);
    }
    let mut spent = crate::common::station(3).fast_forward(SLOTS, MAX_TICKET);
    only_reads(&mut spent);
    assert_eq!(spent.begin(), Err(6));
}

/// Whoever sends: the block is taken, it is another's, and nothing of it is to be journaled.
#[test]
fn every_sender_is_another() {
    for n in 2..=6 {
        let mut station = station(n);
        let mut open = vec![station.begin().unwrap()];
        for slot in 0..3 * n {
            let (sender, value) = ((slot % n) as u8, slot as i32);
            let block = block_of(n, slot, &[(1, &[(5, value)]), (9, &[(6, value)])]);
            station.deliver(&block).unwrap();
            assert_eq!(station.deliver(&block), Err(20));
            for (ticket, moved) in [(1, false), (9, true)] {
                let (work, appended) = station.work_journaled().unwrap();
                assert_eq!((work.sender, work.ticket), (sender, ticket));
                assert_eq!((work.moved, work.aborted), (moved, vec![]));
                assert_eq!(station.applying, !moved);
                assert_eq!(appended, None);
            }
            assert_eq!(station.deliver(&block), Err(17));
            if slot < 5 {
                open.push(station.begin().unwrap());
            }
        }
        // Each reads what it began with.
        for (at, ticket) in open.into_iter().enumerate() {
            let due = if at == 0 { -550 } else { at as i32 - 1 };
            assert_eq!(station.read(ticket, 5), Ok(due));
            assert_eq!(station.ask(ticket), Ok(true));
            assert_eq!(station.ask(ticket), Err(3));
        }
        let report = station.report();
        assert_eq!((report.turn, report.commits), (3 * n, 6 * n));
        assert_eq!((report.committed, report.aborted), (0, 0));
        assert_eq!(report.read_only, report.tickets);
    }
}

/// What a run of a group with stations met.
fn run<S: Subject>(
    mut group: Group<S>,
    seed: u64,
    calls: usize,
    mut more: impl FnMut(&mut Group<S>, &mut Random),
) -> Seen {
    let mut random = Random::new(seed);
    let check = |group: &Group<S>, call: usize| {
        let violations = group.violations();
        assert_eq!(violations, [""; 0], "seed {seed}, call {call}");
        assert!(group.observer.premise(), "seed {seed}, call {call}");
    };
    for call in 0..calls {
        more(&mut group, &mut random);
        group.random_call(&mut random);
        for (member, tally) in group.members.iter().zip(&group.tallies) {
            assert_eq!(member.report(), tally.report, "seed {seed}, call {call}");
        }
        if call % 100 == 0 {
            check(&group, call);
        }
    }
    group.settle(2);
    check(&group, calls);
    let due = group.members[0].report();
    for &k in group.stations() {
        let report = group.members[k].report();
        let same = (report.turn, report.commits) == (due.turn, due.commits);
        assert!(same, "seed {seed}: {report:?}, {due:?}");
        assert_eq!(group.members[k].values(), group.members[0].values());
        assert_eq!((report.committed, report.aborted), (0, 0), "seed {seed}");
    }
    group.seen
}

/// Of the blocks handed out, in groups that keep the premises, no replica refuses one by 18; stations do,
/// and take it when it is offered again.
#[test]
fn only_stations_are_too_far_behind() {
    let mut seen = Seen::default();
    for seed in 0..200 {
        let n = 2 + seed as u32 % 5;
        let members = (0..n).map(|own| make(n, own)).collect();
        let mut group = Group::new(members, STYLES[seed as usize / 5 % 4]);
        for _ in 0..1 + seed % 3 {
            group.add_station(station(n));
        }
        seen.add(&run(group, seed, 4_000, |_, _| {}));
    }
    assert_eq!(seen.far_at_replicas, 0, "{seen:?}");
    assert!(seen.far_at_stations > 5_000, "{seen:?}");
    assert!(seen.offered_again > 3_000, "{seen:?}");
    assert!(seen.refused[25] > 10_000, "{seen:?}");
    assert!(seen.commits > 30_000 && seen.aborted > 3_000, "{seen:?}");
    // The others only for blocks that nobody handed out.
    assert!(seen.refused[18] > seen.far_at_stations + 500, "{seen:?}");
}

/// The same where replicas lose power, and stations their memory.
#[test]
fn cuts_beside_stations() {
    let mut seen = Seen::default();
    for seed in 0..150 {
        let n = 2 + seed as u32 % 5;
        let members = (0..n).map(|own| Machine::new(make(n, own)));
        let mut group = Group::new(members.collect(), STYLES[seed as usize / 5 % 4]);
        for _ in 0..2 {
            group.add_station(Machine::new(station(n)));
        }
        let losses = |group: &mut Group<Machine>, random: &mut Random| {
            if random.below(80) == 0 {
                group.random_cut(random);
            }
            if random.below(800) == 0 {
                let lost = random.pick(group.stations());
                group.renew_station(lost, Machine::new(station(n)));
            }
            let disks = group.members[n as usize..].iter();
            assert!(disks.into_iter().all(|station| station.disk.is_empty()));
        };
        seen.add(&run(group, seed, 3_000, losses));
    }
    assert_eq!(seen.far_at_replicas, 0, "{seen:?}");
    assert!(seen.far_at_stations > 3_000, "{seen:?}");
    assert!(seen.offered_again > 2_000, "{seen:?}");
    assert!(seen.restarts > 4_000, "{seen:?}");
}

/// A check after every call: what is due of a station holds after each beginning of a list.
#[test]
fn a_check_after_any_call() {
    for seed in 0..40 {
        let n = 2 + seed as u32 % 5;
        let members = (0..n).map(|own| make(n, own)).collect();
        let mut group = Group::new(members, Style::new(10, 40, 15));
        group.add_station(station(n));
        run(group, seed, 600, |group, _| {
            assert_eq!(group.violations(), [""; 0], "seed {seed}");
        });
    }
}
