//! Random lists of calls by seed, at whole groups with stations beside them, and at single replicas and
//! stations among forged peers: library and model give the same answers and hold the same memory after
//! every call.

use model::block::MAX_TICKET;
use model::drive::{start_values, Givings, Group, Peers, Powered, Seen, Style, Subject, STYLES};
use model::replica::SLOTS;
use model::samples::Random;

use crate::both::Both;
use crate::lines::grouped;

/// The calls of a run, before its group comes to rest; and of one whose members lose power.
const CALLS: usize = 5_000;
const CALLS_WITH_CUTS: usize = 2_000;

/// Where members begin: after so many slots and tickets.
type Late = (u32, u32);

fn replica(n: u32, own: u32, (slots, tickets): Late) -> Both {
    Both::new(n, own, &start_values()).late(slots, tickets)
}

fn station(n: u32, (slots, tickets): Late) -> Both {
    Both::station(n, &start_values()).late(slots, tickets)
}

/// A group of `n` with none to two stations, by seed.
fn group(seed: u64, n: u32, style: Style, late: Late) -> Group<Both> {
    let members = (0..n).map(|own| replica(n, own, late));
    let mut group = Group::new(members.collect(), style);
    for _ in 0..seed % 3 {
        group.add_station(station(n, late));
    }
    group
}

/// A random call; now and then a station loses its memory and is made anew.
fn random_call(group: &mut Group<Both>, n: u32, late: Late, random: &mut Random) {
    if !group.stations().is_empty() && random.below(2_000) == 0 {
        let lost = random.pick(group.stations());
        group.renew_station(lost, station(n, late));
    }
    group.random_call(random);
}

/// The run of a group that keeps its power.
fn with_power(seed: u64, n: u32, style: Style, late: Late) -> Seen {
    let mut group = group(seed, n, style, late);
    let mut random = Random::new(seed);
    for _ in 0..CALLS {
        random_call(&mut group, n, late, &mut random);
    }
    at_rest(&mut group, &mut random)
}

/// Lets a group come to rest, with some of the replicas that are closed: demand 3 holds of the library's own
/// answers; nobody is stranded by a notice, and no ask waited too long. Without notices no replica has refused a
/// block of the group by 18.
fn at_rest(group: &mut Group<Both>, random: &mut Random) -> Seen {
    for k in 0..group.members.len() {
        if random.below(2) == 0 {
            group.open(k);
        }
    }
    group.settle(2);
    assert_eq!(group.violations(), [""; 0]);
    assert_eq!(group.observer.one_list(), Ok(()));
    assert!(group.observer.premise());
    assert_eq!(group.stranded(), [""; 0]);
    assert_eq!(group.waited_too_long(), [""; 0]);
    let mut ends = group.open_replicas();
    ends.extend(group.stations());
    for &k in &ends {
        let [one, first] = [k, ends[0]].map(|k| &group.members[k]);
        assert_eq!(one.report().turn, first.report().turn, "member {k}");
        assert_eq!(one.values(), first.values(), "member {k}");
    }
    let seen = &group.seen;
    assert!(seen.far_at_replicas == 0 || seen.notices > 0);
    seen.clone()
}

/// By seed; in half of the runs with notices.
fn style(seed: u64) -> Style {
    let notices = [8, 0][seed as usize / 2 % 2];
    STYLES[seed as usize / 5 % 4].with_notices(notices)
}

/// One replica of `n` that takes forged blocks; in every third run a station.
fn single(seed: u64, n: u32, style: Style, late: Late) -> Seen {
    let own = seed as u32 / 5 % n;
    let (mut both, mut peers);
    if seed.is_multiple_of(3) {
        both = station(n, late);
        peers = Peers::of_station(n, both.report());
    } else {
        both = replica(n, own, late);
        peers = Peers::new(n, own, both.report());
    }
    let mut random = Random::new(seed);
    for _ in 0..CALLS {
        let call = peers.random_call(&mut random, style);
        let answer = both.call(&call);
        peers.feed(&call, &answer);
        assert_eq!(both.report(), peers.tally.report, "{call:?}");
    }
    peers.seen
}

/// What a seed stands for: a group or a single replica or station; some also near the last ticket and
/// slot, where numbers 6 and 13 are met.
pub fn run(seed: u64) -> Seen {
    let n = 2 + seed as u32 % 5;
    let style = style(seed);
    let mut seen = match seed.is_multiple_of(2) {
        true => with_power(seed, n, style, (0, 0)),
        false => single(seed, n, style, (0, 0)),
    };
    // By 20, so that replicas and stations are among them.
    if seed.is_multiple_of(20) {
        let style = Style::new(30, 40, 6).with_notices(4);
        seen.add(&with_power(seed, n, style, (SLOTS - 60, MAX_TICKET - 80)));
        seen.add(&single(seed, n, style, (SLOTS - 60, MAX_TICKET - 60)));
    }
    seen
}

/// A group whose members lose power: lost, late, repeated and damaged blocks, and cuts at any byte that one
/// can leave.
pub fn run_with_cuts(seed: u64) -> Seen {
    let n = 2 + seed as u32 % 5;
    let mut group = group(seed, n, style(seed), (0, 0));
    let mut random = Random::new(seed);
    for _ in 0..CALLS_WITH_CUTS {
        match random.below(60) {
            0 => group.random_cut(&mut random),
            _ => random_call(&mut group, n, (0, 0), &mut random),
        }
    }
    let seen = at_rest(&mut group, &mut random);
    for (k, member) in group.members.iter().enumerate() {
        assert_eq!(member.report(), group.tallies[k].report);
        let is_replica = k < n as usize;
        assert!(!is_replica || member.disk() == group.observer.journal(k).bytes());
        assert!(
            is_replica || member.disk().is_empty(),
            "a station's journal"
        );
    }
    seen
}

/// A group whose members are closed and come back, lose power, also in the middle of a giving, and are given what
/// they missed. Each giving is what document 02 says, and each window has the last blocks of its journal.
pub fn run_with_givings(seed: u64) -> (Seen, Givings) {
    let n = 2 + seed as u32 % 5;
    let style = STYLES[seed as usize / 5 % 4].with_notices([0, 6, 6][seed as usize % 3]);
    let mut group = group(seed / 5, n, style, (0, 0));
    let mut random = Random::new(seed);
    let (holidays, cuts) = (seed.is_multiple_of(2), seed / 2 % 2 == 1);
    for _ in 0..CALLS_WITH_CUTS {
        match random.below(600) {
            0 => drop(group.round(true)),
            1..20 => group.random_giving(&mut random),
            20..22 if holidays => {
                let slots = random.pick(&[1, 20, 60, 63, 64, 65, 70]);
                group.holiday(random.below(n as usize), slots);
                group.random_giving(&mut random);
            }
            22..32 if cuts => {
                if random.below(2) == 0 || !group.random_cut_giving(&mut random) {
                    group.random_cut(&mut random);
                }
            }
            _ => random_call(&mut group, n, (0, 0), &mut random),
        }
    }
    let seen = at_rest(&mut group, &mut random);
    assert_eq!(group.givings.broken(), [""; 0]);
    assert_eq!(group.wrong_windows(), [""; 0]);
    (seen, group.givings)
}

/// The refusal numbers: there is no 22 any more, and no 24; 26 and 27 are the program `week`'s.
pub const NUMBERS: [usize; 25] = [
    1, 2, 3, 4, 5, 6, 7, 8, 9, 10, 11, 12, 13, 14, 15, 16, 17, 18, 19, 20, 21, 23, 25, 28, 29,
];

/// How often each refusal number came back, and how often stations refused by 18 what was handed out.
pub fn refused(seen: &Seen) -> String {
    let count = |number: usize| format!("{number}: {}", grouped(seen.refused[number]));
    let counts: Vec<String> = NUMBERS.into_iter().map(count).collect();
    let [far, again] = [seen.far_at_stations, seen.offered_again].map(grouped);
    let [notices, passed] = [seen.notices, seen.passed_out].map(grouped);
    format!(
        "{}; blocks of the group refused by 18 at stations: {far}, of which {again} were taken later; notices taken: \
         {notices}, slots passed as out: {passed}",
        counts.join("; ")
    )
}

/// How givings ended.
pub fn given(givings: &Givings) -> String {
    let [given, nothing, promised] =
        [givings.given, givings.nothing, givings.promised].map(grouped);
    let [nobody, lacking, cut] = [givings.nobody_up, givings.lacking, givings.cut].map(grouped);
    format!(
        "{given} went through, {nothing} gave nothing, of {promised} it is promised where they lead; refused by 30: \
         {nobody}, by 31: {lacking}; {cut} cut in the middle"
    )
}
