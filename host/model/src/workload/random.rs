//! Random calls of groups of 2 to 6 replicas, by seed. Blocks arrive early, late, repeated, damaged,
//! forged, or not at all for a while; in some rounds replicas lose power, in some they load classes, in
//! some there are stations.

mod group;
mod stations;

use self::group::Group;
use super::List;
use crate::replay::hex;
use crate::replica::OPEN;
use crate::samples::{self, Random};

/// The calls of a round, before its groups come to rest.
const CALLS: usize = 3_000;
/// The same, where replicas lose power.
const CALLS_AND_CUTS: usize = 1_800;
/// The same, where there are stations.
const CALLS_AND_STATIONS: usize = 800;
/// The first place of a station.
const STATION: usize = 6;

/// How a round's calls are chosen.
pub(super) struct Round {
    /// The sizes of the groups that run side by side.
    pub sizes: &'static [usize],
    /// Items below this number are used: the fewer, the more conflicts.
    items: usize,
    /// Of a hundred calls at transactions, so many ask: the fewer, the larger the writesets.
    asks: usize,
    /// Whether replicas get blocks that nobody of their group sent and that they must take. Then its
    /// copies need not be equal.
    pub forged: bool,
    /// One call in so many is a cut, if this is not 0.
    cuts: usize,
    /// One call in so many at transactions is a load of classes instead, if this is not 0.
    loads: usize,
    /// The stations beside each group.
    stations: usize,
}

pub(super) const ROUNDS: [Round; 10] = [
    Round::new(&[2], 24, 25, false),
    Round::new(&[3], 128, 25, false),
    Round::new(&[4], 24, 20, false),
    Round::new(&[5], 128, 30, false),
    Round::new(&[6], 40, 20, false),
    Round::new(&[2, 4], 12, 25, false),
    Round::new(&[3, 2], 128, 10, false),
    Round::new(&[3, 3], 40, 20, true),
    Round::new(&[2, 2, 2], 24, 20, true),
    Round::new(&[6], 128, 25, true),
];

/// The seed of the first round in which replicas lose power.
pub(super) const CUT_SEED: u64 = ROUNDS.len() as u64;

/// The rounds in which replicas lose power.
pub(super) const CUT_ROUNDS: [Round; 6] = [
    Round::with_cuts(&[2], 24, 25, 50),
    Round::with_cuts(&[3], 128, 25, 50),
    Round::with_cuts(&[4], 24, 20, 50),
    Round::with_cuts(&[5], 40, 20, 50),
    Round::with_cuts(&[6], 128, 25, 50),
    Round::with_cuts(&[2, 4], 12, 25, 30),
];

/// The seed of the first round in which replicas load classes.
pub(super) const TABLE_SEED: u64 = CUT_SEED + CUT_ROUNDS.len() as u64;

/// The rounds in which replicas load classes, each its own; in the last two they lose power too.
pub(super) const TABLE_ROUNDS: [Round; 4] = [
    Round::with_tables(&[2], 24, 25, 0),
    Round::with_tables(&[5], 128, 25, 0),
    Round::with_tables(&[4], 40, 20, 50),
    Round::with_tables(&[3, 2], 16, 25, 50),
];

/// The seed of the first round with stations.
pub(super) const STATION_SEED: u64 = TABLE_SEED + TABLE_ROUNDS.len() as u64;

/// The rounds with stations. In the last one replicas lose power, and stations their memory.
pub(super) const STATION_ROUNDS: [Round; 4] = [
    Round::with_stations(&[2], 2, 0),
    Round::with_stations(&[6], 1, 0),
    Round::with_stations(&[4, 2], 1, 0),
    Round::with_stations(&[3], 2, 60),
];

impl Round {
    const fn new(sizes: &'static [usize], items: usize, asks: usize, forged: bool) -> Round {
        Round {
            sizes,
            items,
            asks,
            forged,
            cuts: 0,
            loads: 0,
            stations: 0,
        }
    }

    const fn with_cuts(sizes: &'static [usize], items: usize, asks: usize, cuts: usize) -> Round {
        Round {
            cuts,
            ..Round::new(sizes, items, asks, false)
        }
    }

    const fn with_tables(sizes: &'static [usize], items: usize, asks: usize, cuts: usize) -> Round {
        Round {
            loads: 16,
            ..Round::with_cuts(sizes, items, asks, cuts)
        }
    }

    const fn with_stations(sizes: &'static [usize], stations: usize, cuts: usize) -> Round {
        Round {
            stations,
            ..Round::with_cuts(sizes, 24, 25, cuts)
        }
    }
}

pub(super) fn all(list: &mut List) {
    for (seed, round) in ROUNDS.iter().enumerate() {
        play(list, round, seed as u64);
    }
}

pub(super) fn with_cuts(list: &mut List) {
    for (round, seed) in CUT_ROUNDS.iter().zip(CUT_SEED..) {
        play(list, round, seed);
    }
}

pub(super) fn with_tables(list: &mut List) {
    for (round, seed) in TABLE_ROUNDS.iter().zip(TABLE_SEED..) {
        play(list, round, seed);
    }
}

pub(super) fn with_stations(list: &mut List) {
    for (round, seed) in STATION_ROUNDS.iter().zip(STATION_SEED..) {
        play(list, round, seed);
    }
}

/// A round. It gives its groups as places.
pub(super) fn play(list: &mut List, round: &Round, seed: u64) -> Vec<Vec<usize>> {
    let mut random = Random::new(seed);
    let mut groups = Vec::new();
    let mut place = 0;
    for &size in round.sizes {
        let value = samples::value(&mut random);
        groups.push(Group::make(list, &mut random, place, size, value));
        place += size;
    }
    for at in 0..round.stations * groups.len() {
        groups[at / round.stations].add_station(list, STATION + at);
    }
    let calls = match round {
        Round { stations: 1.., .. } => CALLS_AND_STATIONS,
        Round { cuts: 1.., .. } => CALLS_AND_CUTS,
        _ => CALLS,
    };
    for _ in 0..calls {
        let at = random.below(groups.len());
        if round.stations > 0 && random.below(3) == 0 {
            groups[at].station_call(list, &mut random, round.items);
        } else if round.cuts > 0 && random.below(round.cuts) == 0 {
            groups[at].cut(list, &mut random);
            if round.stations > 0 && random.below(4) == 0 {
                groups[at].renew_station(list, &mut random);
            }
        } else {
            groups[at].call(list, &mut random, round);
        }
    }
    for group in &mut groups {
        group.settle(list);
    }
    groups.iter().map(Group::places).collect()
}

/// A call at the transactions of a replica, or a load.
fn client_call(list: &mut List, random: &mut Random, place: usize, round: &Round) {
    if round.loads > 0 && random.below(round.loads) == 0 {
        let classes = samples::classes(random);
        list.call(&format!("P {place} {}", hex(&classes)));
        return;
    }
    let replica = list.replica(place);
    let (active, report) = (replica.active_tickets(), replica.report());
    if active.is_empty() || (report.open < OPEN as u32 && random.below(12) == 0) {
        list.call(&format!("B {place}"));
        return;
    }
    let ticket = if random.below(40) == 0 {
        let any = random.below(report.tickets as usize + 1) as u32;
        let late = report.tickets.saturating_sub(random.below(8) as u32);
        random.pick(&[0, any, late, late, late, report.tickets + 1, u32::MAX])
    } else {
        random.pick(&active)
    };
    let any = random.below(round.items) as u32;
    let item = match random.below(60) {
        0 => random.pick(&[127, 128, 256 + any, u32::MAX]),
        _ => any,
    };
    let line = match random.below(100) {
        ask if ask < round.asks => format!("C {place} {ticket}"),
        97.. => format!("X {place} {ticket}"),
        95.. => format!("Q {place}"),
        94 => format!("B {place}"),
        93 if random.below(4) == 0 => format!("V {place}"),
        80.. => format!("R {place} {ticket} {item}"),
        _ => format!("W {place} {ticket} {item} {}", samples::value(random)),
    };
    list.call(&line);
}
