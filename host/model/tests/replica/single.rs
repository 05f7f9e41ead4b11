//! Random runs of one replica among forged peers, beside a replica by history.

use model::block::MAX_TICKET;
use model::drive::{Peers, Seen, Style, Subject, STYLES};
use model::replica::{Replica, ITEMS, SLOTS};
use model::samples::Random;
use model::trace::Call;

use crate::common::{make, start_values, station};
use crate::history::{Fault, Historical};

/// A replica of the model and one by history, which get the same calls.
pub struct Pair {
    replica: Replica,
    historical: Historical,
    peers: Peers,
}

impl Pair {
    pub fn new(n: u32, own: u32, fault: Fault) -> Pair {
        Pair::late(n, own, fault, 0, 0)
    }

    /// Both after so many slots and tickets.
    pub fn late(n: u32, own: u32, fault: Fault, slots: u32, tickets: u32) -> Pair {
        let replica = make(n, own).fast_forward(slots, tickets);
        let historical = Historical::make(n, Some(own), start_values(), fault);
        Pair {
            peers: Peers::new(n, own, replica.report()),
            replica,
            historical: historical.fast_forward(slots, tickets),
        }
    }

    /// A station of both, after so many slots and tickets.
    pub fn station(n: u32, slots: u32, tickets: u32) -> Pair {
        let replica = station(n).fast_forward(slots, tickets);
        let historical = Historical::make(n, None, start_values(), Fault::None);
        Pair {
            peers: Peers::of_station(n, replica.report()),
            replica,
            historical: historical.fast_forward(slots, tickets),
        }
    }

    /// One random call at both. What differs is given in words.
    pub fn random_call(&mut self, random: &mut Random, style: Style) -> Result<(), String> {
        let call = self.peers.random_call(random, style);
        let before = self.replica.clone();
        let answer = self.replica.call(&call);
        if answer.is_err() && answer != Err(9) {
            assert_eq!(self.replica, before, "changed by {call:?}, {answer:?}");
        }
        self.peers.feed(&call, &answer);
        assert_eq!(self.replica.report(), self.peers.tally.report, "{call:?}");

        let other = self.historical.call(&call);
        if answer != other {
            return Err(format!("{call:?}: {answer:?}, by history {other:?}"));
        }
        if self.replica.report() != self.historical.report() {
            return Err(format!("after {call:?}: the reports differ"));
        }
        if self.replica.classes != self.historical.classes() {
            return Err(format!("after {call:?}: the classes differ"));
        }
        // Only a work may change values and stamps; then all of both are compared.
        if !matches!(call, Call::Work) {
            assert_eq!(self.replica.values(), before.values());
            return Ok(());
        }
        let stamp = |item: usize| self.historical.stamp(item as u32) as u32;
        let same = *self.replica.values() == self.historical.values()
            && (0..ITEMS).all(|item| self.replica.stamp(item) == stamp(item));
        if !same {
            return Err(format!("after {call:?}: values or stamps differ"));
        }
        Ok(())
    }
}

/// A run of a pair without fault, in which nothing may differ.
fn run(mut pair: Pair, seed: u64, style: Style, calls: usize) -> Seen {
    let mut random = Random::new(seed);
    for call in 0..calls {
        if let Err(text) = pair.random_call(&mut random, style) {
            panic!("seed {seed}, call {call}: {text}");
        }
    }
    pair.peers.seen
}

#[test]
fn both_give_the_same() {
    let mut seen = Seen::default();
    for seed in 0..100 {
        let n = 2 + seed as u32 % 5;
        let own = seed as u32 / 5 % n;
        let style = STYLES[seed as usize % 4];
        seen.add(&run(Pair::new(n, own, Fault::None), seed, style, 2_000));
    }
    assert_eq!(seen.calls, 200_000);
    assert!(seen.commits > 10_000, "{seen:?}");
    assert!(seen.aborted > 1_000 && seen.stale > 500, "{seen:?}");
    assert!(seen.stale_and_held > 20, "{seen:?}");
    assert!(seen.read_only > 300 && seen.withdrawn > 300, "{seen:?}");
    assert!(seen.sent.iter().all(|&blocks| blocks > 10), "{seen:?}");
    let due: Vec<usize> = (1..24).filter(|n| ![6, 13, 22].contains(n)).collect();
    assert_eq!(seen.numbers(50), due, "{seen:?}");
}

/// The same at stations: of document 01's numbers those are left that no write or send gives, and without
/// 4 and 19.
#[test]
fn both_give_the_same_at_stations() {
    let mut seen = Seen::default();
    for seed in 200..300 {
        let n = 2 + seed as u32 % 5;
        let style = STYLES[seed as usize % 4];
        // Of a few the last slots and tickets are near.
        let (slots, tickets) = match seed % 10 {
            0 => (SLOTS - 60, MAX_TICKET - 60),
            _ => (0, 0),
        };
        let pair = Pair::station(n, slots, tickets);
        seen.add(&run(pair, seed, style, 2_000));
    }
    assert_eq!(seen.calls, 200_000);
    assert!(seen.commits > 10_000 && seen.aborted == 0, "{seen:?}");
    assert!(seen.read_only > 300 && seen.withdrawn > 300, "{seen:?}");
    let due = [1, 2, 3, 5, 6, 14, 15, 16, 17, 18, 20, 21, 25];
    assert_eq!(seen.numbers(50), due, "{seen:?}");
    assert_eq!(seen.numbers(1), due, "{seen:?}");
}

/// The same with any notices at any time, at replicas and stations, some of them near the last slot.
#[test]
fn both_give_the_same_with_notices() {
    let mut seen = [Seen::default(), Seen::default()];
    for seed in 300..420 {
        let n = 2 + seed as u32 % 5;
        let own = seed as u32 / 5 % n;
        let style = STYLES[seed as usize % 4].with_notices(10);
        let (slots, tickets) = match seed % 6 {
            0 => (SLOTS - 60, MAX_TICKET - 60),
            _ => (0, 0),
        };
        let is_station = seed % 4 == 0;
        let pair = match is_station {
            true => Pair::station(n, slots, tickets),
            false => Pair::late(n, own, Fault::None, slots, tickets),
        };
        seen[usize::from(is_station)].add(&run(pair, seed, style, 2_000));
    }
    for (seen, at) in seen.iter().zip(["replicas", "stations"]) {
        assert!(seen.notices > 1_000, "{at}: {seen:?}");
        assert!(seen.passed_out > 2_000, "{at}: {seen:?}");
        for number in [2, 28, 29] {
            assert!(seen.refused[number] > 200, "{at}: {seen:?}");
        }
    }
}

/// The same near the last slots and tickets.
#[test]
fn both_give_the_same_at_the_end() {
    let mut seen = Seen::default();
    let style = Style::new(30, 40, 3);
    for seed in 100..130 {
        let n = 2 + seed as u32 % 5;
        let own = seed as u32 / 5 % n;
        let pair = Pair::late(n, own, Fault::None, SLOTS - 60, MAX_TICKET - 60);
        seen.add(&run(pair, seed, style, 2_500));
    }
    let due: Vec<usize> = (1..24).filter(|&n| n != 22).collect();
    assert_eq!(seen.numbers(10), due, "{seen:?}");
}
