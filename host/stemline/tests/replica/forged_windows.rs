//! Givings at one replica or station among forged peers: the window lent has blocks that nobody sent, and may lack
//! some, or have damaged ones or others' between its ends. Library and model do the same.

use std::collections::BTreeMap;

use model::block::MAX_TICKET;
use model::drive::{start_values, Gives, Peers, Style, Subject};
use model::replica::SLOTS;
use model::samples::Random;

use crate::both::Both;
use crate::seeds::Seeds;

const RUNS: u64 = 200;
const CALLS: usize = 1_500;

/// A run; near the last slot for some seeds, at a station for others. It counts givings by their number, and the
/// most slots that one gave.
fn run(seed: u64, numbers: &mut BTreeMap<u8, u64>, longest: &mut u32) {
    let n = 2 + seed as u32 % 5;
    let own = seed as u32 / 5 % n;
    let late = match seed % 7 {
        0 => (SLOTS - 100, MAX_TICKET - 60),
        _ => (0, 0),
    };
    let (both, mut peers) = match seed % 11 {
        0 => {
            let both = Both::station(n, &start_values()).late(late.0, late.1);
            let peers = Peers::of_station(n, both.report());
            (both, peers)
        }
        _ => {
            let both = Both::new(n, own, &start_values()).late(late.0, late.1);
            let peers = Peers::new(n, own, both.report());
            (both, peers)
        }
    };
    let mut both = both;
    let mut random = Random::new(seed);
    let style = Style::new(8, 40, 8).with_notices(10);
    for _ in 0..CALLS {
        if random.below(12) > 0 {
            let call = peers.random_call(&mut random, style);
            let answer = both.call(&call);
            peers.feed(&call, &answer);
        } else {
            let (turns, window) = peers.random_giving(&mut random, style);
            let before = both.report().turn;
            let given = both.give(&turns, &window);
            given
                .calls
                .iter()
                .for_each(|(call, answer)| peers.feed(call, answer));
            *numbers.entry(given.number).or_default() += 1;
            *longest = (*longest).max(both.report().turn - before);
        }
        assert_eq!(both.report(), peers.tally.report);
    }
}

#[test]
fn the_same_as_the_model() {
    let (mut numbers, mut longest) = (BTreeMap::new(), 0);
    let seeds = Seeds::new(RUNS);
    seeds.each(|seed| run(seed, &mut numbers, &mut longest));
    if seeds.runs < RUNS {
        return;
    }
    // Each number of a giving, and of any deliver or work.
    let due = [0, 1, 14, 15, 16, 17, 18, 19, 20, 21, 25, 29, 30, 31];
    assert!(numbers.keys().eq(&due), "{numbers:?}");
    assert!(
        numbers[&0] > 1_000 && longest == 64,
        "{numbers:?}, {longest}"
    );
}
