//! Lines that are cut and slow.

use std::time::Duration;

use trial::client::Told;
use trial::lines::Quality;

use super::{able, group, Designer};

/// Whoever is cut off holds the others up, and none of them says anything that is not so; once it is back, all goes on.
#[test]
fn one_is_cut_off() {
    if !able() {
        return;
    }
    let mut group = group("cutoff", 1);
    group.start().unwrap();
    let mut designer = Designer::new();
    (0..3).for_each(|node| designer.commits(&group, node));
    group.net.plug(1, false).unwrap();
    // A block or two may still be under way; behind them the group waits for the one that is cut off.
    let told: Vec<Told> = (0..4)
        .map(|_| designer.sets(&group, 0, Duration::from_secs(1)))
        .collect();
    assert!(matches!(told[3], Told::Unknown(_)), "{told:?}");
    let values = group.nodes[0]
        .client(Duration::from_secs(5))
        .unwrap()
        .values()
        .unwrap();
    assert_eq!(values.len(), 128);
    group.net.plug(1, true).unwrap();
    let journals = group.journals();
    designer.verdict(group, &journals);
}

/// A pair without a line is told by the third what it lacks.
#[test]
fn a_pair_without_a_line() {
    if !able() {
        return;
    }
    let mut group = group("pair", 0);
    group.start().unwrap();
    let mut designer = Designer::new();
    (0..3).for_each(|node| designer.commits(&group, node));
    let cut = Quality {
        cut: true,
        ..Quality::default()
    };
    group.net.lines().unwrap().set_pair(0, 1, cut);
    for _ in 0..3 {
        (0..3).for_each(|node| designer.commits(&group, node));
    }
    group.net.set_all(Quality::default()).unwrap();
    let journals = group.journals();
    assert_eq!(designer.verdict(group, &journals).committed, 15);
}

/// One is slow, and its line loses: all goes on, at its pace.
#[test]
fn one_is_slow() {
    if !able() {
        return;
    }
    let mut group = group("slow", 1);
    group.start().unwrap();
    let slow = Quality {
        delay: Duration::from_millis(100),
        jitter: Duration::from_millis(50),
        loss: 50,
        cut: false,
    };
    group.net.lines().unwrap().set_of(2, slow);
    let mut designer = Designer::new();
    for _ in 0..5 {
        (0..3).for_each(|node| designer.commits(&group, node));
    }
    let journals = group.journals();
    assert_eq!(designer.verdict(group, &journals).committed, 18);
}
