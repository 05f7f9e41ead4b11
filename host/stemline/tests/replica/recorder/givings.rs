//! Recorded givings: as their delivers and works; one that nobody else is up for by its own line.

use stemline::{Durable, Window, DOWN};

use super::*;
use crate::files::Room;

/// Replica 0 of 2 by itself for so many slots, with the other out from slot 1 on.
fn alone(slots: u32) -> Replica {
    let mut giver = Replica::new(2, 0, &[0; ITEMS]).unwrap();
    giver.out(1, 1).unwrap();
    while giver.report().turn < slots {
        let ticket = giver.begin().unwrap();
        giver.write(ticket, ticket % 8, ticket as i32).unwrap();
        giver.ask(ticket).unwrap();
        let own = giver.send().unwrap();
        giver.take(&own).unwrap();
    }
    giver
}

/// The letters of the calls, one for each line.
fn letters(calls: &str) -> String {
    calls.lines().map(|line| &line[..1]).collect()
}

#[test]
fn slot_by_slot() {
    let giver = alone(8);
    let made = Recorder::new(2, 1, &[0; ITEMS], Vec::new(), Vec::new());
    let mut returner = made.unwrap();
    let ticket = returner.begin().unwrap();
    returner.write(ticket, 3, -1).unwrap();
    // Without the notice its own slot is none that it sent.
    let given = returner.give(&[8, 0], giver.window()).unwrap();
    assert_eq!(given.ended, Some(Refusal::NotSent));
    returner.out(1, 1).unwrap();
    assert_eq!(returner.giver(&[8, 0]), Ok(0));
    let given = returner.give(&[8, 0], giver.window()).unwrap();
    assert_eq!((given.ended, given.aborted()), (None, &[ticket][..]));
    assert!(returner.window() == giver.window());
    assert_eq!(returner.left_out(), 0);
    // Level, lacking, and told of another number.
    assert!(returner.give(&[8, 0], &Window::new()).is_ok());
    let lacks = returner.give(&[9, 0], giver.window());
    assert_eq!(lacks, Err(Refusal::WindowLacks));
    let wrong = returner.give(&[9], giver.window());
    assert_eq!(wrong, Err(Refusal::WrongLength));
    assert_eq!(returner.left_out(), 3);
    let nobody = returner.give(&[DOWN, 7], giver.window());
    assert_eq!(nobody, Err(Refusal::NobodyUp));
    assert_eq!(returner.left_out(), 3);
    returner.report();
    assert_eq!(returner.stopped(), None);
    let (calls, answers) = text(returner);
    // Slots 2, 4 and 6 are delivered, and all of them worked.
    assert_eq!(letters(&calls), "MBWHKHOKHKKHKKHKKGQ");
    assert!(calls.ends_with("G 1 4294967295 7\nQ 1\n"), "{calls}");
    assert!(answers.ends_with("\n30\n0 8 4 1 0 0 0 1 0\n"), "{answers}");
    assert_eq!(differs(&calls, &answers), None);
}

/// Members of random groups are opened with a recorder, and given from another's window, also from a damaged one.
#[test]
fn at_random() {
    // Those that gave something, and those that a deliver ended.
    let mut met = [0; 2];
    let seeds = Seeds::new(60);
    seeds.each(|seed| {
        let mut random = Random::new(seed);
        let n = 2 + seed as u32 % 5;
        let members = (0..n).map(|own| Machine::make(n, Some(own), &start_values()).unwrap());
        let style = STYLES[random.below(4)].with_notices(6);
        let mut group = Group::new(members.collect(), style);
        for _ in 0..400 {
            group.random_call(&mut random);
        }
        let k = random.below(n as usize);
        group.holiday(k, random.pick(&[5, 40]));
        let taken: Vec<_> = group.observer.notices(k).iter().map(told).collect();
        let disk = group.members[k].disk().to_vec();
        let start = &start_values();
        let made = Recorder::restart(n, k as u32, start, &disk, &taken, Vec::new(), Vec::new());
        let (mut returner, _) = made.unwrap();
        let mut turns: Vec<u32> = group
            .tallies
            .iter()
            .map(|tally| tally.report.turn)
            .collect();
        turns[k] = DOWN;
        let giver = returner.giver(&turns).unwrap();
        let window = &group.members[usize::from(giver)].replica.window;
        let mut bytes = *crate::both::lent(window).bytes();
        if random.below(3) == 0 {
            bytes[random.below(stemline::WINDOW)] ^= 1;
        }
        if let Ok(given) = returner.give(&turns, &Window::from_bytes(&bytes)) {
            met[usize::from(given.ended.is_some())] += 1;
        }
        drive(&mut returner, (n, k as u32), 100, &mut random);
        assert_eq!(returner.stopped(), None);
        let (calls, answers) = text(returner);
        assert_eq!(differs(&calls, &answers), None);
    });
    let enough = met[0] > 20 && met[1] > 2;
    assert!(seeds.runs < 60 || enough, "{met:?}");
}

/// With the journal in a file.
#[test]
fn durable() {
    let room = Room::new("recorded-giving");
    let path = room.0.join("journal");
    let giver = alone(8);
    let (mut calls, mut answers) = (Vec::new(), Vec::new());
    let sinks = (&mut calls, &mut answers);
    let opened = Durable::record(&path, "grot", 2, 1, &[0; ITEMS], sinks);
    let (mut returner, _) = opened.unwrap();
    returner.out(1, 1).unwrap();
    assert_eq!(returner.give(&[8, 0], giver.window()).unwrap().ended, None);
    assert!(returner.window() == giver.window());
    assert_eq!(returner.stopped(), None);
    drop(returner);
    let [calls, answers] = [calls, answers].map(|text| String::from_utf8(text).unwrap());
    assert_eq!(letters(&calls), "YOHKKHKKHKKHKK");
    assert_eq!(differs(&calls, &answers), None);
    let (replica, _) = Durable::open(&path, "grot", 2, 1, &[0; ITEMS]).unwrap();
    assert_eq!(replica.values(), giver.values());
}
