//! Givings: groups whose members come back, beside the model; over files; and one by one.

use model::drive::{start_values, Givings, Group, Seen, Style, Subject};
use model::giving::DOWN;
use model::samples::Random;
use soak::runs;
use stemline::{Refusal, Replica, Window, BLOCK, ITEMS};

use crate::both::Both;
use crate::c::say;
use crate::files::{check, group, Room};
use crate::seeds::Seeds;

const RUNS: u64 = 200;

/// Each giving is what the model's is, its calls one by one leave the same, and where it is promised, it comes to
/// where its giver was.
#[test]
fn groups_that_come_back() {
    let (mut seen, mut givings) = (Seen::default(), Givings::default());
    let seeds = Seeds::new(RUNS);
    seeds.each(|seed| {
        let (run, given) = runs::run_with_givings(seed);
        seen.add(&run);
        givings.add(&given);
    });
    say(&format!(
        "library beside model: givings: {}",
        runs::given(&givings)
    ));
    if seeds.runs >= RUNS {
        assert!(
            givings.given > 2_000 && givings.promised > 4_000,
            "{givings:?}"
        );
        assert!(
            givings.nothing > 1_000 && givings.nobody_up > 400,
            "{givings:?}"
        );
        assert!(givings.lacking > 400 && givings.ended == 0, "{givings:?}");
        assert!(
            givings.delivered > 4_000 && givings.out > 4_000,
            "{givings:?}"
        );
        assert!(
            givings.in_place > 300 && givings.half_applied > 30,
            "{givings:?}"
        );
        assert!(givings.longest == 64 && givings.cut > 150, "{givings:?}");
        assert!(seen.restarts > 1_000 && seen.aborted > 500, "{seen:?}");
    }
}

/// Any notice at anybody, and any turns told: a deliver may end a giving, or blocks may be taken that nobody handed
/// out. It is what the model's is all the same.
#[test]
fn a_careless_service() {
    let mut givings = Givings::default();
    let seeds = Seeds::new(100);
    seeds.each(|seed| {
        let n = 2 + seed as u32 % 5;
        let members = (0..n).map(|own| Both::new(n, own, &start_values()));
        let mut group = Group::new(members.collect(), Style::new(8, 40, 20));
        let mut random = Random::new(seed);
        for _ in 0..600 {
            match random.below(60) {
                0..2 => group.any_notice(&mut random),
                2 => group.random_cut(&mut random),
                3..6 => {
                    let k = random.below(n as usize);
                    let turn = |g: usize| group.members[g].report().turn;
                    let told = |g| random.pick(&[turn(g), turn(g), turn(g), turn(g) + 1, DOWN]);
                    let turns: Vec<u32> = (0..n as usize).map(told).collect();
                    group.give(k, &turns);
                }
                _ => group.random_call(&mut random),
            }
        }
        givings.add(&group.givings);
    });
    assert_eq!(givings.broken(), [""; 0]);
    let enough = givings.ended > 10 && givings.given > 200;
    assert!(seeds.runs < 100 || enough, "{givings:?}");
}

/// Groups whose journals are files: a giving appends what it leaves, and what a cut leaves of it is a first part.
#[test]
fn over_files() {
    let room = Room::new("givings");
    let mut givings = Givings::default();
    let seeds = Seeds::new(20);
    seeds.each(|seed| {
        let n = 2 + seed as u32 % 5;
        let mut random = Random::new(seed);
        let mut group = group(&room, n, seed, 6);
        for _ in 0..800 {
            match random.below(200) {
                0 => group.random_cut(&mut random),
                1..3 => drop(group.random_cut_giving(&mut random)),
                3..10 => group.random_giving(&mut random),
                10 => {
                    group.holiday(random.below(n as usize), random.pick(&[20, 64, 70]));
                    group.random_giving(&mut random);
                }
                _ => group.random_call(&mut random),
            }
        }
        check(&mut group);
        assert_eq!(group.givings.broken(), [""; 0]);
        assert_eq!(group.wrong_windows(), [""; 0]);
        givings.add(&group.givings);
    });
    let enough = givings.given > 100 && givings.cut > 30 && givings.lacking > 20;
    assert!(seeds.runs < 20 || enough, "{givings:?}");
}

/// Blocks of slots 0 to `slots` − 1 of a group of 2 of which replica 1 is out from slot 1 on; and replica 0.
fn alone(slots: u32) -> (Replica, Vec<[u8; BLOCK]>) {
    let mut giver = Replica::new(2, 0, &[0; ITEMS]).unwrap();
    giver.out(1, 1).unwrap();
    let mut blocks = Vec::new();
    while giver.report().turn < slots {
        let ticket = giver.begin().unwrap();
        giver.write(ticket, ticket % 128, ticket as i32).unwrap();
        giver.ask(ticket).unwrap();
        let own = giver.send().unwrap();
        giver.take(&own).unwrap();
        let window = giver.window();
        let left = blocks.len() as u32..giver.report().turn;
        blocks.extend(left.map(|slot| *window.block(slot).unwrap()));
    }
    (giver, blocks)
}

/// At turn 64 the giver still has slot 0; at turn 66, two more, it lacks it.
#[test]
fn sixty_four_slots() {
    let returner = || {
        let mut returner = Replica::new(2, 1, &[0; ITEMS]).unwrap();
        returner.out(1, 1).unwrap();
        returner
    };
    let (giver, _) = alone(64);
    let mut level = returner();
    let given = level.give(&[64, DOWN], giver.window()).unwrap();
    assert_eq!(
        (given.giver, given.ended, given.aborted()),
        (0, None, &[][..])
    );
    assert_eq!((level.report().turn, level.values()), (64, giver.values()));
    assert!(level.window() == giver.window());
    let (giver, blocks) = alone(66);
    let mut late = returner();
    let before = late.clone();
    let refused = late.give(&[66, DOWN], giver.window());
    assert_eq!(refused, Err(Refusal::WindowLacks));
    // Told too high or too low.
    assert_eq!(
        late.give(&[u32::MAX - 1, 0], giver.window()),
        Err(Refusal::WindowLacks)
    );
    assert!(late == before, "changed by a refused giving");
    for block in &blocks[..2] {
        late.take_slot(block).unwrap();
    }
    let part = late.give(&[40, 0], giver.window()).unwrap();
    assert_eq!((part.ended, late.report().turn), (None, 40));
    let _ = late.give(&[66, 0], giver.window()).unwrap();
    assert_eq!((late.report().turn, late.values()), (66, giver.values()));
}

/// A hole in the middle of the window is not seen by its ends: a deliver ends the giving there.
#[test]
fn a_hole_in_the_window() {
    let (_, blocks) = alone(20);
    let mut window = Window::new();
    for (slot, block) in blocks.iter().enumerate().filter(|&(slot, _)| slot != 8) {
        assert!(window.put(slot as u32, block));
    }
    assert_eq!(window.lacks(0..20), Some(8));
    let mut returner = Replica::new(2, 1, &[0; ITEMS]).unwrap();
    returner.out(1, 1).unwrap();
    let given = returner.give(&[20, 0], &window).unwrap();
    assert_eq!(given.ended, Some(Refusal::WrongForm));
    assert_eq!(returner.report().turn, 8);
    // With the block it goes on.
    assert!(window.put(8, &blocks[8]));
    assert_eq!(returner.give(&[20, 0], &window).unwrap().ended, None);
    assert_eq!(returner.report().turn, 20);
}

/// At a station's memory 25, before all else; and a block in place is not delivered again.
#[test]
fn stations_and_blocks_in_place() {
    let (giver, blocks) = alone(6);
    let station = stemline::Station::new(2, &[0; ITEMS]).unwrap();
    let mut station = Replica::from_memory(station.memory().clone());
    assert_eq!(station.giver(&[]), Err(Refusal::StationOnlyReads));
    let refused = station.give(&[], &Window::new());
    assert_eq!(refused, Err(Refusal::StationOnlyReads));
    let mut returner = Replica::new(2, 1, &[0; ITEMS]).unwrap();
    returner.out(1, 1).unwrap();
    returner.deliver(&blocks[0]).unwrap();
    assert_eq!(returner.give(&[6, 0], giver.window()).unwrap().ended, None);
    assert_eq!(returner.values(), giver.values());
}
