//! Lent parts of a wrong length: 1, before any other number but a station's 25, and nothing is changed.

use model::drive::start_values;
use model::samples::{block_of, Random};
use stemline::ffi::Txn;
use stemline::{Replica, Station, DOWN, ITEMS, NO_NUMBER};

use crate::lent::{refused, Lent};

/// The parts with a length, by name; a call is lent some of them.
const PARTS: [&str; 17] = [
    "table",
    "queue",
    "items",
    "writes",
    "snapshots",
    "values",
    "stamps",
    "classes",
    "places",
    "outbox",
    "window",
    "start",
    "block",
    "bytes",
    "given",
    "turns",
    "lent",
];

fn length(lent: &Lent, part: &str) -> usize {
    match part {
        "table" => lent.table.len(),
        "queue" => lent.queue.len(),
        "items" => lent.items.len(),
        "writes" => lent.writes.len(),
        "snapshots" => lent.snapshots.len(),
        "values" => lent.values.len(),
        "stamps" => lent.stamps.len(),
        "classes" => lent.classes.len(),
        "places" => lent.places.len(),
        "outbox" => lent.outbox.len(),
        "window" => lent.window.len(),
        "start" => lent.start.len(),
        "block" => lent.block.len(),
        "bytes" => lent.bytes.len(),
        "given" => lent.given.len(),
        "turns" => lent.turns.len(),
        "lent" => lent.lent.len(),
        _ => panic!("no part {part}"),
    }
}

fn resize(lent: &mut Lent, part: &str, length: usize) {
    match part {
        "table" => lent.table.resize(length, Txn::default()),
        "queue" => lent.queue.resize(length, 0),
        "items" => lent.items.resize(length, 0),
        "writes" => lent.writes.resize(length, 0),
        "snapshots" => lent.snapshots.resize(length, 0),
        "values" => lent.values.resize(length, 0),
        "stamps" => lent.stamps.resize(length, 0),
        "classes" => lent.classes.resize(length, 0),
        "places" => lent.places.resize(length, 0),
        "outbox" => lent.outbox.resize(length, 0),
        "window" => lent.window.resize(length, 0),
        "start" => lent.start.resize(length, 0),
        "block" => lent.block.resize(length, 0),
        "bytes" => lent.bytes.resize(length, 0),
        "given" => lent.given.resize(length, 1),
        "turns" => lent.turns.resize(length, 2),
        "lent" => lent.lent.resize(length, 0),
        _ => panic!("no part {part}"),
    }
}

/// The calls and the parts that each is lent. A journal has no wrong length; that of notices is wrong where it
/// is no multiple of 3.
pub const CALLS: [(&str, &str); 17] = [
    (
        "make",
        "table queue items writes snapshots values stamps classes places outbox window start",
    ),
    (
        "make_station",
        "table queue items writes snapshots values stamps classes places outbox window start",
    ),
    (
        "restart",
        "table queue items writes snapshots values stamps classes places outbox window start block",
    ),
    ("begin", "table values snapshots"),
    ("read", "table items writes snapshots"),
    ("write", "table items writes stamps classes places"),
    ("ask", "table queue"),
    ("withdraw", "table"),
    ("report", "table"),
    ("send", "table queue items writes outbox block"),
    ("deliver", "places outbox bytes"),
    ("work", "table queue items values stamps places window"),
    ("giver", "turns"),
    (
        "give",
        "table queue items values stamps places outbox window turns lent",
    ),
    ("load", "classes given"),
    ("out", "places"),
    ("back", "places"),
];

/// The calls that a station refuses by 25, before all else.
pub const ONLY_READS: [&str; 4] = ["write", "send", "giver", "give"];

/// The calls that fill the parts, whatever they held.
pub const FILLING: [&str; 3] = ["make", "make_station", "restart"];

/// A replica 0 of 2 at which the call is accepted; and one at which it is refused, by the number. For
/// a work also one at which it leaves the slot of another, and an own one that is out, for a write and a load
/// those at which a block of another is applied in part. Last a station of 2 with a block of another applied
/// in part.
pub fn states(name: &str) -> Vec<(Lent, u8)> {
    let mut replica = Replica::new(2, 0, &start_values()).unwrap();
    if name == "back" {
        replica.out(1, 3).unwrap();
    }
    let ticket = replica.begin().unwrap();
    replica.write(ticket, 5, 40).unwrap();
    let bytes = block_of(2, 1, &[(3, &[(9, 1)])]);
    let own = block_of(2, 0, &[(4, &[(9, 2), (11, 3)])]);
    let journal = [&own[..], &bytes, &own].concat();
    let lent = |replica: &Replica| Lent {
        bytes: bytes.to_vec(),
        journal: journal.clone(),
        ticket,
        item: 5,
        value: -7,
        replica: 1,
        slot: 5,
        notices: vec![1, 1, 7],
        ..Lent::of(replica.memory())
    };
    let mut sent = replica.clone();
    sent.ask(ticket).unwrap();
    let block = sent.send().unwrap();
    let mut back = sent.clone();
    back.deliver(&block).unwrap();
    if name == "giver" || name == "give" {
        return giving(name, &lent(&sent), &block);
    }
    let good = lent(if name == "work" { &back } else { &replica });
    let mut bad = lent(if name == "send" { &sent } else { &replica });
    bad.ticket = 77;
    bad.bytes[100] ^= 4;
    let number = match name {
        "make" | "make_station" | "restart" => {
            bad.n = 7;
            2
        }
        "begin" => {
            for _ in 1..6 {
                replica.begin().unwrap();
            }
            bad = lent(&replica);
            5
        }
        "read" | "write" => {
            bad.item = 128;
            2
        }
        "ask" | "withdraw" => 3,
        "send" => 12,
        "deliver" => 14,
        "work" => 21,
        "out" => {
            bad.replica = 2;
            2
        }
        "back" => {
            bad.slot = 3;
            28
        }
        "load" => {
            bad.given[127] = 9;
            2
        }
        // A report is refused by 1 alone.
        _ => 0,
    };
    let mut states = vec![(good, 0), (bad, number)];
    if name == "work" {
        back.work().unwrap();
        back.deliver(&bytes).unwrap();
        states.push((lent(&back), 0));
        let mut out = Replica::new(2, 0, &start_values()).unwrap();
        out.out(0, 0).unwrap();
        states.push((lent(&out), 0));
    }
    if name == "write" || name == "load" {
        let applying = applying();
        let number = if name == "write" { 7 } else { 23 };
        states.push((lent(&applying), number));
        // Item 6 is of another class than what is still to come.
        let item = 6;
        let free = Lent {
            item,
            ..lent(&applying)
        };
        states.extend((name == "write").then_some((free, 0)));
    }
    let station = Lent {
        bytes: bytes.to_vec(),
        journal,
        ticket,
        item: 6,
        replica: 1,
        slot: 5,
        ..Lent::of(station(name == "back").memory())
    };
    let number = match name {
        "write" | "send" => 25,
        "load" => 23,
        _ => 0,
    };
    states.push((station, number));
    states
}

/// A replica 0 of 2 that has sent its block of slot 0, and is to get it back with that of slot 1; one to which nobody
/// gives; one whose giver lacks slot 1; one that is level; and a station.
fn giving(name: &str, sent: &Lent, block: &[u8; 512]) -> Vec<(Lent, u8)> {
    let mut giver = Replica::new(2, 1, &start_values()).unwrap();
    giver.take(block).unwrap();
    let mut lacks = Lent {
        turns: vec![DOWN, 1],
        lent: giver.window().bytes().to_vec(),
        ..sent.clone()
    };
    let ticket = giver.begin().unwrap();
    giver.write(ticket, 9, 1).unwrap();
    giver.ask(ticket).unwrap();
    let own = giver.send().unwrap();
    giver.take(&own).unwrap();
    let good = Lent {
        turns: vec![DOWN, 2],
        lent: giver.window().bytes().to_vec(),
        ..sent.clone()
    };
    lacks.turns[1] = 2;
    let nobody = Lent {
        turns: vec![7, DOWN],
        ..good.clone()
    };
    let level = Lent {
        turns: vec![9, 0],
        ..good.clone()
    };
    let mut station = good.clone();
    station.group.own = NO_NUMBER;
    let number = if name == "give" { 31 } else { 0 };
    vec![
        (good, 0),
        (nobody, 30),
        (lacks, number),
        (level, 0),
        (station, 25),
    ]
}

/// A station of 2 with one transaction, at slot 0 of which one of two writesets is applied; with replica 1 out
/// from slot 3 on, or not.
fn station(out: bool) -> Station {
    let mut station = Station::new(2, &start_values()).unwrap();
    if out {
        station.out(1, 3).unwrap();
    }
    station.begin().unwrap();
    let records: [(u32, &[(u8, i32)]); 2] = [(1, &[(5, 1)]), (2, &[(9, 1)])];
    station.deliver(&block_of(2, 0, &records)).unwrap();
    assert!(!station.work().unwrap().moved);
    station
}

/// A replica 0 of 2 that has loaded classes, with one transaction, and a block of another applied in
/// part: item 9 is still to come, and items 5 and 9 are of one class.
fn applying() -> Replica {
    let mut replica = Replica::new(2, 0, &start_values()).unwrap();
    let own = replica.send().unwrap();
    replica.take(&own).unwrap();
    replica.begin().unwrap();
    replica
        .load(&std::array::from_fn::<u8, ITEMS, _>(|item| {
            1 + item as u8 % 2
        }))
        .unwrap();
    let records: [(u32, &[(u8, i32)]); 2] = [(3, &[(8, 1)]), (4, &[(9, 1)])];
    replica.deliver(&block_of(2, 1, &records)).unwrap();
    assert!(!replica.work().unwrap().moved);
    replica
}

/// Calls with these parts at wrong lengths; none of the parts may be lent to it, or it is 1. At a station a
/// write and a send are refused by 25 whatever is lent, a giving whatever is lent but the table.
fn check(name: &str, lent: &str, good: &Lent, number: u8, wrong: &[(&str, usize)]) {
    let mut state = good.clone();
    for &(part, length) in wrong {
        resize(&mut state, part, length);
    }
    let before = state.clone();
    let answer = state.call(name);
    // An n out of range gives the places no length.
    let seen = |part: &str| {
        let any = FILLING.contains(&name) && part == "places" && good.n == 7;
        lent.split(' ').any(|of_call| of_call == part) && !any
    };
    let only_reads = good.group.own == NO_NUMBER && ONLY_READS.contains(&name);
    if wrong.iter().any(|&(part, _)| seen(part)) {
        let table = name == "give" && wrong.iter().any(|&(part, _)| part == "table");
        let due = if only_reads && !table { 25 } else { 1 };
        assert_eq!(answer, refused(name, due), "{name}, {wrong:?}");
        assert!(state == before, "{name}, {wrong:?}: something is changed");
    } else {
        assert_eq!(answer, good.clone().call(name), "{name}, {wrong:?}");
        assert_eq!(answer.0, number, "{name}, {wrong:?}");
    }
}

/// Each part by itself: none, one less, one more, and others.
#[test]
fn one_wrong_length() {
    for (name, lent) in CALLS {
        for (good, number) in states(name) {
            for part in PARTS {
                let right = length(&good, part);
                for length in [0, 1, right - 1, right + 1, 2 * right, right + 512] {
                    check(name, lent, &good, number, &[(part, length)]);
                }
            }
        }
    }
}

/// Notices that are not three numbers each.
#[test]
fn notices_of_three() {
    for (good, number) in states("restart") {
        for length in 0..=9 {
            let mut state = Lent {
                notices: vec![0; length],
                ..good.clone()
            };
            let before = state.clone();
            let answer = state.call("restart");
            match length % 3 {
                0 => assert_eq!(answer.0, number, "{length}"),
                _ => {
                    assert_eq!(answer, refused("restart", 1), "{length}");
                    assert!(state == before, "{length}: something is changed");
                }
            }
        }
    }
}

/// Several at once, by seed.
#[test]
fn several_wrong_lengths() {
    let mut random = Random::new(7);
    for _ in 0..2_000 {
        for (name, lent) in CALLS {
            let states = states(name);
            let (good, number) = &states[random.below(states.len())];
            let mut wrong = Vec::new();
            for part in PARTS {
                if random.below(6) == 0 {
                    let right = length(good, part);
                    let length = random.pick(&[0, 1, right - 1, right + 1, right + 2]);
                    wrong.push((part, length));
                }
            }
            check(name, lent, good, *number, &wrong);
        }
    }
}
