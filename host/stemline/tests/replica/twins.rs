//! Divergence is noticed: digests, which hosts send along with their blocks.

use std::path::Path;

use stemline::{Digest, Durable, Replica, BLOCK, ITEMS};

use crate::files::Room;

fn open(room: &Room, file: &str, group: &str, n: u32, own: u32, start: i32) -> Durable {
    let path = Path::new(&room.0).join(file);
    let (replica, _) = Durable::open(path, group, n, own, &[start; ITEMS]).unwrap();
    replica
}

/// A host: its replica, and the turns at which another's digest was not its own.
struct Host {
    replica: Durable,
    told: Vec<u32>,
}

impl Host {
    fn new(replica: Durable) -> Host {
        Host {
            replica,
            told: Vec::new(),
        }
    }

    /// What its line sends: the block to hand out again, if it has one, and what it has committed.
    fn line(&self) -> (Option<[u8; BLOCK]>, Digest) {
        (self.replica.last().copied(), self.replica.digest())
    }

    /// What another's line brings.
    fn receive(&mut self, (block, digest): (Option<[u8; BLOCK]>, Digest)) {
        if let Some(block) = block {
            if let Err(failure) = self.replica.take(&block) {
                assert!(failure.refusal().is_some_and(|refusal| refusal.is_repeat()));
            }
        }
        if self.replica.agrees(&digest) == Some(false) {
            self.told.push(digest.turn);
        }
    }

    fn write(&mut self, value: i32) {
        let ticket = self.replica.begin().unwrap();
        self.replica.write(ticket, 5, value).unwrap();
        self.replica.ask(ticket).unwrap();
    }
}

/// Lets each send where it is its turn, and all hear all, in a group without twins.
fn round(hosts: &mut [Host]) {
    for _ in 0..hosts.len() {
        for k in 0..hosts.len() {
            if hosts[k].replica.is_turn() {
                hosts[k].replica.send().unwrap();
            }
            let line = hosts[k].line();
            hosts.iter_mut().for_each(|host| host.receive(line));
        }
    }
}

/// The same at all replicas at each turn, also behind an open; nothing is told.
#[test]
fn the_same_at_all() {
    let room = Room::new("same");
    let names = ["0", "1", "2"];
    let made = |k: u32| Host::new(open(&room, names[k as usize], "grot", 3, k, 0));
    let mut hosts: Vec<Host> = (0..3).map(made).collect();
    let mut seen: Vec<Digest> = Vec::new();
    for value in 0..20 {
        hosts[value as usize % 3].write(value);
        round(&mut hosts);
        let digests: Vec<Digest> = hosts.iter().map(|host| host.replica.digest()).collect();
        let turns = digests.iter().map(|digest| digest.turn);
        let least = turns.clone().min().unwrap();
        for host in &hosts {
            for digest in &digests {
                let knows = digest.turn <= host.replica.report().turn;
                let agrees = host.replica.agrees(digest);
                assert!(agrees == Some(true) || agrees.is_none() && !knows);
            }
        }
        seen.extend(digests.iter().filter(|digest| digest.turn == least).take(1));
        if value % 5 == 4 {
            let digest = hosts[1].replica.digest();
            drop(hosts.remove(1));
            hosts.insert(1, made(1));
            assert_eq!(hosts[1].replica.digest(), digest);
        }
    }
    assert!(hosts.iter().all(|host| host.told.is_empty()));
    let last = seen.last().unwrap();
    let report = hosts[0].replica.report();
    assert_eq!((last.turn, last.commits), (report.turn, report.commits));
    // Of long ago nothing is known, of later nothing yet.
    for _ in 0..30 {
        round(&mut hosts);
    }
    assert_eq!(hosts[0].replica.agrees(&seen[0]), None);
    let next = Digest {
        turn: hosts[0].replica.report().turn + 1,
        ..hosts[0].replica.digest()
    };
    assert_eq!(hosts[0].replica.agrees(&next), None);
    let line = format!("turn {}, commits {}, digest ", last.turn, last.commits);
    assert!(last.to_string().starts_with(&line));
}

/// Between a send and the take of the own block, and inside a block, the digest is that of the turn.
#[test]
fn of_the_turn() {
    let room = Room::new("turn");
    let mut replica = open(&room, "0", "grot", 2, 0, 0);
    let before = replica.digest();
    for item in 0..2 {
        let ticket = replica.begin().unwrap();
        replica.write(ticket, item, 7).unwrap();
        replica.ask(ticket).unwrap();
    }
    let block = replica.send().unwrap();
    assert_eq!(replica.digest(), before);
    replica.deliver(&block).unwrap();
    replica.work().unwrap();
    assert_eq!((replica.digest(), replica.report().commits), (before, 1));
    replica.work().unwrap();
    let after = replica.digest();
    assert_eq!((after.turn, after.commits), (1, 2));
    assert!(after.digest != before.digest);
}

/// A second process with the same number, over a file of its own: two of the others hear one, one the other.
/// Within a round it is told.
#[test]
fn a_twin_is_told() {
    let room = Room::new("twin");
    let mut first = Host::new(open(&room, "0", "grot", 3, 0, 0));
    let mut second = Host::new(open(&room, "1", "grot", 3, 1, 0));
    let mut twins = ["2", "2-again"].map(|file| Host::new(open(&room, file, "grot", 3, 2, 0)));
    // Both send the same value, so that the copies are equal by accident; the tickets differ.
    twins[0].write(40);
    let ticket = twins[1].replica.begin().unwrap();
    twins[1].replica.withdraw(ticket).unwrap();
    twins[1].write(40);
    for slot in 0..2 {
        let sender = if slot == 0 { &mut first } else { &mut second };
        let block = sender.replica.send().unwrap();
        for host in [&mut first, &mut second].into_iter().chain(&mut twins) {
            host.replica.take(&block).unwrap();
        }
    }
    for (host, twin) in [&mut first, &mut second].into_iter().zip(&mut twins) {
        let block = twin.replica.send().unwrap();
        twin.replica.take(&block).unwrap();
        host.receive(twin.line());
    }
    assert_eq!(first.replica.values(), second.replica.values());
    assert!(first.told.is_empty() && second.told.is_empty());
    // The next lines of the others: within the round that follows slot 2.
    let (of_first, of_second) = (first.line(), second.line());
    first.receive(of_second);
    second.receive(of_first);
    assert_eq!((first.told, second.told), (vec![3], vec![3]));
}

/// Another group of the same size, or another start: told before anything is committed.
#[test]
fn another_group() {
    let room = Room::new("group");
    let host = open(&room, "0", "grot", 2, 0, 0);
    for (file, group, start) in [("1", "antiqua", 0), ("2", "grot", 1)] {
        let other = open(&room, file, group, 2, 1, start);
        assert_eq!(host.agrees(&other.digest()), Some(false), "{group}");
    }
    let other = open(&room, "3", "grot", 2, 1, 0);
    assert_eq!(host.agrees(&other.digest()), Some(true));
    let other = open(&room, "4", "grot", 3, 1, 0);
    assert_eq!(host.agrees(&other.digest()), Some(false));
    assert!(Replica::new(2, 1, &[0; ITEMS]).is_ok());
}
