//! What became of each ticket: random groups over files, with cuts of the power. What is said is what the
//! reports count and what the journals have.

use std::collections::HashMap;
use std::fs;

use model::drive::start_values;
use model::samples::Random;
use stemline::{Block, Blocks, Durable, Outcome, Reopened, Report, BLOCK, HEAD};

use crate::files::Room;
use crate::seeds::Seeds;

const N: usize = 3;

/// A group over files, with the last block of each.
struct Studios {
    room: Room,
    members: Vec<Durable>,
    /// The highest ticket of each when it was last opened.
    before: [u32; N],
}

impl Studios {
    fn new(name: &str) -> Studios {
        let mut studios = Studios {
            room: Room::new(name),
            members: Vec::new(),
            before: [0; N],
        };
        for k in 0..N {
            let (member, _) = studios.open(k);
            studios.members.push(member);
        }
        studios
    }

    fn open(&self, k: usize) -> (Durable, Reopened) {
        let path = self.room.0.join(format!("{k}"));
        Durable::open(path, "studios", N as u32, k as u32, &start_values()).unwrap()
    }

    /// The writesets in the journal of a member: sender and ticket, in their order.
    fn sequence(&self, k: usize) -> Vec<(u8, u32)> {
        let file = fs::read(self.room.0.join(format!("{k}"))).unwrap();
        let mut blocks = Blocks::of(&file[HEAD..], N as u32, 0);
        let mut sequence = Vec::new();
        while let Ok(block) = blocks.next_block().unwrap() {
            let sender = block.sender();
            sequence.extend(block.records().map(|record| (sender, record.ticket)));
        }
        sequence
    }

    /// One step of a member.
    fn step(&mut self, random: &mut Random) {
        let k = random.below(N);
        let last: Vec<[u8; BLOCK]> = self
            .members
            .iter()
            .filter_map(|m| m.last().copied())
            .collect();
        let member = &mut self.members[k];
        let tickets = member.report().tickets;
        let ticket = tickets.saturating_sub(random.below(8) as u32);
        match random.below(20) {
            0..4 => drop(member.begin()),
            4..9 => {
                let item = random.below(6) as u32;
                drop(member.write(ticket, item, random.below(100) as i32));
            }
            9..12 => drop(member.ask(ticket)),
            12 => drop(member.withdraw(ticket)),
            13..15 => drop(member.send()),
            _ if last.is_empty() => {}
            15..18 => drop(member.deliver(&random.pick(&last))),
            18 => drop(member.work()),
            _ => drop(member.take(&random.pick(&last))),
        }
    }

    /// A member loses power. What it finds is what its journal has.
    fn cut(&mut self, k: usize) {
        drop(self.members.remove(k));
        let (member, reopened) = self.open(k);
        let own = self
            .sequence(k)
            .into_iter()
            .filter(|&(sender, _)| sender == k as u8);
        let own: Vec<u32> = own.map(|(_, ticket)| ticket).collect();
        assert_eq!(reopened.committed, own);
        assert_eq!(reopened.tickets, own.iter().max().copied().unwrap_or(0));
        assert_eq!(member.last(), reopened.last.as_ref());
        self.before[k] = reopened.tickets;
        self.members.insert(k, member);
    }

    /// That each ticket of a member is what the report and the journal say.
    fn check(&self, k: usize) {
        let member = &self.members[k];
        let report = member.report();
        let places: HashMap<u32, u32> = self
            .sequence(k)
            .into_iter()
            .zip(1..)
            .filter(|((sender, _), _)| *sender == k as u8)
            .map(|((_, ticket), place)| (ticket, place))
            .collect();
        let mut count = Report {
            turn: report.turn,
            commits: report.commits,
            tickets: report.tickets,
            ..Report::default()
        };
        for ticket in 1..=report.tickets {
            let outcome = member.outcome(ticket);
            let place = places.get(&ticket);
            match outcome {
                Outcome::Committed(place) => assert_eq!(places.get(&ticket), Some(&place)),
                Outcome::Sent => assert!(place.is_some()),
                _ => assert_eq!(place, None, "{ticket}: {outcome}"),
            }
            let old = ticket <= self.before[k];
            let known = matches!(outcome, Outcome::Committed(_) | Outcome::Unknown);
            assert!(!old || known, "{ticket}: {outcome}");
            assert_eq!(!old && outcome == Outcome::Unknown, false, "{ticket}");
            match outcome {
                Outcome::Open | Outcome::Asked | Outcome::Sent => count.open_count += 1,
                Outcome::Committed(_) => count.committed += 1,
                Outcome::ReadOnly => count.read_only += 1,
                Outcome::Aborted => count.aborted += 1,
                Outcome::Withdrawn => count.withdrawn += 1,
                Outcome::Unknown => {}
            }
        }
        // A restart counts the tickets that are in no block as aborted, or however it says.
        if self.before[k] == 0 {
            assert_eq!(count, report);
        }
        assert_eq!(member.outcome(0), Outcome::Unknown);
        assert_eq!(member.outcome(report.tickets + 1), Outcome::Unknown);
        let last = member.last().map(|block| Block::read(block).unwrap());
        assert!(last.is_none_or(|block| usize::from(block.sender()) == k));
    }
}

#[test]
fn random_groups() {
    let mut met = HashMap::new();
    let seeds = Seeds::new(30);
    seeds.each(|seed| {
        let mut random = Random::new(seed);
        let mut studios = Studios::new("outcomes");
        for step in 0..1_500 {
            studios.step(&mut random);
            if seed % 2 == 0 && random.below(150) == 0 {
                studios.cut(random.below(N));
            }
            if step % 50 == 0 {
                (0..N).for_each(|k| studios.check(k));
            }
        }
        (0..N).for_each(|k| studios.check(k));
        for member in &studios.members {
            for ticket in 1..=member.report().tickets {
                let outcome = match member.outcome(ticket) {
                    Outcome::Committed(_) => Outcome::Committed(1),
                    outcome => outcome,
                };
                *met.entry(outcome).or_insert(0) += 1;
            }
        }
    });
    assert!(seeds.runs < 30 || met.len() == 8, "{met:?}");
    assert!(
        seeds.runs < 30 || met.values().all(|&count| count > 5),
        "{met:?}"
    );
}

/// Up to a ticket nothing is known any more; the others are as before, and go on.
#[test]
fn forgotten() {
    let mut studios = Studios::new("forgotten");
    let mut random = Random::new(4);
    (0..3_000).for_each(|_| studios.step(&mut random));
    // One half is found by an open.
    studios.cut(0);
    (0..1_500).for_each(|_| studios.step(&mut random));
    let member = &mut studios.members[0];
    let tickets = member.report().tickets;
    let before: Vec<Outcome> = (0..=tickets).map(|ticket| member.outcome(ticket)).collect();
    let found = studios.before[0];
    assert!(found > 20 && tickets > found + 20);
    for up_to in [0, 1, found - 3, found, found + 7, tickets - 4, tickets] {
        member.forget(up_to);
        for ticket in 0..=tickets {
            let due = match ticket <= up_to {
                true => Outcome::Unknown,
                false => before[ticket as usize],
            };
            assert_eq!(member.outcome(ticket), due, "{ticket} behind {up_to}");
        }
    }
    while let Err(refused) = member.begin() {
        assert!(refused.refusal().is_some());
        (0..50).for_each(|_| studios.step(&mut random));
        return;
    }
    assert_eq!(member.outcome(tickets + 1), Outcome::Open);
}
