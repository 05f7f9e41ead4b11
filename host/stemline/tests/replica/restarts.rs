//! Restarts: groups whose members lose power, and journals of every kind, beside the model.

use model::block::{self, Message, BLOCK};
use model::drive::{start_values, Group, Peers, Powered, Seen, Style, Subject, STYLES};
use model::notice::{Kind, Notice};
use model::samples::{self, block_of, break_form, damage, Random};
use model::trace::Restart;
use soak::runs;
use stemline::Replica;

use crate::both::{told, Both};
use crate::lent::{refused, Lent};
use crate::seeds::Seeds;

const RUNS: u64 = 200;

#[test]
fn groups_that_lose_power() {
    let mut seen = Seen::default();
    let seeds = Seeds::new(RUNS);
    seeds.each(|seed| seen.add(&runs::run_with_cuts(seed)));
    if seeds.runs >= RUNS {
        assert!(seen.restarts > 5_000, "{seen:?}");
        assert!(seen.sent_by_restart > 50, "{seen:?}");
        assert!(seen.commits > 6_000 && seen.aborted > 400, "{seen:?}");
        assert!(seen.notices > 5_000 && seen.passed_out > 8_000, "{seen:?}");
    }
}

/// What a group of `n` has appended at one of its members.
fn good(random: &mut Random, n: u32, style: Style) -> Vec<u8> {
    let members = (0..n).map(|own| Both::new(n, own, &start_values()));
    let mut group = Group::new(members.collect(), style);
    for _ in 0..random.pick(&[50, 300]) {
        group.random_call(random);
    }
    group.settle(1);
    group.members[0].disk().to_vec()
}

/// Blocks of any messages, in slot order: tickets that no replica gives.
fn forged(random: &mut Random, n: u32) -> Vec<u8> {
    let slots = 0..random.below(12) as u32;
    let blocks = slots.flat_map(|slot| {
        block::encode(&Message {
            sender: (slot % n) as u8,
            replicas: n as u8,
            slot,
            ..samples::message(random)
        })
    });
    blocks.collect()
}

/// One block altered, or moved to where it does not belong.
fn damaged(random: &mut Random, n: u32, journal: &mut [u8]) {
    let (blocks, _) = journal.as_chunks_mut::<BLOCK>();
    if blocks.is_empty() {
        return;
    }
    let [at, other] = [0, 1].map(|_| random.below(blocks.len()));
    match random.below(7) {
        0 => damage(random, &mut blocks[at]),
        1 => break_form(random, &mut blocks[at]),
        2 => blocks.swap(at, other),
        3 => blocks[at] = blocks[other],
        4 => blocks[at] = [0; BLOCK],
        5 => blocks[at] = block_of(2 + random.below(5) as u32, at as u32, &[]),
        // A good block of the slot that nobody has sent; what is behind it counts all the same.
        _ => blocks[at] = block_of(n, at as u32, &[(7, &[(3, -3)])]),
    }
}

/// A journal as the group left it, cut, damaged, forged or of any bytes.
pub fn journal(random: &mut Random, n: u32, style: Style) -> Vec<u8> {
    let mut journal = match random.below(4) {
        0 | 1 => good(random, n, style),
        2 => forged(random, n),
        _ => {
            let mut bytes = vec![0; random.below(3_000)];
            random.fill(&mut bytes);
            bytes
        }
    };
    for _ in 0..random.pick(&[0, 0, 1, 1, 3]) {
        damaged(random, n, &mut journal);
    }
    if random.below(3) == 0 {
        journal.truncate(random.below(journal.len() + 1));
    }
    journal
}

/// An outage of some replicas, over or not, wherever the journal ends: with one for each, what is out by all
/// notices is out by the last.
fn notices(random: &mut Random, n: u32) -> Vec<Notice> {
    let mut notices = Vec::new();
    for k in 0..n {
        let from = random.below(24) as u32;
        if random.below(3) == 0 {
            notices.push(Notice::out(k, from));
            let back = Notice::back(k, from + 1 + random.below(12) as u32);
            notices.extend(random.pick(&[None, Some(back)]));
        }
    }
    notices
}

/// The three numbers of a notice.
fn numbers(notice: &Notice) -> [u32; 3] {
    let out = u32::from(notice.kind == Kind::Out);
    [notice.about, out, notice.slot]
}

/// The same restart over parts that hold any content: it leaves and gives the same.
fn over_used_parts(random: &mut Random, restart: &Restart, both: &Both) {
    let mut used = Lent::of(both.library.memory());
    random.fill(&mut used.items);
    random.fill(&mut used.classes);
    random.fill(&mut used.places);
    random.fill(&mut used.outbox);
    random.fill(&mut used.block);
    used.table[random.below(6)].ticket = 7;
    (used.turn.slot, used.turn.sent, used.turn.applying) = (9, 255, 3);
    (used.counts.withdrawn, used.counts.done) = (5, 4);
    let mut used = Lent {
        n: restart.n,
        own: restart.own,
        start: restart.values.clone(),
        journal: restart.journal.clone(),
        notices: restart.notices.iter().flat_map(numbers).collect(),
        ..used
    };
    let answer = used.call("restart");
    let values = &start_values();
    let notices: Vec<_> = restart.notices.iter().map(told).collect();
    let given = Replica::restart(restart.n, restart.own, values, &restart.journal, &notices);
    let (fresh, restarted) = given.unwrap();
    let due = format!("RestartReply {{ number: 0, count: {} }}", restarted.blocks);
    assert_eq!(answer, (0, due));
    assert!(used.memory() == *fresh.memory(), "what was there is left");
    assert!(used.block == restarted.last.unwrap_or([0; BLOCK]));
}

/// Any journal: library and model take up the same, and go on alike.
#[test]
fn any_journal() {
    // How many gave no block back, one, stopped before the journal's end, and went on at a slot that is out.
    let mut met = [0u32; 4];
    let seeds = Seeds::new(600);
    seeds.each(|seed| {
        let mut random = Random::new(seed);
        let n = 2 + seed as u32 % 5;
        let style = STYLES[seed as usize / 5 % 4];
        let restart = Restart {
            n,
            own: random.below(n as usize) as u32,
            values: start_values().to_vec(),
            journal: journal(&mut random, n, style),
            notices: notices(&mut random, n),
        };
        let mut both = Both::new(n, 0, &start_values());
        let restarted = both.restart(&restart).unwrap();
        over_used_parts(&mut random, &restart, &both);
        met[usize::from(restarted.gave_back())] += 1;
        let whole = restart.journal.len() == BLOCK * restarted.count as usize;
        met[2] += u32::from(!whole);
        met[3] += u32::from(both.model.out_next().is_some());
        let mut peers = Peers::new(n, restart.own, both.report());
        for _ in 0..200 {
            let call = peers.random_call(&mut random, style);
            let answer = both.call(&call);
            peers.feed(&call, &answer);
        }
    });
    let enough = met[..3].iter().all(|&count| count >= 100) && met[3] >= 15;
    assert!(seeds.runs < 600 || enough, "{met:?}");
}

/// A journal cut at each of its bytes: what is torn counts for nothing.
#[test]
fn every_length() {
    let mut random = Random::new(3);
    let mut journal = forged(&mut random, 3);
    journal.extend(good(&mut random, 3, STYLES[2]));
    journal.truncate(6 * BLOCK + 3);
    for own in 0..3 {
        for length in 0..=journal.len() {
            let restart = Restart {
                n: 3,
                own,
                values: start_values().to_vec(),
                journal: journal[..length].to_vec(),
                notices: Vec::new(),
            };
            let mut both = Both::new(3, 0, &start_values());
            let count = both.restart(&restart).unwrap().count as usize;
            assert!(count <= length / BLOCK);
        }
    }
}

/// Every N and own number, in range or not, on a memory in use: a refused restart keeps everything,
/// the lent block too.
#[test]
fn refused_restarts() {
    let mut replica = Replica::new(2, 0, &start_values()).unwrap();
    replica.begin().unwrap();
    let own = replica.send().unwrap();
    replica.deliver(&own).unwrap();
    let used = Lent::of(replica.memory());
    for n in (0..10).chain([256, 258, 1 << 31, u32::MAX]) {
        for own_number in (0..10).chain([256, 1 << 31, u32::MAX]) {
            let before = Lent {
                n,
                own: own_number,
                journal: own.to_vec(),
                ..used.clone()
            };
            let mut after = before.clone();
            let answer = after.call("restart");
            let crate_says = Replica::restart(n, own_number, &start_values(), &own, &[]);
            if (2..=6).contains(&n) && own_number < n {
                assert!(crate_says.is_ok());
            } else {
                assert_eq!(crate_says.err().map(|refusal| refusal.number()), Some(2));
            }
            // The places are for two; 1 stands before 2.
            let due = match n {
                2 if own_number < 2 => continue,
                3..=6 => 1,
                _ => 2,
            };
            assert_eq!(answer, refused("restart", due), "{n}, {own_number}");
            assert!(after == before, "{n}, {own_number}");
        }
    }
}

/// One ticket in two own blocks, which no cut leads to: no ticket counts as aborted.
#[test]
fn more_own_writesets_than_tickets() {
    let blocks = [
        block_of(2, 0, &[(1, &[(1, 1)]), (2, &[(2, 2)])]),
        block_of(2, 1, &[(9, &[(1, 7)])]),
        block_of(2, 2, &[(2, &[(3, 3)]), (1, &[(4, 4)])]),
    ];
    let mut both = Both::new(2, 0, &start_values());
    let restart = Restart {
        n: 2,
        own: 0,
        values: start_values().to_vec(),
        journal: blocks.concat(),
        notices: Vec::new(),
    };
    let restarted = both.restart(&restart).unwrap();
    assert_eq!((restarted.count, *restarted.block), (3, blocks[2]));
    let report = both.report();
    let numbers = (report.tickets, report.committed, report.aborted);
    assert_eq!(numbers, (2, 4, 0));
}
