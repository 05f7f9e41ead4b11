//! Document 02, Req 08: own writesets whose transaction is not open as sent. No list of calls leads to one; on
//! a memory altered so library and model commit it and end nobody.

use model::block::{self, BLOCK};
use model::drive::{start_values, Peers, Style, Subject};
use model::replica::{self as second, Stage};
use model::samples::{self, block_of, Random, Writes};
use model::trace::{Answer, Call};
use stemline::ffi::Txn;
use stemline::Memory;

use crate::both::{same, Both};
use crate::ends::with_own_block;
use crate::seeds::Seeds;

const RUNS: u64 = 60;
const CALLS: usize = 2_000;

/// Alters what both hold in the same way.
fn alter(
    both: &mut Both,
    library: impl FnOnce(&mut Memory),
    model: impl FnOnce(&mut second::Replica),
) {
    let mut memory = both.library.memory().clone();
    library(&mut memory);
    model(&mut both.model);
    both.put(memory);
    same(&both.model, both.library.memory());
}

/// The transaction of a ticket is gone, or at another stage.
fn put_at(both: &mut Both, ticket: u32, stage: Option<Stage>) {
    let at = both.model.open.iter().position(|t| t.ticket == ticket);
    let at = at.expect("it is open");
    alter(
        both,
        |memory| {
            let mut rows = memory.table.iter_mut();
            let row = rows.find(|row| row.ticket == ticket).expect("it is open");
            match stage {
                None => *row = Txn::default(),
                Some(stage) => row.stage = stage as u32,
            }
        },
        |model| match stage {
            None => drop(model.open.remove(at)),
            Some(stage) => model.open[at].stage = stage,
        },
    );
}

/// A block waits at the turn that nobody delivered.
fn put_block(both: &mut Both, bytes: &[u8; BLOCK]) {
    let place = both.model.turn as usize % both.model.inbox.len();
    alter(
        both,
        |memory| memory.places[BLOCK * place..][..BLOCK].copy_from_slice(bytes),
        |model| model.inbox[place] = block::decode(bytes).ok(),
    );
}

/// Of the writeset that the next work commits, if it is an own one: whose stage is that of its ticket, if
/// that is open.
fn own_writeset(model: &second::Replica) -> Option<Option<Stage>> {
    let place = model.turn as usize % model.inbox.len();
    let message = model.inbox[place].as_ref()?;
    let record = message.records.get(model.done)?;
    let open = model.open.iter().find(|t| t.ticket == record.ticket);
    (model.own == Some(message.sender)).then(|| open.map(|t| t.stage))
}

/// A work that commits an own writeset and ends nobody: no row and no ending changes, and no mark goes on.
fn ends_nobody(both: &mut Both) -> second::Work {
    let before = both.library.memory().clone();
    let Ok(Answer::Work(work)) = both.call(&Call::Work) else {
        panic!("the work is refused");
    };
    let after = both.library.memory();
    assert_eq!(
        (work.sender, &work.aborted[..]),
        (before.group.own, &[][..])
    );
    assert_eq!(after.table, before.table);
    assert_eq!(after.queue, before.queue);
    let endings = |memory: &Memory| {
        let counts = &memory.counts;
        (
            counts.committed,
            counts.read_only,
            counts.aborted,
            counts.withdrawn,
        )
    };
    assert_eq!(endings(after), endings(&before));
    assert_eq!(after.counts.commits, before.counts.commits + 1);
    let applying = if work.moved { 0 } else { before.turn.applying };
    assert_eq!(after.turn.applying, applying);
    work
}

/// An own block of six writesets is back, but a transaction of it is gone, or at another stage: for each
/// writeset of the block. The others end as committed.
#[test]
fn not_open_as_sent() {
    for done in 0..6 {
        for stage in [None, Some(Stage::Active), Some(Stage::Asked)] {
            let mut both = with_own_block();
            for _ in 0..done {
                assert!(both.call(&Call::Work).is_ok());
            }
            put_at(&mut both, done + 1, stage);
            let work = ends_nobody(&mut both);
            assert_eq!((work.ticket, work.moved), (done + 1, done == 5));
            let values = both.library.values();
            assert_eq!(values[2 * work.ticket as usize], 7);
            for ticket in done + 2..=6 {
                assert_eq!(own_writeset(&both.model), Some(Some(Stage::Sent)));
                let Ok(Answer::Work(work)) = both.call(&Call::Work) else {
                    panic!("the work is refused");
                };
                assert_eq!(work.ticket, ticket);
            }
            assert_eq!(both.call(&Call::Work), Err(21));
            let report = both.report();
            let open = u32::from(stage.is_some());
            assert_eq!((report.committed, report.open), (5, open));
            assert_eq!((report.turn, report.commits), (1, 6));
        }
    }
}

/// An own block that was never sent, with the tickets and items of open transactions: they stay open with
/// what they wrote, and no write between its writesets waits.
#[test]
fn never_sent() {
    let mut both = Both::new(2, 0, &start_values());
    for (ticket, item) in [(1, 5), (2, 6)] {
        both.call(&Call::Begin).unwrap();
        let value = 1;
        let write = Call::Write {
            ticket,
            item,
            value,
        };
        both.call(&write).unwrap();
    }
    both.call(&Call::Ask { ticket: 2 }).unwrap();
    let records: [Writes; 3] = [(1, &[(5, 50), (6, 60)]), (2, &[(6, 61)]), (9, &[(7, 70)])];
    put_block(&mut both, &block_of(2, 0, &records));
    for ticket in [1, 2, 9] {
        let work = ends_nobody(&mut both);
        assert_eq!((work.ticket, work.moved), (ticket, ticket == 9));
        let write = Call::Write {
            ticket: 1,
            item: 5,
            value: ticket as i32,
        };
        assert_eq!(both.call(&write), Ok(Answer::Done));
        let read = Call::Read { ticket: 1, item: 5 };
        assert_eq!(both.call(&read), Ok(Answer::Value(ticket as i32)));
    }
    assert_eq!(both.library.values()[5..8], [50, 61, 70]);
    assert_eq!(both.report().open, 2);
}

/// Alters one thing, if there is one to alter: a sent transaction is gone or active again, or a block
/// that was never sent stands at the own turn, mostly with tickets that are open.
fn random_alteration(random: &mut Random, both: &mut Both, items: usize) {
    let model = &both.model;
    let sent: Vec<u32> = model
        .open
        .iter()
        .filter(|t| t.stage == Stage::Sent)
        .map(|t| t.ticket)
        .collect();
    let n = model.inbox.len() as u32;
    let own_turn = model.own.map(u32::from) == Some(model.turn % n);
    if !sent.is_empty() && random.below(3) > 0 {
        let stage = random.pick(&[None, Some(Stage::Active)]);
        put_at(both, random.pick(&sent), stage);
    } else if own_turn && model.inbox[(model.turn % n) as usize].is_none() {
        let mut tickets: Vec<u32> = model.open.iter().map(|t| t.ticket).collect();
        tickets.push(model.tickets + 1 + random.below(9) as u32);
        let first = random.below(tickets.len());
        tickets.rotate_left(first);
        tickets.truncate(1 + random.below(4));
        let entry = |random: &mut Random| {
            let value = samples::value(random);
            [(random.below(items) as u8, value)]
        };
        let records: Vec<(u32, [(u8, i32); 1])> = tickets
            .into_iter()
            .map(|ticket| (ticket, entry(random)))
            .collect();
        let records: Vec<Writes> = records.iter().map(|(t, e)| (*t, &e[..])).collect();
        let block = block_of(n, model.turn, &records);
        put_block(both, &block);
    }
}

/// Random runs of one replica among forged peers, with alterations between the calls: every answer and all
/// memory of the library is that of the model, also long behind such a writeset.
#[test]
fn altered_runs() {
    let mut met = [0; 4];
    let seeds = Seeds::new(RUNS);
    seeds.each(|seed| {
        let n = 2 + seed as u32 % 5;
        let own = seed as u32 / 5 % n;
        let style = Style::new(24, 40, 30);
        let mut random = Random::new(seed);
        let mut both = Both::new(n, own, &start_values());
        let mut peers = Peers::new(n, own, both.report());
        for _ in 0..CALLS {
            if random.below(20) == 0 {
                random_alteration(&mut random, &mut both, style.items);
            }
            let call = peers.random_call(&mut random, style);
            let answer = match (&call, own_writeset(&both.model)) {
                (Call::Work, Some(stage)) if stage != Some(Stage::Sent) => {
                    met[stage.map_or(0, |stage| 1 + stage as usize)] += 1;
                    Ok(Answer::Work(ends_nobody(&mut both)))
                }
                (Call::Work, Some(_)) => {
                    met[3] += 1;
                    both.call(&call)
                }
                _ => both.call(&call),
            };
            peers.feed(&call, &answer);
        }
    });
    // Gone, active, asked; and those that are open as sent.
    let enough = met.iter().all(|&met| met > 100);
    assert!(seeds.runs < RUNS || enough, "{met:?}");
}
