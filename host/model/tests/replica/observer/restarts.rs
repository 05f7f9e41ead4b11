//! Restarts on the sheet, and what a restart may be lent.

use model::block::BLOCK;
use model::replica::Restarted;
use model::trace::Restart;

use super::*;

impl Script {
    /// A restart from a journal that gives a block back, or none; its replica then has so many blocks
    /// and writesets, and these values.
    pub fn restart(
        &mut self,
        k: usize,
        journal: &[[u8; BLOCK]],
        back: Option<[u8; BLOCK]>,
        commits: u32,
        values: &[(usize, i32)],
    ) {
        let answer = Ok(Restarted {
            count: journal.len() as u32,
            block: Box::new(back.unwrap_or([0; BLOCK])),
        });
        let restart = Restart {
            n: self.n,
            notices: self.observer.notices(k).to_vec(),
            ..lent(k, journal.concat())
        };
        self.observer.feed_restart(k, &restart, &answer);
        self.reports[k].turn = journal.len() as u32;
        self.reports[k].commits = commits;
        self.values[k] = start_values();
        for &(item, value) in values {
            self.values[k][item] = value;
        }
    }

    pub fn deliver(&mut self, k: usize, block: [u8; BLOCK]) {
        let bytes = block.to_vec();
        let call = Call::Deliver { bytes };
        self.observer.feed(k, &call, &Ok(Answer::Done));
    }
}

/// What a restart of replica k of 2 is lent.
pub fn lent(k: usize, journal: Vec<u8>) -> Restart {
    Restart {
        n: 2,
        own: k as u32,
        values: start_values().to_vec(),
        journal,
        notices: Vec::new(),
    }
}

/// The block of slot 0 that [`sent`] sends.
fn first() -> [u8; BLOCK] {
    block_of(2, 0, &[(1, &[(5, 40)])])
}

#[test]
fn a_block_sent_and_given_back() {
    let mut script = sent();
    script.restart(0, &[first()], Some(first()), 1, &[(5, 40)]);
    script.broken(&[]);
    assert!(script.observer.premise());
    // The tickets go on, and so does the line, which is empty.
    script.begin(0, 2, &[(6, 1)]);
    script.read(0, 2, 5, 40);
    script.work(1, 0, 1, &[], &[(5, 40)]);
    script.broken(&[]);
}

/// A send that the cut ended: the block is put down by the restart, with the line as it is.
#[test]
fn a_block_put_down_by_the_restart() {
    let mut script = Script::new();
    script.begin(0, 1, &[(5, 40)]);
    script.ask(0, 1);
    script.restart(0, &[first()], Some(first()), 1, &[(5, 40)]);
    script.broken(&[]);
    assert!(script.observer.premise());
    // It counts as handed out.
    script.deliver(1, first());
    script.work(1, 0, 1, &[], &[(5, 40)]);
    script.broken(&[]);
    assert!(script.observer.premise());
}

#[test]
fn a_block_put_down_that_nobody_asked_for() {
    let mut script = Script::new();
    script.begin(0, 1, &[(5, 40)]);
    script.restart(0, &[first()], Some(first()), 1, &[(5, 40)]);
    script.broken(&[
        "slot 0 does not hold what was asked",
        "its commit 1 is ticket 1 of replica 0",
        "item 5 is 40, after 1 writesets",
    ]);
    assert!(!script.observer.premise());
}

/// The line is emptied: what was asked before the cut is not due in the next block.
#[test]
fn asked_before_the_cut() {
    let mut script = Script::new();
    script.begin(0, 1, &[(5, 40)]);
    script.ask(0, 1);
    script.restart(0, &[], None, 0, &[]);
    // The ticket is given again.
    script.begin(0, 1, &[(6, 1)]);
    script.send(0, 0, &[]);
    script.broken(&[]);
    assert!(script.observer.premise());
}

/// What a half applied block had committed is forgotten.
#[test]
fn commits_can_get_fewer() {
    let mut script = Script::new();
    for (ticket, item) in [(1, 5), (2, 6)] {
        script.begin(0, ticket, &[(item, 40)]);
        script.ask(0, ticket);
    }
    let two = block_of(2, 0, &[(1, &[(5, 40)]), (2, &[(6, 40)])]);
    script.send(0, 0, &[(1, &[(5, 40)]), (2, &[(6, 40)])]);
    script.deliver(1, two);
    script.work(1, 0, 1, &[], &[(5, 40)]);
    script.reports[1].turn = 0;
    script.broken(&[]);
    script.restart(1, &[], None, 0, &[]);
    script.broken(&[]);
    assert!(script.observer.premise());
}

#[test]
fn commits_of_the_lent_journal() {
    // A commit lost: the journal has the block.
    let mut script = sent();
    script.restart(0, &[first()], Some(first()), 0, &[]);
    script.broken(&["reports 0 commits, its works named 1"]);
    // Values lost.
    let mut script = sent();
    script.restart(0, &[first()], Some(first()), 1, &[]);
    script.broken(&["item 5 is -550, after 1 writesets"]);
    // Blocks past the one at which a restart stops are none of the journal's.
    let mut script = sent();
    let journal = [first(), block_of(2, 2, &[(9, &[(1, 1)])])];
    script.restart(0, &journal, Some(first()), 1, &[(5, 40)]);
    script.broken(&[]);
    assert!(!script.observer.premise());
}

#[test]
fn another_block_given_back() {
    let mut script = sent();
    let other = block_of(2, 0, &[(1, &[(5, 41)])]);
    script.restart(0, &[first()], Some(other), 1, &[(5, 40)]);
    script.broken(&["slot 0 that was given back does not hold what was sent"]);
    // None, where the cut ended a send: others have nothing put down that this replica committed.
    let mut script = Script::new();
    script.begin(0, 1, &[(5, 40)]);
    script.ask(0, 1);
    script.restart(0, &[first()], None, 1, &[(5, 40)]);
    script.broken(&[
        "its commit 1 is ticket 1 of replica 0, the sequence has None",
        "item 5 is 40, after 1 writesets of the sequence it is -550",
    ]);
}

#[test]
fn a_slot_sent_again_after_a_cut() {
    let mut script = sent();
    script.restart(0, &[], None, 0, &[]);
    script.send(0, 0, &[]);
    script.broken(&["slot 0 was sent twice"]);
    assert!(!script.observer.premise());
}

#[test]
fn a_ticket_given_again_after_it_was_sent() {
    let mut script = sent();
    script.restart(0, &[first()], Some(first()), 1, &[(5, 40)]);
    script.begin(0, 1, &[(6, 1)]);
    script.write(0, 1, 9, 0, Err(9));
    script.broken(&["a write under ticket 1, which was sent, gave 9"]);
}

/// A refused restart changes nothing, whatever it is lent.
#[test]
fn a_refused_restart() {
    let mut script = Script::new();
    script.begin(0, 1, &[(5, 40)]);
    script.ask(0, 1);
    let restart = Restart {
        n: 7,
        ..lent(0, vec![1; 5])
    };
    script.observer.feed_restart(0, &restart, &Err(2));
    script.send(0, 0, &[(1, &[(5, 40)])]);
    script.broken(&[]);
    assert!(script.observer.premise());
}

/// Whether a restart at replica k after some calls is within the premise.
fn premise(script: impl Fn() -> Script, k: usize, restart: Restart) -> bool {
    let mut script = script();
    assert!(script.observer.premise());
    let whole = model::journal::blocks(restart.n, &restart.journal);
    let own = whole.filter(|block| usize::from(block[1]) == k).last();
    let answer = Ok(Restarted {
        count: 0,
        block: Box::new(own.copied().unwrap_or([0; BLOCK])),
    });
    script.observer.feed_restart(k, &restart, &answer);
    script.observer.premise()
}

/// Lengths of a journal that a cut may leave.
fn lengths(script: impl Fn() -> Script, k: usize, journal: &[[u8; BLOCK]]) -> Vec<usize> {
    let journal = journal.concat();
    let part = |&length: &usize| premise(&script, k, lent(k, journal[..length].to_vec()));
    (0..=journal.len()).filter(part).collect()
}

#[test]
fn what_a_cut_leaves() {
    let next = block_of(2, 1, &[]);
    // Nothing handed out yet, and a send that the cut ends.
    let pending = block_of(2, 0, &[]);
    let all: Vec<usize> = (0..=BLOCK).collect();
    assert_eq!(lengths(Script::new, 0, &[pending, next]), all);
    assert_eq!(lengths(Script::new, 0, &[first()]), [0]);
    // At the other one nothing can be appended: nothing waits there, and it isn't its turn.
    assert_eq!(lengths(Script::new, 1, &[pending]), [0]);

    // The own block is handed out. A block that waits behind it is not next.
    assert_eq!(lengths(sent, 0, &[first(), next]), [BLOCK]);
    let ahead = || {
        let mut script = sent();
        script.send(1, 1, &[]);
        script.deliver(0, next);
        script
    };
    assert_eq!(lengths(ahead, 0, &[first(), next]), [BLOCK]);
    let back = || {
        let mut script = ahead();
        script.deliver(0, first());
        script.work(0, 0, 1, &[], &[]);
        script
    };
    let from_first: Vec<usize> = (BLOCK..=2 * BLOCK).collect();
    assert_eq!(lengths(back, 0, &[first(), next]), from_first);
    // At the other one it waits, and a work would append it; or is appended.
    let waits = || {
        let mut script = sent();
        script.deliver(1, first());
        script
    };
    assert_eq!(lengths(waits, 1, &[first(), next]), all);
    let worked = || {
        let mut script = waits();
        script.work(1, 0, 1, &[], &[]);
        script
    };
    let two: Vec<usize> = (0..=2 * BLOCK).collect();
    assert_eq!(lengths(worked, 1, &[first(), next, pending]), two);
    // And it has sent.
    let both = || {
        let mut script = worked();
        script.send(1, 1, &[]);
        script
    };
    assert_eq!(lengths(both, 1, &[first(), next, pending]), [2 * BLOCK]);
}

/// A block of two writesets of which none is committed: a work would not leave its slot.
#[test]
fn one_call_at_most() {
    let two = block_of(2, 0, &[(1, &[(5, 40)]), (2, &[(6, 40)])]);
    let mut script = Script::new();
    for (ticket, item) in [(1, 5), (2, 6)] {
        script.begin(0, ticket, &[(item, 40)]);
        script.ask(0, ticket);
    }
    script.send(0, 0, &[(1, &[(5, 40)]), (2, &[(6, 40)])]);
    script.deliver(1, two);
    let restarted = |script: &mut Script, length: usize| {
        let restart = lent(1, two[..length].to_vec());
        let answer = Ok(Restarted {
            count: 0,
            block: Box::new([0; BLOCK]),
        });
        script.observer.feed_restart(1, &restart, &answer);
        script.observer.premise()
    };
    assert!(restarted(&mut script, 0));
    script.deliver(1, two);
    let work = Work {
        sender: 0,
        ticket: 1,
        moved: false,
        aborted: Vec::new(),
    };
    let work = Ok(Answer::Work(work));
    script.observer.feed(1, &Call::Work, &work);
    assert!(restarted(&mut script, 1));
    script.deliver(1, two);
    assert!(!restarted(&mut script, 1));
}

#[test]
fn lent_what_the_make_was() {
    let right = || lent(0, first().to_vec());
    assert!(premise(sent, 0, right()));
    let mut other = right();
    other.n = 3;
    assert!(!premise(sent, 0, other));
    let mut other = right();
    other.own = 1;
    assert!(!premise(sent, 0, other));
    let mut other = right();
    other.values[127] += 1;
    assert!(!premise(sent, 0, other));
}
