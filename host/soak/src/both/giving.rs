//! Givings at a pair.

use model::block::BLOCK;
use model::drive::Gives;
use model::giving::{self, Given, Returner};
use model::journal;
use model::refusal::{NOBODY_UP, NOT_IN_WINDOW, STATION_ONLY_READS, WRONG_LENGTH};
use model::replica as second;
use model::trace::{Answer, Call};
use model::window::Window;
use stemline::{Memory, Refusal, Replica, KEPT, WINDOW};

use super::{play, same, Both};

/// The model's replica at which a giving is done, with what its journal gets, and what of it a cut leaves.
pub struct Journaled<'a> {
    /// The replica.
    pub replica: &'a mut second::Replica,
    /// What is appended.
    pub disk: &'a mut Vec<u8>,
    /// What of it may not be lost.
    pub floor: &'a mut usize,
}

impl Returner for Journaled<'_> {
    fn replica(&self) -> &second::Replica {
        self.replica
    }

    fn call(&mut self, call: &Call) -> Result<Answer, u8> {
        let out = self.replica.is_out(self.replica.turn);
        let answer = self.replica.call_journaled(call, self.disk);
        if journal::fixes(call, &answer, out) {
            *self.floor = self.disk.len();
        }
        answer
    }
}

/// The window of the model as the library is lent it: block by block, as over a line. One with blocks that are not
/// good, or of other slots, is lent as its bytes.
pub fn lent(window: &Window) -> stemline::Window {
    let mut lent = stemline::Window::new();
    let mut bytes = Box::new([0; WINDOW]);
    let mut good = true;
    for (slot, block) in window.slots().zip(window.blocks()) {
        bytes[BLOCK * (slot as usize % KEPT)..][..BLOCK].copy_from_slice(block);
        good &= lent.put(slot, block);
        assert!(!good || lent.block(slot) == Some(block));
    }
    if !good {
        return stemline::Window::from_bytes(&bytes);
    }
    assert_eq!(lent.lacks(window.slots()), None);
    lent
}

/// What a giving of the library answers, as the model's: number, giver and tickets. Behind a number that turns it
/// away the giver is the one that the turns name.
pub fn answered(
    giver: Result<u8, Refusal>,
    given: Result<stemline::Given, Refusal>,
) -> (u8, Option<u8>, Vec<u32>) {
    match given {
        Ok(given) => {
            assert_eq!(giver, Ok(given.giver), "another giver");
            let number = given.ended.map_or(0, Refusal::number);
            (number, Some(given.giver), given.aborted().to_vec())
        }
        Err(refusal) => {
            let known = [STATION_ONLY_READS, WRONG_LENGTH, NOBODY_UP, NOT_IN_WINDOW];
            assert!(known.contains(&refusal.number()), "{refusal}");
            // Whether there is a giver says why there is none.
            let lacks = refusal.number() == NOT_IN_WINDOW;
            assert!(lacks || giver == Err(refusal), "{giver:?}, {refusal:?}");
            (refusal.number(), giver.ok(), Vec::new())
        }
    }
}

impl Gives for Both {
    fn window(&self) -> Window {
        self.model.window.clone()
    }

    fn give(&mut self, turns: &[u32], window: &Window) -> Given {
        let mut calls = self.library.clone();
        let lent = lent(window);
        let giver = self.library.giver(turns);
        let answer = answered(giver, self.library.give(turns, &lent));
        let due_disk = &mut self.disk.clone();
        let mut returner = Journaled {
            replica: &mut self.model,
            disk: due_disk,
            floor: &mut self.floor,
        };
        let due = giving::give(&mut returner, turns, window);
        let due_answer = (due.number, due.giver, due.aborted.clone());
        assert_eq!(answer, due_answer, "a giving, told {turns:?}");
        same(&self.model, self.library.memory());
        // The journal lacks the blocks from its length on up to the turn: all from the turn before on, but for an
        // own one that was sent.
        let turn = calls.memory().turn;
        let first = turn.slot + u32::from(turn.sent != 0);
        append_from(first, &mut self.disk, self.library.memory());
        assert!(self.disk == *due_disk, "a giving: what is appended");
        self.same_calls(&mut calls, &due);
        due
    }
}

impl Both {
    /// The calls of a giving, one by one at the library, answer what the model's answer and leave what the giving
    /// has left.
    fn same_calls(&self, library: &mut Replica, given: &Given) {
        let mut appended = Vec::new();
        for (call, due) in &given.calls {
            let answer = play(library, call, &mut appended);
            assert_eq!(answer, *due, "{call:?} of a giving");
        }
        assert!(
            library.memory() == self.library.memory(),
            "a giving leaves another memory than its calls"
        );
        assert!(self.disk.ends_with(&appended), "what its calls append");
    }
}

/// Appends the window's blocks of the slots from the journal's number of blocks on up to the turn.
pub fn append(disk: &mut Vec<u8>, memory: &Memory) {
    append_from((disk.len() / BLOCK) as u32, disk, memory);
}

fn append_from(first: u32, disk: &mut Vec<u8>, memory: &Memory) {
    for slot in first..memory.turn.slot {
        disk.extend(memory.window.block(slot).expect("the window has it"));
    }
}
