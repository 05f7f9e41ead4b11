//! Coming back after a while (document 02, Req 11 and 12): who gives a replica what it missed, and the giving.

use std::cmp::Reverse;

use crate::refusal::{NOBODY_UP, NOT_IN_WINDOW, STATION_ONLY_READS, WRONG_LENGTH};
use crate::replica::Replica;
use crate::trace::{Answer, Call};
use crate::window::Window;

/// What is told of a replica that is down, in the place of its turn.
pub const DOWN: u32 = u32::MAX;

/// The number of the replica that gives to the one with number `own`, by the turns told, one for each
/// replica: of the others that are up that with the highest turn, and of several the first behind `own`,
/// counting upward and round.
pub fn giver(own: u8, turns: &[u32]) -> Option<u8> {
    let others = (0..).zip(turns).filter(|&(k, _)| k != own);
    let up = others.filter(|&(_, &turn)| turn != DOWN);
    let behind = |k: u8| (i64::from(k) - i64::from(own) - 1).rem_euclid(turns.len() as i64);
    up.min_by_key(|&(k, turn)| (Reverse(turn), behind(k)))
        .map(|(k, _)| k)
}

/// What a giving answers, and the calls that it was.
#[derive(Clone, Debug, Default, PartialEq, Eq)]
pub struct Given {
    /// 0 where all went through; else what refused it, or the call that ended it.
    pub number: u8,
    /// The giver, where there was one to choose.
    pub giver: Option<u8>,
    /// The own transactions aborted by its works, rising.
    pub aborted: Vec<u32>,
    /// Its delivers and works with their answers: in the list of calls each stands by itself.
    pub calls: Vec<(Call, Result<Answer, u8>)>,
}

/// Where a giving is done: at a replica, or at what has one and takes its calls.
pub trait Returner {
    /// The replica as it is.
    fn replica(&self) -> &Replica;
    /// A deliver or a work there.
    fn call(&mut self, call: &Call) -> Result<Answer, u8>;
}

impl Returner for Replica {
    fn replica(&self) -> &Replica {
        self
    }
    fn call(&mut self, call: &Call) -> Result<Answer, u8> {
        Replica::call(self, call)
    }
}

impl Replica {
    /// Who would give to it, told these turns. Refused by 25, 1, 30.
    pub fn giver(&self, turns: &[u32]) -> Result<u8, u8> {
        let own = self.own.ok_or(STATION_ONLY_READS)?;
        if turns.len() != self.inbox.len() {
            return Err(WRONG_LENGTH);
        }
        giver(own, turns).ok_or(NOBODY_UP)
    }

    /// Whether the turn's slot needs a block: it is not out, and none is in place.
    fn needs_block(&self) -> bool {
        !self.is_out(self.turn) && self.inbox[self.owner(self.turn)].is_none()
    }
}

/// A giving at a replica, told these turns and lent the window of the giver that they name: its blocks
/// from the turn here up to the giver's are delivered, unless in place already, and worked off, slot by
/// slot; out slots are only worked. Refused by 25, 1, 30, 31; then nothing is changed. What refuses a
/// deliver ends it, and what went before stands.
pub fn give(at: &mut impl Returner, turns: &[u32], window: &Window) -> Given {
    let mut given = Given::default();
    match at.replica().giver(turns) {
        Ok(giver) => given.giver = Some(giver),
        Err(number) => given.number = number,
    }
    let Some(giver) = given.giver else {
        return given;
    };
    let (from, to) = (at.replica().turn, turns[usize::from(giver)]);
    if !window.has(from..to) {
        given.number = NOT_IN_WINDOW;
        return given;
    }
    for slot in from..to {
        if let Err(number) = take_slot(at, slot, window, &mut given) {
            given.number = number;
            break;
        }
    }
    given.aborted.sort_unstable();
    given
}

/// Takes the turn over one slot.
fn take_slot(
    at: &mut impl Returner,
    slot: u32,
    window: &Window,
    given: &mut Given,
) -> Result<(), u8> {
    let mut call = |at: &mut _, call: Call| {
        let answer = Returner::call(at, &call);
        given.calls.push((call, answer.clone()));
        answer
    };
    if at.replica().needs_block() {
        let bytes = window.block(slot).map_or(Vec::new(), |b| b.to_vec());
        call(at, Call::Deliver { bytes })?;
    }
    while at.replica().turn == slot {
        if let Answer::Work(work) = call(at, Call::Work)? {
            given.aborted.extend(work.aborted);
        }
    }
    Ok(())
}
