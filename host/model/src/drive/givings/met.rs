//! What givings met.

use super::{aborted, Due};
use crate::giving::Given;
use crate::refusal::{NOBODY_UP, NOT_IN_WINDOW};
use crate::trace::Call;

/// What the givings of a run met, and what was wrong with them.
#[derive(Clone, Debug, Default)]
pub struct Givings {
    /// Those that gave something, and went through.
    pub given: u64,
    /// Those that gave nothing: the returner was level or ahead.
    pub nothing: u64,
    /// Those refused by 30.
    pub nobody_up: u64,
    /// Those refused by 31.
    pub lacking: u64,
    /// Of these, those where the window lacked no block that would have been delivered.
    pub lacking_spared: u64,
    /// Those that a refused deliver ended.
    pub ended: u64,
    /// Those of which document 02 promises where they lead.
    pub promised: u64,
    /// Those that were cut off in the middle.
    pub cut: u64,
    /// The blocks delivered by all of them.
    pub delivered: u64,
    /// The slots whose block was in place, and of these the half applied ones.
    pub in_place: u64,
    /// The slots that were half applied.
    pub half_applied: u64,
    /// The out slots passed.
    pub out: u64,
    /// The most slots that one gave.
    pub longest: u32,
    /// Those whose works aborted tickets in another order than a rising one.
    pub unordered: u64,
    /// Those whose giver had committed some of the writesets at its turn already.
    pub giver_half_done: u64,
    pub(super) broken: Vec<String>,
    pub(super) unkept: Vec<String>,
}

impl Givings {
    /// Those that were not the calls that they are by the sheet, answered otherwise, or did not lead where
    /// document 02 promises it, in words.
    pub fn broken(&self) -> &[String] {
        &self.broken
    }

    /// Of these, those that broke the promise.
    pub fn unkept(&self) -> &[String] {
        &self.unkept
    }

    /// Adds what another run met.
    pub fn add(&mut self, other: &Givings) {
        self.given += other.given;
        self.nothing += other.nothing;
        self.nobody_up += other.nobody_up;
        self.lacking += other.lacking;
        self.lacking_spared += other.lacking_spared;
        self.ended += other.ended;
        self.promised += other.promised;
        self.cut += other.cut;
        self.delivered += other.delivered;
        self.in_place += other.in_place;
        self.half_applied += other.half_applied;
        self.out += other.out;
        self.longest = self.longest.max(other.longest);
        self.unordered += other.unordered;
        self.giver_half_done += other.giver_half_done;
        self.broken.extend_from_slice(&other.broken);
        self.unkept.extend_from_slice(&other.unkept);
    }

    /// Counts a giving, and what it was to be.
    pub(super) fn count(&mut self, given: &Given, due: &Due) {
        *match given.number {
            0 if due.slots == 0 => &mut self.nothing,
            0 => &mut self.given,
            NOBODY_UP => &mut self.nobody_up,
            NOT_IN_WINDOW => &mut self.lacking,
            _ => &mut self.ended,
        } += 1;
        let delivers = given.calls.iter().filter(|(call, _)| *call != Call::Work);
        self.delivered += delivers.count() as u64;
        self.unordered += u64::from(!aborted(given).is_sorted());
        self.in_place += due.in_place;
        self.half_applied += u64::from(due.half_applied);
        self.out += due.out;
        self.longest = self.longest.max(due.slots);
    }
}
