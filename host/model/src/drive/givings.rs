//! Givings in a group (document 02, Req 11): what each must be by the sheet, and what is promised of it.

mod met;

use std::ops::Range;

use super::{Group, Machine, Powered, Subject};
use crate::block;
use crate::giving::{self, Given, DOWN};
use crate::notice;
use crate::refusal::{NOBODY_UP, NOT_IN_WINDOW};
use crate::replica::{Replica, ITEMS};
use crate::samples::Random;
use crate::trace::{Answer, Call};
use crate::window::Window;

pub use self::met::Givings;

/// A replica under test that has a window, and that can be given what it missed.
pub trait Gives: Subject {
    /// The blocks of the last slots that its turn has left.
    fn window(&self) -> Window;
    /// A giving at it, told these turns and lent the window of the giver that they name.
    fn give(&mut self, turns: &[u32], window: &Window) -> Given;
}

impl Gives for Replica {
    fn window(&self) -> Window {
        self.window.clone()
    }
    fn give(&mut self, turns: &[u32], window: &Window) -> Given {
        giving::give(self, turns, window)
    }
}

impl Gives for Machine {
    fn window(&self) -> Window {
        self.replica.window.clone()
    }
    fn give(&mut self, turns: &[u32], window: &Window) -> Given {
        giving::give(self, turns, window)
    }
}

/// The tickets that the works of a giving aborted, in that order.
fn aborted(given: &Given) -> Vec<u32> {
    let works = given.calls.iter().filter_map(|(_, answer)| match answer {
        Ok(Answer::Work(work)) => Some(&work.aborted),
        _ => None,
    });
    works.flatten().copied().collect()
}

/// A giving by the sheet, if none of its calls is refused.
#[derive(Debug, Default, PartialEq, Eq)]
struct Due {
    calls: Vec<Call>,
    slots: u32,
    out: u64,
    in_place: u64,
    half_applied: bool,
}

impl Due {
    /// What of a giving is not as it is due, in words. A deliver may be refused, and that is the end.
    fn difference(&self, given: &Given) -> Option<String> {
        let made = given.calls.len();
        let calls = given.calls.iter().map(|(call, _)| call);
        let refused = given.calls.iter().filter(|(_, answer)| answer.is_err());
        let ended = match (given.number, refused.count()) {
            (0, refused) => refused == 0 && made == self.calls.len(),
            (number, refused) => {
                let last = given.calls.last();
                let deliver = last.filter(|(call, _)| *call != Call::Work);
                refused == 1 && deliver.is_some_and(|(_, answer)| *answer == Err(number))
            }
        };
        if !ended || !calls.eq(self.calls.iter().take(made)) {
            let (number, due) = (given.number, self.calls.len());
            return Some(format!("{number} after {made} calls, and {due} are due"));
        }
        let mut rising = aborted(given);
        rising.sort_unstable();
        (rising != given.aborted).then(|| format!("tickets {:?}", given.aborted))
    }
}

impl<S: Gives> Group<S> {
    /// A giving at a replica, told these turns. Each of its calls is taken in as one by itself.
    pub fn give(&mut self, k: usize, turns: &[u32]) -> Given {
        let giver = giving::giver(k as u8, turns);
        let due = self.due_giving(k, turns);
        let promise = self.promise(k, turns).filter(|_| due.is_ok());
        let window = match giver {
            Some(giver) => self.members[usize::from(giver)].window(),
            None => Window::empty(0),
        };
        let turn = self.tallies[k].report.turn;
        let spared = due == Err(NOT_IN_WINDOW) && self.lacks_spared(k, turns);
        self.givings.lacking_spared += u64::from(spared);
        let given = self.members[k].give(turns, &window);
        for (call, answer) in &given.calls {
            self.feed(k, call, answer);
        }
        self.reach(k, turn);
        self.givings.promised += u64::from(promise.is_some());
        let told = format!("a giving at replica {k}, told {turns:?}");
        let wrong = match &due {
            _ if given.giver != giver => Some(format!("{:?} gives", given.giver)),
            Err(number) if (given.number, given.calls.len()) != (*number, 0) => {
                Some(format!("{}, and {number} is due", given.number))
            }
            Err(_) => None,
            Ok(due) => due.difference(&given),
        };
        let wrong = wrong.map(|wrong| format!("{told}: {wrong}"));
        self.givings.broken.extend(wrong);
        let unkept = promise.and_then(|promise| self.unkept(k, &given, promise));
        let unkept = unkept.map(|unkept| format!("{told}: {unkept}"));
        self.givings.broken.extend(unkept.clone());
        self.givings.unkept.extend(unkept);
        self.givings.count(&given, &due.unwrap_or_default());
        if let Some((_, values)) = promise.filter(|_| !given.calls.is_empty()) {
            let now = giver.map(|giver| self.members[usize::from(giver)].values());
            self.givings.giver_half_done += u64::from(now != Some(values));
        }
        given
    }

    /// How a giving breaks the promise of a turn and values.
    fn unkept(&self, k: usize, given: &Given, promise: (u32, [i32; ITEMS])) -> Option<String> {
        let (number, turn) = (given.number, self.members[k].report().turn);
        let kept = number == 0 && (turn, self.members[k].values()) == promise;
        (!kept).then(|| format!("{number}, and then other values or turn {turn}"))
    }

    /// A giving by the sheet alone; or what refuses it.
    fn due_giving(&self, k: usize, turns: &[u32]) -> Result<Due, u8> {
        let giver = giving::giver(k as u8, turns).ok_or(NOBODY_UP)?;
        let window = self.observer.window(giver.into());
        let journal = self.observer.journal(k);
        let (from, to) = (self.observer.turn(k), turns[usize::from(giver)]);
        let Range { start, end } = window.slots();
        if from < to && (from < start || end < to) {
            return Err(NOT_IN_WINDOW);
        }
        let mut due = Due {
            slots: to.saturating_sub(from),
            half_applied: from < to && journal.done() > 0,
            ..Due::default()
        };
        for slot in from..to {
            if self.observer.is_out(k, slot) {
                due.calls.push(Call::Work);
                due.out += 1;
                continue;
            }
            let waiting = journal.waiting(slot);
            due.in_place += u64::from(waiting.is_some());
            let block = waiting.or(window.block(slot)).expect("the window has it");
            if waiting.is_none() {
                let bytes = block.to_vec();
                due.calls.push(Call::Deliver { bytes });
            }
            let done = if slot == from { journal.done() } else { 0 };
            let works = usize::from(block::header(block).count).max(1) - done;
            due.calls.extend(vec![Call::Work; works]);
        }
        Ok(due)
    }

    /// Whether all slots that the giver's window lacks are out here, or have their block in place.
    fn lacks_spared(&self, k: usize, turns: &[u32]) -> bool {
        let giver = giving::giver(k as u8, turns).map_or(k, usize::from);
        let Range { start, end } = self.observer.window(giver).slots();
        let in_place = |slot| self.observer.journal(k).waiting(slot).is_some();
        let spared = |slot| self.observer.is_out(k, slot) || in_place(slot);
        turns[giver] <= end && (self.observer.turn(k)..start).all(spared)
    }

    /// Turn and values that a giving is to lead to, unless it is refused by 30 or 31, where document 02
    /// promises it: the agreement's premises hold, returner and giver have taken the same notices, and the
    /// turns are told truly.
    fn promise(&self, k: usize, turns: &[u32]) -> Option<(u32, [i32; ITEMS])> {
        let giver = usize::from(giving::giver(k as u8, turns)?);
        let tallies = &self.tallies;
        let truly = |g: usize| g == k || [DOWN, tallies[g].report.turn].contains(&turns[g]);
        let alike = |about: u32| {
            let taken = |member: usize| notice::about(&tallies[member].notices, about);
            taken(k).eq(taken(giver))
        };
        let n = self.replicas;
        if !(0..n).all(truly) || !(0..n as u32).all(alike) || !self.observer.premise() {
            return None;
        }
        let [here, there] = [k, giver].map(|member| tallies[member].report.turn);
        match here < there {
            true => Some((there, self.reached[giver])),
            // Nothing is given.
            false => Some((here, self.members[k].values())),
        }
    }

    /// What is not in a replica's window as its journal has it, in words.
    pub fn wrong_windows(&self) -> Vec<String> {
        let windows =
            (0..self.replicas).map(|k| (self.members[k].window(), self.observer.window(k)));
        let wrong = windows.enumerate().filter(|(_, (found, due))| found != due);
        let words = wrong.map(|(k, (found, due))| {
            let [found, due] = [found, due].map(|window| window.slots());
            format!("replica {k}: its window has slots {found:?}, of its journal {due:?}")
        });
        words.collect()
    }

    /// A replica is closed, the others go on until one has come so many slots farther, and it comes back. It
    /// gives whether it could be closed; the others may stand still before they have come so far.
    pub fn holiday(&mut self, k: usize, slots: u32) -> bool {
        if self.is_closed(k) || !self.close(k) {
            return false;
        }
        let turn = |group: &Group<S>, k: usize| group.tallies[k].report.turn;
        let to = turn(self, k) + slots;
        let behind = |group: &Group<S>| {
            let open = group.open_replicas().into_iter();
            { open }.all(|other| turn(group, other) < to)
        };
        while behind(self) && self.round(true) {}
        self.say_next(k, 0);
        self.open(k);
        true
    }

    /// A giving at a random replica that is not closed. Most often the turns are told truly.
    pub fn random_giving(&mut self, random: &mut Random) {
        if let Some((k, turns)) = self.returner(random) {
            self.give(k, &turns);
        }
    }

    /// A giving at any replica that is not closed, told turns of which some may be wrong, whatever notices were
    /// taken. The premise need not hold then.
    pub fn any_giving(&mut self, random: &mut Random) {
        let k = random.pick(&self.open_replicas());
        let turn = |g: usize| self.tallies[g].report.turn;
        let told = |g: usize| random.pick(&[turn(g), turn(g), turn(g), turn(g) + 1, DOWN]);
        let turns: Vec<u32> = (0..self.replicas).map(told).collect();
        self.give(k, &turns);
    }

    /// Who is to be given, and the turns told. Before it, the one that comes back and the giver take the
    /// notices that they can; of slots behind one that it cannot take yet it is told nothing.
    fn returner(&mut self, random: &mut Random) -> Option<(usize, Vec<u32>)> {
        let open = self.open_replicas();
        let turn = |group: &Group<S>, k: usize| group.tallies[k].report.turn;
        let last = open.iter().copied().min_by_key(|&k| turn(self, k))?;
        let any = random.pick(&open);
        let k = random.pick(&[last, any]);
        open.iter().for_each(|&member| self.take_all(member));
        self.take_due(k);
        let limit = self.first_lacking(k).unwrap_or(DOWN);
        let told = |g: usize| match self.is_closed(g) {
            true => DOWN,
            false => turn(self, g).min(limit),
        };
        let mut turns: Vec<u32> = (0..self.replicas).map(told).collect();
        let any = random.below(self.replicas);
        match random.below(20) {
            0 => turns[any] = DOWN,
            1 => turns.fill(DOWN),
            2 => turns[any] = turns[any].saturating_sub(1 + random.below(3) as u32),
            // It lacks a block for the last of these slots.
            3 => turns[any] = random.pick(&[turn(self, any) + 1, turn(self, any) + 70, DOWN - 1]),
            _ => {}
        }
        let own = turn(self, k);
        turns[k] = random.pick(&[own, own, 0, own + 90, DOWN - 1, DOWN]);
        Some((k, turns))
    }
}

impl<S: Gives + Powered> Group<S> {
    /// A giving that a cut ends in the middle: some of its calls are done, and of the next one nothing is left
    /// but what it appended, if that. It gives whether there was one to be ended.
    pub fn random_cut_giving(&mut self, random: &mut Random) -> bool {
        let returner = self.returner(random);
        let due = returner.and_then(|(k, turns)| Some((k, self.due_giving(k, &turns).ok()?)));
        let Some((k, Due { calls, .. })) = due.filter(|(_, due)| !due.calls.is_empty()) else {
            return false;
        };
        let done = random.below(calls.len());
        for call in &calls[..done] {
            // A refused deliver ends it before the cut does.
            if self.call(k, call).is_err() {
                return false;
            }
        }
        self.givings.cut += 1;
        self.cut(k, Some(calls[done].clone()), |floor, all| {
            let any = floor + random.below(all - floor + 1);
            random.pick(&[floor, all, any, any])
        });
        true
    }
}
