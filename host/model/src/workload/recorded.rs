//! Groups with a membership service and stations (document 02, Req 10), driven at random as
//! [`crate::drive`] does it, each call a line of the list. Replicas are closed and come back; in some
//! rounds they lose power, and in the last ones any notice comes to anybody. In rounds of their own those that
//! come back are given what they missed (Req 11).

use std::cell::RefCell;
use std::rc::Rc;

use super::List;
use crate::block::BLOCK;
use crate::drive::{Gives, Group, Machine, Powered, Style, Subject};
use crate::giving::Given;
use crate::replay::{giving_line, line, show, show_given, JOURNAL, KEPT, NOTICES};
use crate::replica::{Replica, Report, Restarted, ITEMS};
use crate::samples::Random;
use crate::trace::{Answer, Call, Restart};
use crate::window::Window;

/// The first place of a station.
const STATION: usize = 6;
/// The calls of a round, before its group comes to rest.
const CALLS: usize = 700;
/// The value that all items start with.
const VALUE: i32 = -4;
/// Apart from the seeds of the other random groups.
pub(super) const FIRST_SEED: u64 = 2_000;
/// The seed of the first round with givings.
pub(super) const GIVING_SEED: u64 = 3_000;

/// How a round's calls are chosen.
pub(super) struct Round {
    n: usize,
    stations: usize,
    /// One call in so many is a cut, if this is not 0.
    cuts: usize,
    /// Whether any notice may come to anybody. Then the copies need not be equal.
    pub any: bool,
    /// One call in so many is a giving, if this is not 0.
    givings: usize,
}

const fn round(n: usize, stations: usize, cuts: usize, any: bool) -> Round {
    Round {
        n,
        stations,
        cuts,
        any,
        givings: 0,
    }
}

pub(super) const ROUNDS: [Round; 9] = [
    round(2, 1, 0, false),
    round(3, 2, 0, false),
    round(6, 0, 0, false),
    round(2, 0, 40, false),
    round(4, 1, 40, false),
    round(5, 0, 30, false),
    round(3, 1, 40, true),
    round(2, 0, 40, true),
    round(5, 1, 0, true),
];

pub(super) const GIVING_ROUNDS: [Round; 7] = [
    round(2, 0, 0, false).with_givings(12),
    round(3, 1, 60, false).with_givings(15),
    round(4, 0, 60, false).with_givings(15),
    round(5, 0, 0, false).with_givings(20),
    round(6, 0, 60, false).with_givings(20),
    round(3, 0, 40, true).with_givings(4),
    round(4, 1, 0, true).with_givings(4),
];

impl Round {
    const fn with_givings(self, givings: usize) -> Round {
        Round { givings, ..self }
    }
}

pub(super) fn with_givings(list: &mut List) {
    for (round, seed) in GIVING_ROUNDS.iter().zip(GIVING_SEED..) {
        play(list, round, seed);
    }
}

pub(super) fn all(list: &mut List) {
    for (round, seed) in ROUNDS.iter().zip(FIRST_SEED..) {
        play(list, round, seed);
    }
}

/// A replica or station of the list. The machine answers what the list prints.
pub(super) struct Recorded {
    list: Rc<RefCell<List>>,
    place: usize,
    machine: Machine,
}

impl Recorded {
    /// Adds a line, and compares what it prints.
    fn line(&self, line: &str, due: &str) {
        let printed = self.list.borrow_mut().call(line);
        assert_eq!(printed, due, "{line}");
    }

    fn make(list: &Rc<RefCell<List>>, place: usize, n: usize, own: Option<usize>) -> Recorded {
        let (line, made) = match own {
            Some(own) => (
                format!("M {place} {n} {own} {VALUE}"),
                Replica::make(n as u32, own as u32, &[VALUE; ITEMS]),
            ),
            None => (
                format!("A {place} {n} {VALUE}"),
                Replica::station(n as u32, &[VALUE; ITEMS]),
            ),
        };
        let recorded = Recorded {
            list: Rc::clone(list),
            place,
            machine: Machine::new(made.expect("N and number are right")),
        };
        recorded.line(&line, "0");
        recorded
    }

    /// The line of a call: a block that is kept by its number in the run.
    fn text(&self, call: &Call) -> String {
        let list = self.list.borrow();
        if let Call::Deliver { bytes } = call {
            let sent = list.replay.sent();
            let mut kept = sent.saturating_sub(KEPT as u64)..sent;
            if let Some(i) =
                kept.rfind(|&i| list.replay.block(i).is_some_and(|b| b[..] == bytes[..]))
            {
                return format!("D {} {i}", self.place);
            }
        }
        line(self.place, call)
    }
}

impl Subject for Recorded {
    fn call(&mut self, call: &Call) -> Result<Answer, u8> {
        let text = self.text(call);
        let answer = self.machine.call(call);
        self.line(&text, &answer.as_ref().map_or_else(u8::to_string, show));
        answer
    }
    fn report(&self) -> Report {
        self.machine.report()
    }
    fn values(&self) -> [i32; ITEMS] {
        self.machine.values()
    }
}

impl Gives for Recorded {
    fn window(&self) -> Window {
        self.machine.window()
    }
    fn give(&mut self, turns: &[u32], window: &Window) -> Given {
        let given = self.machine.give(turns, window);
        self.line(&giving_line(self.place, turns), &show_given(&given));
        given
    }
}

impl Powered for Recorded {
    fn disk(&self) -> &[u8] {
        self.machine.disk()
    }
    fn floor(&self) -> usize {
        self.machine.floor()
    }
    fn restart(&mut self, restart: &Restart) -> Result<Restarted, u8> {
        let restart = Restart {
            values: vec![VALUE; ITEMS],
            ..restart.clone()
        };
        let restarted = self.machine.restart(&restart)?;
        let digits = crate::replay::hex(&*restarted.block);
        let due = format!("0 {} {digits}", restarted.count);
        let text = format!("Z {} {} {VALUE}", self.place, restart.journal.len());
        self.line(&text, &due);
        Ok(restarted)
    }
    fn ended(&mut self, call: &Call) {
        let floor = self.machine.floor;
        let _ = self.call(call);
        self.machine.floor = floor;
    }
}

/// A round. It gives the places that end with the same copies, the closed ones left out.
pub(super) fn play(list: &mut List, round: &Round, seed: u64) -> Vec<usize> {
    let shared = Rc::new(RefCell::new(std::mem::take(list)));
    let places = drive(&shared, round, seed);
    *list = shared.take();
    for place in &places {
        list.calls(&format!("Q {place}, V {place}"));
    }
    places
}

fn drive(list: &Rc<RefCell<List>>, round: &Round, seed: u64) -> Vec<usize> {
    let &Round {
        n,
        stations,
        cuts,
        any,
        givings,
    } = round;
    let mut random = Random::new(seed);
    let members = (0..n).map(|own| Recorded::make(list, own, n, Some(own)));
    let style = Style::new(16, 60, 20).with_notices(if any { 0 } else { 12 });
    let mut group = Group::new(members.collect(), style);
    for place in STATION..STATION + stations {
        group.add_station(Recorded::make(list, place, n, None));
    }
    for _ in 0..CALLS {
        let may_cut = cuts > 0 && group.members.iter().all(Recorded::is_kept);
        if givings > 0 && random.below(givings) == 0 {
            giving(&mut group, &mut random, any, may_cut);
        } else if may_cut && random.below(cuts) == 0 {
            group.random_cut(&mut random);
        } else if any && random.below(10) == 0 {
            group.any_notice(&mut random);
        } else if !any && random.below(40) == 0 {
            group.round(true);
        } else {
            group.random_call(&mut random);
        }
    }
    if !any {
        group.settle(1);
    }
    let mut ends = group.open_replicas();
    ends.extend(group.stations());
    ends.into_iter().map(|k| group.members[k].place).collect()
}

/// A giving, behind a holiday or cut off in the middle now and then.
fn giving(group: &mut Group<Recorded>, random: &mut Random, any: bool, may_cut: bool) {
    match random.below(8) {
        _ if any => group.any_giving(random),
        0 => {
            let slots = random.pick(&[5, 20, 63, 64, 65]);
            group.holiday(random.pick(&group.open_replicas()), slots);
            group.random_giving(random);
        }
        1 if may_cut => drop(group.random_cut_giving(random)),
        _ => group.random_giving(random),
    }
}

impl Recorded {
    /// Whether the list keeps what its restart is lent, with a call more.
    fn is_kept(&self) -> bool {
        self.machine.disk.len() < JOURNAL * BLOCK && self.machine.replica.notices.len() <= NOTICES
    }
}
