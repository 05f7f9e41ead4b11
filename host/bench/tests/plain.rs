//! The plain replicas of the benchmark, in Rust and in C, beside the library and the second model: all four give
//! the same answers, blocks and values.

use bench::{plain, plain_c};
use model::block::{BLOCK, MAX_TICKET};
use model::drive::{start_values, Group, Peers, Powered, Seen, Style, Subject, STYLES};
use model::replica::{Report, Restarted, Work, ITEMS, SLOTS};
use model::samples::Random;
use model::trace::{Answer, Call, Restart};
use soak::both::Both;
use soak::runs::NUMBERS;

struct All {
    rust: plain::Replica,
    c: plain_c::Replica,
    /// Library and model, which are compared there.
    both: Both,
}

impl All {
    /// All after so many slots and tickets.
    fn late(n: u32, own: u32, slots: u32, tickets: u32) -> All {
        let values = start_values();
        All {
            rust: plain::Replica::make(n, own, &values).unwrap(),
            c: plain_c::Replica::make(n, own, &values).unwrap(),
            both: Both::new(n, own, &values),
        }
        .after(slots, tickets)
    }

    /// The same of a station.
    fn late_station(n: u32, slots: u32, tickets: u32) -> All {
        let values = start_values();
        All {
            rust: plain::Replica::station(n, &values).unwrap(),
            c: plain_c::Replica::station(n, &values).unwrap(),
            both: Both::station(n, &values),
        }
        .after(slots, tickets)
    }

    fn after(self, slots: u32, tickets: u32) -> All {
        All {
            rust: self.rust.fast_forward(slots, tickets),
            c: self.c.fast_forward(slots, tickets),
            both: self.both.late(slots, tickets),
        }
    }

    /// Stops where reports or values differ.
    fn same(&self, call: &str) {
        let (report, values) = (self.both.report(), self.both.values());
        assert_eq!(self.rust.report(), report, "{call}: plain Rust");
        assert_eq!(self.c.report(), report, "{call}: plain C");
        assert!(*self.rust.values() == values, "{call}: plain Rust's values");
        assert!(*self.c.values() == values, "{call}: plain C's values");
    }

    /// Stops where windows differ.
    fn same_windows(&self) {
        let window = &self.both.model.window;
        for (slot, block) in window.slots().zip(window.blocks()) {
            assert!(self.rust.kept(slot) == block, "plain Rust's window");
            assert!(self.c.kept(slot) == block, "plain C's window");
        }
    }
}

impl Subject for All {
    fn call(&mut self, call: &Call) -> Result<Answer, u8> {
        let model = &self.both.model;
        let waiting = model.out_next().or(model.waiting());
        let before = self.both.disk().len();
        let (mut by_rust, mut by_c) = (Vec::new(), Vec::new());
        let rust = play_rust(&mut self.rust, call, &mut by_rust);
        let c = play_c(&mut self.c, call, &mut by_c);
        let due = self.both.call(call);
        assert_eq!(rust, due, "{call:?}: plain Rust");
        assert_eq!(c, due, "{call:?}: plain C");
        assert!(by_rust == by_c, "{call:?}: what is appended");
        if self.both.model.is_station() {
            // Whoever sent it, the block whose slot the turn leaves is given for one.
            let left = matches!(&due, Ok(Answer::Work(work)) if work.moved);
            let given = waiting.filter(|_| left).map_or(Vec::new(), Vec::from);
            assert!(by_c == given, "{call:?}: what is given at a station");
        } else {
            let due = &self.both.disk()[before..];
            assert!(by_c == due, "{call:?}: what is appended");
        }
        self.same("a call");
        due
    }
    fn report(&self) -> Report {
        self.both.report()
    }
    fn values(&self) -> [i32; ITEMS] {
        self.both.values()
    }
}

impl Powered for All {
    fn disk(&self) -> &[u8] {
        self.both.disk()
    }
    fn floor(&self) -> usize {
        self.both.floor()
    }
    fn ended(&mut self, call: &Call) {
        // The floor is the pair's.
        let _ = (
            play_rust(&mut self.rust, call, &mut Vec::new()),
            play_c(&mut self.c, call, &mut Vec::new()),
        );
        self.both.ended(call);
    }
    fn restart(&mut self, restart: &Restart) -> Result<Restarted, u8> {
        let due = self.both.restart(restart);
        let (n, own) = (restart.n, restart.own);
        let values = restart.values[..].try_into().unwrap();
        let (rust, given) =
            plain::Replica::restart(n, own, values, &restart.journal, &restart.notices).unwrap();
        let (c, by_c) =
            plain_c::Replica::restart(n, own, values, &restart.journal, &restart.notices).unwrap();
        let block = Box::new(given.last.unwrap_or([0; BLOCK]));
        let count = given.blocks;
        assert_eq!(Ok(Restarted { count, block }), due, "plain Rust");
        assert_eq!(Ok(by_c), due, "plain C");
        (self.rust, self.c) = (rust, c);
        self.same("a restart");
        self.same_windows();
        due
    }
}

/// One call at a replica, but for a work; its answer as the model's. Appends what the journal is to get.
macro_rules! played {
    ($replica:expr, $call:expr, $journal:expr, $work:expr) => {
        match *$call {
            Call::Begin => $replica.begin().map(Answer::Ticket),
            Call::Read { ticket, item } => $replica.read(ticket, item).map(Answer::Value),
            Call::Write {
                ticket,
                item,
                value,
            } => $replica.write(ticket, item, value).map(|()| Answer::Done),
            Call::Ask { ticket } => $replica.ask(ticket).map(Answer::ReadOnly),
            Call::Withdraw { ticket } => $replica.withdraw(ticket).map(|()| Answer::Done),
            Call::Report => Ok(Answer::Report($replica.report())),
            Call::Send => $replica.send().map(|block| {
                $journal.extend(block);
                Answer::Block(Box::new(block))
            }),
            Call::Deliver { ref bytes } => $replica.deliver(bytes).map(|()| Answer::Done),
            Call::Work => $work,
            Call::Load { ref classes } => $replica.load(classes).map(|()| Answer::Done),
            Call::Notice(notice) => $replica.notice(notice).map(|()| Answer::Done),
        }
    };
}

fn play_rust(r: &mut plain::Replica, call: &Call, journal: &mut Vec<u8>) -> Result<Answer, u8> {
    played!(
        r,
        call,
        journal,
        r.work().map(|work| {
            let left = work.append.then(|| *r.kept(r.report().turn - 1));
            journal.extend(left.into_iter().flatten());
            Answer::Work(Work {
                sender: work.sender,
                ticket: work.ticket,
                moved: work.moved,
                aborted: work.aborted[..work.count].to_vec(),
            })
        })
    )
}

fn play_c(r: &mut plain_c::Replica, call: &Call, journal: &mut Vec<u8>) -> Result<Answer, u8> {
    played!(
        r,
        call,
        journal,
        r.work().map(|(work, append)| {
            let left = append.then(|| *r.kept(r.report().turn - 1));
            journal.extend(left.into_iter().flatten());
            Answer::Work(work)
        })
    )
}

/// A group with a station that only gets blocks of its own, and a single replica and a station that take
/// forged ones.
fn run(seed: u64, style: Style, slots: u32, tickets: u32, seen: &mut Seen) {
    let n = 2 + seed as u32 % 5;
    let member = |own| All::late(n, own, slots, tickets);
    let mut random = Random::new(seed);
    let station = || All::late_station(n, slots, tickets);
    let mut group = Group::new((0..n).map(member).collect(), style);
    group.add_station(station());
    let mut singles = [member(0), station()];
    let report = singles[0].report();
    let mut peers = [Peers::new(n, 0, report), Peers::of_station(n, report)];
    for _ in 0..5_000 {
        match random.below(100) {
            0 if slots == 0 => group.random_cut(&mut random),
            _ => group.random_call(&mut random),
        }
        for (single, peers) in singles.iter_mut().zip(&mut peers) {
            let call = peers.random_call(&mut random, style);
            let answer = single.call(&call);
            peers.feed(&call, &answer);
        }
    }
    group.members.iter().for_each(All::same_windows);
    singles.iter().for_each(All::same_windows);
    seen.add(&group.seen);
    peers.iter().for_each(|peers| seen.add(&peers.seen));
}

#[test]
fn all_give_the_same() {
    let mut seen = Seen::default();
    for seed in 0..40 {
        let style = STYLES[seed as usize / 5 % 4].with_notices([0, 6][seed as usize % 2]);
        run(seed, style, 0, 0, &mut seen);
        let style = Style::new(30, 40, 6).with_notices(4);
        run(seed, style, SLOTS - 60, MAX_TICKET - 60, &mut seen);
    }
    assert_eq!(seen.numbers(20), NUMBERS, "{seen:?}");
    assert!(seen.notices > 500 && seen.passed_out > 500, "{seen:?}");
    assert!(seen.stale_and_held > 30, "{seen:?}");
    assert!(seen.restarts > 1_000, "{seen:?}");
    assert!(seen.offered_again > 100, "{seen:?}");
}

/// All turns of 0, 1 and down, for every returner: the library, the model and plain Rust name the same.
#[test]
fn who_gives() {
    let mut ties = 0;
    for n in 2..=6u32 {
        for own in 0..n {
            let both = Both::new(n, own, &start_values());
            for told in 0..3usize.pow(n) {
                let turn = |k: u32| [0, 1, u32::MAX][told / 3usize.pow(k) % 3];
                let turns: Vec<u32> = (0..n).map(turn).collect();
                let plain = plain::giver(own as usize, &turns);
                let library = both.library.giver(&turns).ok();
                assert_eq!(library.map(usize::from), plain, "{own} of {turns:?}");
                assert_eq!(
                    model::giving::giver(own as u8, &turns),
                    library,
                    "{turns:?}"
                );
                let lowest = (0..n as usize)
                    .find(|&k| k != own as usize && Some(turns[k]) == plain.map(|g| turns[g]));
                ties += usize::from(plain != lowest);
            }
        }
    }
    assert!(
        ties > 100,
        "{ties} ties that the number would give to another"
    );
}
