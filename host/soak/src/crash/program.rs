//! The program that is killed: three replicas over files that run transactions and exchange blocks, of
//! which some are lost, late, repeated or damaged. Now and then one of them loses power by itself.

use std::env;
use std::fs::{File, OpenOptions};
use std::io::Write;
use std::path::PathBuf;
use std::time::{Duration, Instant};

use model::block::{header, BLOCK};
use model::drive::{local_call, Style, Tally};
use model::journal::fixes;
use model::notice::{self, Notice};
use model::replay::hex;
use model::samples::{damage, Random};
use model::trace::{Answer, Call};
use stemline::{Durable, Replica, Window, HEAD};

use super::{journal, service, N};
use crate::both::{self, report, told};
use crate::lines::{line, shown};
use crate::studio::{lent, open, play, taken};

/// Few items, so that there are conflicts.
const STYLE: Style = Style::new(12, 0, 15);

struct Program {
    room: PathBuf,
    log: File,
    members: Vec<Member>,
    /// Blocks handed out before their sender's last one.
    old: Vec<[u8; BLOCK]>,
    /// What the membership service has said.
    said: Vec<Notice>,
}

struct Member {
    durable: Durable,
    /// A replica without a file that gets the same calls: it says what a giving will be.
    plain: Replica,
    tally: Tally,
    /// The block handed out last, if there is one.
    last: Option<[u8; BLOCK]>,
    /// The bytes that were in the file when that was handed out, the last notice taken, or the last slot passed
    /// that is out; or all that were there when it was opened.
    floor: u64,
}

impl Program {
    fn new(room: PathBuf) -> Program {
        let mut log = OpenOptions::new();
        let log = log.append(true).create(true).open(room.join("log"));
        let mut program = Program {
            said: service::said(&room),
            room,
            log: log.unwrap(),
            members: Vec::new(),
            old: Vec::new(),
        };
        for k in 0..N {
            let member = program.open(k);
            program.members.push(member);
        }
        // What was said while it was down, before the first work.
        (0..N).for_each(|k| program.hear(k));
        program
    }

    /// One write, so that it is in the log whatever becomes of the program.
    fn note(&mut self, call: &str, answer: &str) {
        let text = format!("{call} > {answer}\n");
        self.log.write_all(text.as_bytes()).unwrap();
    }

    /// The bytes of its blocks, with those that an open mends.
    fn length(&self, k: usize) -> u64 {
        lent(&journal(&self.room, k)).len() as u64
    }

    /// Opens a replica. Only when that is logged is the block given back handed out.
    fn open(&mut self, k: usize) -> Member {
        let length = self.length(k);
        let path = journal(&self.room, k);
        let (durable, restarted) = open(&path, N as u32, k as u32);
        let answer = format!("{} {}", restarted.count, hex(&*restarted.block));
        self.note(&format!("T {k} {length}"), &answer);
        let mut tally = Tally::new(k, report(durable.report()));
        tally.notices = taken(&path);
        let notices: Vec<_> = tally.notices.iter().map(told).collect();
        let start = model::drive::start_values();
        let made = Replica::restart(N as u32, k as u32, &start, &lent(&path), &notices);
        let last = restarted.gave_back().then_some(*restarted.block);
        let floor = self.length(k);
        Member {
            durable,
            plain: made.unwrap().0,
            tally,
            last,
            floor,
        }
    }

    /// One of them loses power, and some of what was not durable.
    fn lose_power(&mut self, random: &mut Random, k: usize) {
        let floor = self.members.remove(k).floor;
        let above = (self.length(k) - floor) as usize;
        let file = OpenOptions::new().write(true).open(journal(&self.room, k));
        let left = floor + random.below(above + 1) as u64;
        file.unwrap().set_len(HEAD as u64 + left).unwrap();
        let member = self.open(k);
        self.members.insert(k, member);
        self.hear(k);
    }

    /// Takes all that was said and can be taken by now.
    fn hear(&mut self, k: usize) {
        let due = |program: &Program| {
            let tally = &program.members[k].tally;
            service::due(&program.said, &tally.notices, tally.report.turn)
        };
        while let Some(notice) = due(self) {
            let taken = self.members[k].tally.notices.len();
            self.call(k, &Call::Notice(notice));
            let now = self.members[k].tally.notices.len();
            assert!(now > taken, "replica {k} is stranded: {notice}");
        }
    }

    /// Says of a replica that it is out or back, from a slot on that is above all that was sent for, and lets all
    /// take it at once.
    fn say(&mut self, random: &mut Random) {
        let reached = self.members.iter().map(|member| {
            let turn = member.tally.report.turn;
            let sent = member.last.is_some_and(|block| header(&block).slot >= turn);
            turn + u32::from(sent)
        });
        let slot = reached.max().unwrap_or(0) + random.pick(&[0, 0, 1, 4]);
        let about = random.below(N) as u32;
        if let Some(notice) = service::next(&self.said, about, slot) {
            service::say(&self.room, notice);
            self.said.push(notice);
            (0..N).for_each(|k| self.hear(k));
        }
    }

    fn call(&mut self, k: usize, call: &Call) {
        let member = &mut self.members[k];
        let out = member.tally.is_out(N as u32);
        let answer = play(&mut member.durable, call);
        assert_eq!(both::play(&mut member.plain, call, &mut Vec::new()), answer);
        self.note(&line(k, call), &shown(&answer));
        let member = &mut self.members[k];
        member.tally.feed(call, &answer);
        if let Ok(Answer::Block(block)) = &answer {
            self.old.extend(member.last.replace(**block));
        }
        if fixes(call, &answer, out) {
            self.members[k].floor = self.length(k);
        }
    }

    /// A block that was handed out, now and then an old one or a damaged one.
    fn block(&self, random: &mut Random) -> Option<[u8; BLOCK]> {
        let last = self.members[random.below(N)].last?;
        let mut block = match self.old.len() {
            1.. if random.below(10) == 0 => random.pick(&self.old),
            _ => last,
        };
        if random.below(20) == 0 {
            damage(random, &mut block);
        }
        Some(block)
    }

    /// The block of a replica's turn from another's journal: nobody waits for one that is out, so that it may
    /// need older ones than are handed out again. Of a slot that is out there is none.
    fn from_journal(&self, random: &mut Random, k: usize) -> Option<[u8; BLOCK]> {
        let turn = self.members[k].tally.report.turn;
        let is_out = notice::puts_out(&self.said, N as u32, turn);
        let journal = lent(&journal(&self.room, random.below(N)));
        let block = journal.get(BLOCK * turn as usize..)?.first_chunk();
        block.filter(|_| !is_out).copied()
    }

    /// Gives a replica what it missed, as far as it has taken what was said. The calls are logged before it begins.
    fn give(&mut self, k: usize) {
        (0..N).for_each(|k| self.hear(k));
        let taken = &self.members[k].tally.notices;
        let limit = service::lacking(&self.said, taken).unwrap_or(u32::MAX - 1);
        let turn = |member: &Member| member.tally.report.turn.min(limit);
        let turns: Vec<u32> = self.members.iter().map(turn).collect();
        let giver = self.members[k].durable.giver(&turns).unwrap();
        let (from, to) = (self.members[k].tally.report.turn, turns[usize::from(giver)]);
        let window = self.members[usize::from(giver)].durable.window().clone();
        if from >= to || window.lacks(from..to).is_some() {
            let given = self.members[k].durable.give(&turns, &window);
            assert_eq!(given.is_ok(), from >= to, "{given:?}");
            return;
        }
        let member = &mut self.members[k];
        let calls = calls_of(&mut member.plain, &window, to);
        let lines = calls
            .iter()
            .map(|(call, answer)| format!("{} > {}", line(k, call), shown(answer)));
        let lines: Vec<String> = lines.collect();
        self.note(&format!("g {k}"), &lines.join(" | "));
        let member = &mut self.members[k];
        let given = member.durable.give(&turns, &window).unwrap();
        assert_eq!(given.ended, None, "told {turns:?}");
        assert_eq!(member.durable.report(), member.plain.report());
        let mut passed = None;
        for (call, answer) in &calls {
            if member.tally.is_out(N as u32) {
                passed = Some(member.tally.report.turn);
            }
            member.tally.feed(call, answer);
        }
        let passed = passed.map_or(0, |slot| BLOCK as u64 * u64::from(slot + 1));
        member.floor = member.floor.max(passed);
        self.note(&format!("G {k}"), "0");
    }

    /// Whether a replica is closed: it was said to be out, and not yet to be back.
    fn is_closed(&self, k: usize) -> bool {
        let last = notice::about(&self.said, k as u32).next_back();
        last.is_some_and(|last| last.kind == notice::Kind::Out)
    }

    fn step(&mut self, random: &mut Random) {
        let k = random.below(N);
        // One behind a Back that was ahead so far.
        self.hear(k);
        if self.is_closed(k) && random.below(8) > 0 {
            return;
        }
        match random.below(100) {
            0..50 => {
                let call = local_call(random, &self.members[k].tally, STYLE);
                self.call(k, &call);
            }
            50..70 => {
                let block = match random.below(10) {
                    0 => self.from_journal(random, k),
                    _ => self.block(random),
                };
                if let Some(block) = block {
                    let bytes = block.to_vec();
                    self.call(k, &Call::Deliver { bytes });
                }
            }
            70..95 => self.call(k, &Call::Work),
            95.. if random.below(60) == 0 => self.lose_power(random, k),
            95.. if random.below(40) == 0 => self.say(random),
            95.. if random.below(8) == 0 => self.give(k),
            _ => self.call(k, &Call::Send),
        }
    }
}

/// The calls of a giving at a replica, up to this turn, which are made there.
fn calls_of(replica: &mut Replica, window: &Window, to: u32) -> Vec<(Call, Result<Answer, u8>)> {
    let mut calls = Vec::new();
    while replica.report().turn < to {
        let call = match replica.waits() {
            true => Call::Work,
            false => Call::Deliver {
                bytes: window.block(replica.report().turn).unwrap().to_vec(),
            },
        };
        let answer = both::play(replica, &call, &mut Vec::new());
        assert!(answer.is_ok(), "{call:?} of a giving: {answer:?}");
        calls.push((call, answer));
    }
    calls
}

/// The environment's name by which a program is asked to be the one that is killed: a seed and the folder.
pub const ASKED: &str = "STEMLINE_CRASH";

/// Runs, if the environment asks for it, and says whether it did. If nobody kills it, it ends soon.
pub fn run() -> bool {
    let Some(given) = env::var_os(ASKED) else {
        return false;
    };
    let given = given.to_string_lossy();
    let (seed, room) = given.split_once(' ').unwrap();
    let mut random = Random::new(seed.parse().unwrap());
    let mut program = Program::new(PathBuf::from(room));
    let began = Instant::now();
    while began.elapsed() < Duration::from_secs(10) {
        program.step(&mut random);
    }
    true
}
