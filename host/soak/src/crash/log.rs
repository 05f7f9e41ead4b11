//! The log of the killed program, and what the observer makes of it.

use std::collections::HashSet;
use std::fmt;
use std::fs::OpenOptions;
use std::io::{Read, Seek, SeekFrom};
use std::path::{Path, PathBuf};

use model::block::{header, BLOCK};
use model::notice::Notice;
use model::observer::Observer;
use model::replica::{Restarted, ITEMS};
use model::trace::{Answer, Call, Restart};
use stemline::Durable;

use super::service::due;
use super::{journal, N};
use crate::lines::{block, grouped, parse};
use crate::studio::{lent, play, taken};

/// What killed programs did.
#[derive(Clone, Copy, Debug, Default)]
pub struct Met {
    /// The calls that were logged, those that brought the group to rest among them.
    pub calls: u64,
    /// The opens of a journal.
    pub restarts: u64,
    /// The blocks handed out.
    pub blocks: u64,
    /// Of these, first by a restart: a kill ended their send.
    pub sent_by_restart: u64,
    /// The writesets committed, counted when the group is at rest.
    pub commits: u64,
    /// The notices taken.
    pub notices: u64,
    /// Of these, the ones whose call a kill ended.
    pub noticed_by_kill: u64,
    /// The givings.
    pub givings: u64,
    /// Of these, the ones in whose middle a kill came.
    pub given_in_part: u64,
}

/// A call and its answer.
type Called = (Call, Result<Answer, u8>);

/// What the log of a killed program says, run after run.
pub struct Log {
    room: PathBuf,
    values: [i32; ITEMS],
    /// What the whole list of calls amounts to.
    pub observer: Observer,
    /// Every block that was handed out, by a send or by a restart.
    pub handed_out: HashSet<Box<[u8; BLOCK]>>,
    /// The counts so far.
    pub met: Met,
    /// The bytes of the log that are taken in.
    read: u64,
    /// What is in each file when the program starts, for its first restart.
    lent: [Option<Vec<u8>>; N],
    /// The giving that was begun last and is not over, with its calls.
    giving: Option<(usize, Vec<Called>)>,
}

impl Log {
    /// Of a group over the files of a folder, before its first start.
    pub fn new(room: &Path, values: [i32; ITEMS]) -> Log {
        Log {
            room: room.to_path_buf(),
            values,
            observer: Observer::new(N, values),
            handed_out: HashSet::new(),
            met: Met::default(),
            read: 0,
            lent: [const { None }; N],
            giving: None,
        }
    }

    /// Looks at the files before the program does.
    pub fn before_start(&mut self) {
        self.lent = std::array::from_fn(|k| Some(lent(&journal(&self.room, k))));
    }

    /// Takes in the lines that are whole, and cuts off one that is not.
    pub fn after_kill(&mut self) {
        let mut options = OpenOptions::new();
        let file = options.read(true).write(true).open(self.room.join("log"));
        let Ok(mut file) = file else {
            return;
        };
        let mut text = String::new();
        file.seek(SeekFrom::Start(self.read)).unwrap();
        file.read_to_string(&mut text).unwrap();
        let whole = text.rfind('\n').map_or(0, |at| at + 1);
        for line in text[..whole].lines() {
            let (call, answer) = line.split_once(" > ").unwrap();
            match call.split(' ').collect::<Vec<_>>()[..] {
                ["T", k, length] => {
                    let (count, given) = answer.split_once(' ').unwrap();
                    let restarted = Restarted {
                        count: count.parse().unwrap(),
                        block: block(given).unwrap(),
                    };
                    let length = length.parse().unwrap();
                    self.restarted(k.parse().unwrap(), Some(length), restarted);
                }
                ["g", k] => {
                    let calls = answer.split(" | ").map(|call| {
                        let (call, answer) = call.split_once(" > ").unwrap();
                        let (_, call, answer) = parse(call, answer).expect(line);
                        (call, answer)
                    });
                    self.giving = Some((k.parse().unwrap(), calls.collect()));
                }
                ["G", ..] => {
                    let (k, calls) = self.giving.take().expect(line);
                    for (call, answer) in calls {
                        self.feed(k, &call, &answer);
                    }
                    self.met.givings += 1;
                }
                _ => {
                    let (k, call, answer) = parse(call, answer).expect(line);
                    self.feed(k, &call, &answer);
                }
            }
        }
        self.read += whole as u64;
        file.set_len(self.read).unwrap();
        (0..N).for_each(|k| self.take_in_notices(k));
    }

    /// Whether the kill came in the middle of a giving at a replica.
    pub fn is_giving(&self, k: usize) -> bool {
        matches!(self.giving, Some((at, _)) if at == k)
    }

    /// Takes in the calls of such a giving whose blocks are in the file.
    pub fn take_in_giving(&mut self) {
        let Some((k, calls)) = self.giving.take() else {
            return;
        };
        let blocks = lent(&journal(&self.room, k)).len() / BLOCK;
        for (call, answer) in calls {
            if self.observer.journal(k).bytes().len() >= BLOCK * blocks {
                break;
            }
            self.feed(k, &call, &answer);
        }
        self.met.givings += 1;
        self.met.given_in_part += 1;
    }

    /// A notice that is durable was taken, also where the kill came before it was logged.
    fn take_in_notices(&mut self, k: usize) {
        let durable = taken(&journal(&self.room, k));
        let known = self.observer.notices(k);
        assert!(durable.starts_with(known), "journal {k}: notices are lost");
        let unknown = durable[known.len()..].to_vec();
        assert!(unknown.len() <= 1, "journal {k}: {unknown:?}");
        for notice in unknown {
            self.feed(k, &Call::Notice(notice), &Ok(Answer::Done));
            self.met.noticed_by_kill += 1;
        }
    }

    /// A restart. The first of a run is lent what was in the file then, any other so many bytes of what
    /// was appended.
    pub fn restarted(&mut self, k: usize, length: Option<usize>, restarted: Restarted) {
        let appended = self.observer.journal(k).bytes();
        let lent = self.lent[k].take();
        let lent = lent.unwrap_or_else(|| appended[..length.unwrap()].to_vec());
        assert!(length.is_none_or(|length| length == lent.len()));
        let restart = Restart {
            n: N as u32,
            own: k as u32,
            values: self.values.to_vec(),
            journal: lent,
            notices: self.observer.notices(k).to_vec(),
        };
        self.met.restarts += 1;
        if restarted.gave_back() {
            self.met.sent_by_restart += self.hand_out(&restarted.block);
        }
        self.observer.feed_restart(k, &restart, &Ok(restarted));
    }

    /// Makes a call and takes it in.
    pub fn call(&mut self, k: usize, durable: &mut Durable, call: &Call) -> Result<Answer, u8> {
        let answer = play(durable, call);
        self.feed(k, call, &answer);
        answer
    }

    fn feed(&mut self, k: usize, call: &Call, answer: &Result<Answer, u8>) {
        self.met.calls += 1;
        self.observer.feed(k, call, answer);
        if let Ok(Answer::Block(block)) = answer {
            self.hand_out(block);
        }
        self.met.notices += u64::from(matches!(call, Call::Notice(_)) && answer.is_ok());
    }

    /// The blocks that were handed out from a slot on, in their order.
    pub fn blocks_from(&self, slot: u32) -> Vec<Vec<u8>> {
        let slot_of = |block: &[u8; BLOCK]| header(block).slot;
        let blocks = self
            .handed_out
            .iter()
            .filter(|block| slot_of(block) >= slot);
        let mut blocks: Vec<Vec<u8>> = blocks.map(|block| block.to_vec()).collect();
        blocks.sort_by_key(|block| block[4..8].iter().rev().copied().collect::<Vec<_>>());
        blocks
    }

    /// Lets a replica take all that was said and can be taken by now.
    pub fn hear(&mut self, said: &[Notice], k: usize, durable: &mut Durable) {
        let turn = durable.report().turn;
        while let Some(notice) = due(said, self.observer.notices(k), turn) {
            let answer = self.call(k, durable, &Call::Notice(notice));
            assert!(answer.is_ok(), "replica {k} is stranded: {notice}");
        }
    }

    /// 1 where the block is new, else 0.
    fn hand_out(&mut self, block: &[u8; BLOCK]) -> u64 {
        let new = u64::from(self.handed_out.insert(Box::new(*block)));
        self.met.blocks += new;
        new
    }
}

impl Met {
    /// Adds what another program did.
    pub fn add(&mut self, other: &Met) {
        self.calls += other.calls;
        self.restarts += other.restarts;
        self.blocks += other.blocks;
        self.sent_by_restart += other.sent_by_restart;
        self.commits += other.commits;
        self.notices += other.notices;
        self.noticed_by_kill += other.noticed_by_kill;
        self.givings += other.givings;
        self.given_in_part += other.given_in_part;
    }
}

impl fmt::Display for Met {
    fn fmt(&self, f: &mut fmt::Formatter) -> fmt::Result {
        let [calls, restarts, blocks] = [self.calls, self.restarts, self.blocks].map(grouped);
        let [first, commits] = [self.sent_by_restart, self.commits].map(grouped);
        let [notices, ended] = [self.notices, self.noticed_by_kill].map(grouped);
        let [givings, in_part] = [self.givings, self.given_in_part].map(grouped);
        write!(
            f,
            "{calls} calls, {restarts} restarts, {blocks} blocks handed out, {first} of them first by a restart; \
             {notices} notices taken, {ended} of them in a call that a kill ended; {givings} givings, {in_part} of them \
             with a kill in the middle; {commits} writesets committed"
        )
    }
}
