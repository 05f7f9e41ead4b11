//! Replicas over journals in files, as the model's drives take them.

use std::fs;
use std::path::{Path, PathBuf};

use model::block::BLOCK;
use model::drive::{start_values, Gives, Powered, Subject};
use model::giving::{self, Given};
use model::journal;
use model::replica::{self as second, Report, Restarted, ITEMS};
use model::trace::{Answer, Call, Restart};
use model::window::Window;
use stemline::{notices_path, Asked, Block, Durable, Failure, Head, Notice, Replica, HEAD};

use crate::both::{self, answered, report, same, told, worked, Journaled};
use crate::lines::Named;
use crate::noticed;

/// Opens replica `own` of `n`, with the tests' values; the answer as the model's.
pub fn open(path: &Path, n: u32, own: u32) -> (Durable, Restarted) {
    let opened = Durable::open(path, "studio", n, own, &start_values());
    let (durable, reopened) = opened.unwrap();
    let restarted = Restarted {
        count: reopened.blocks,
        block: Box::new(reopened.last.unwrap_or([0; BLOCK])),
    };
    (durable, restarted)
}

/// The blocks that a file has for an open, torn ones too: with those that it mends from the copies. Of a
/// file that is not there, or not yet made, none.
pub fn lent(path: &Path) -> Vec<u8> {
    let file = fs::read(path).unwrap_or_default();
    let Ok(head) = Head::read(&file) else {
        return Vec::new();
    };
    let (front, blocks) = file.split_at(HEAD);
    let mut blocks = blocks.to_vec();
    let good = |blocks: &[u8], slot: usize| {
        let bytes = blocks.get(BLOCK * slot..).unwrap_or(&[]);
        let block = bytes.get(..BLOCK).map(Block::read);
        block.is_some_and(|block| block.is_ok_and(|block| block.slot() as usize == slot))
    };
    let mut copies = head.copies(front);
    copies.sort_by_key(|copy| copy.first().map(Block::slot));
    for block in copies.iter().flatten() {
        let slot = block.slot() as usize;
        if slot <= blocks.len() / BLOCK && !good(&blocks, slot) {
            blocks.resize(blocks.len().max(BLOCK * (slot + 1)), 0);
            blocks[BLOCK * slot..][..BLOCK].copy_from_slice(block.bytes());
        }
    }
    blocks
}

/// The slot behind those of which the head of a file has copies: what is there before is durable.
pub fn copied(path: &Path) -> u32 {
    let file = fs::read(path).unwrap_or_default();
    let Ok(head) = Head::read(&file) else {
        return 0;
    };
    let copies = head.copies(&file[..HEAD]);
    let ends = copies
        .iter()
        .filter_map(|copy| Some(copy.last()?.slot() + 1));
    ends.max().unwrap_or(0)
}

/// The notices beside a file, as the model has them; none where there is no file, or no notice yet.
pub fn taken(path: &Path) -> Vec<model::notice::Notice> {
    let file = fs::read(path).unwrap_or_default();
    let Ok(head) = Head::read(&file) else {
        return Vec::new();
    };
    let notices = head.notices(&file[..HEAD], path).unwrap().unwrap();
    let taken = notices.iter().map(|notice| match *notice {
        Notice::Out { replica, slot } => model::notice::Notice::out(replica, slot),
        Notice::Back { replica, slot } => model::notice::Notice::back(replica, slot),
    });
    taken.collect()
}

/// One call, its answer as the model's. Stops where the disk fails.
pub fn play(durable: &mut Durable, call: &Call) -> Result<Answer, u8> {
    let played: Result<Answer, Failure> = match *call {
        Call::Begin => durable.begin().map(Answer::Ticket),
        Call::Read { ticket, item } => {
            let read = durable.read(ticket, item);
            read.map(Answer::Value).map_err(Failure::Refused)
        }
        Call::Write {
            ticket,
            item,
            value,
        } => durable.write(ticket, item, value).map(|()| Answer::Done),
        Call::Ask { ticket } => {
            let asked = durable.ask(ticket);
            asked.map(|asked| Answer::ReadOnly(asked == Asked::ReadOnly))
        }
        Call::Withdraw { ticket } => durable.withdraw(ticket).map(|()| Answer::Done),
        Call::Report => Ok(Answer::Report(report(durable.report()))),
        Call::Send => durable.send().map(|block| Answer::Block(Box::new(block))),
        Call::Deliver { ref bytes } => durable.deliver(bytes).map(|()| Answer::Done),
        Call::Work => durable.work().map(|work| Answer::Work(worked(&work))),
        Call::Load { ref classes } => durable.load(classes).map(|()| Answer::Done),
        Call::Notice(notice) => noticed!(durable, notice),
    };
    played.map_err(|failure| match failure.refusal() {
        Some(refusal) => refusal.number(),
        None => panic!("{failure}"),
    })
}

/// A replica with its file, beside the model's.
pub struct Studio {
    /// `None` while it is opened anew: the file is open once.
    durable: Option<Durable>,
    model: second::Replica,
    path: PathBuf,
    /// What the model says is in the file, and what of it a cut leaves at least.
    disk: Vec<u8>,
    floor: usize,
}

impl Studio {
    /// With a file that is not there any more.
    pub fn new(path: PathBuf, n: u32, own: u32) -> Studio {
        let _ = (fs::remove_file(&path), fs::remove_file(notices_path(&path)));
        let (durable, restarted) = open(&path, n, own);
        assert_eq!(restarted.count, 0, "{}", path.display());
        Studio {
            durable: Some(durable),
            model: second::Replica::make(n, own, &start_values()).unwrap(),
            path,
            disk: Vec::new(),
            floor: 0,
        }
    }

    /// That the file has what the model says was appended.
    pub fn check_file(&self) {
        let file = fs::read(&self.path).unwrap();
        assert!(file[HEAD..] == self.disk, "{}", self.path.display());
    }

    /// The head of the file where a cut leaves so many blocks: it tears a copy of more, which would mend them.
    fn head_of(&self, blocks: usize) -> Vec<u8> {
        let mut file = fs::read(&self.path).unwrap();
        file.truncate(HEAD);
        for page in [4_096, 8_192] {
            let first = u32::from_le_bytes(*file[page + 8..].first_chunk().unwrap());
            if first as usize + usize::from(file[page + 12]) > blocks {
                file[page..][..16].fill(0);
            }
        }
        file
    }

    /// That all the memory is the model's. It is not given out, but shown.
    fn check_memory(&self, durable: &Durable, restart: &Restart) {
        let (n, own) = (restart.n, restart.own);
        let notices: Vec<Notice> = restart.notices.iter().map(told).collect();
        assert_eq!(durable.notices(), notices);
        let made = Replica::restart(n, own, &start_values(), &restart.journal, &notices);
        let (library, _) = made.unwrap();
        same(&self.model, library.memory());
        assert!(format!("{durable:?}").contains(&format!("{library:?}")));
    }

    fn durable(&self) -> &Durable {
        self.durable.as_ref().expect("it is open")
    }
}

impl Subject for Studio {
    fn call(&mut self, call: &Call) -> Result<Answer, u8> {
        let _named = Named::of(&self.model, call);
        let out = self.model.is_out(self.model.turn);
        let answer = play(self.durable.as_mut().expect("it is open"), call);
        let due = self.model.call_journaled(call, &mut self.disk);
        assert_eq!(answer, due, "{call:?}: the library's answer, the model's");
        if journal::fixes(call, &answer, out) {
            self.floor = self.disk.len();
        }
        answer
    }

    fn report(&self) -> Report {
        report(self.durable().report())
    }

    fn values(&self) -> [i32; ITEMS] {
        *self.durable().values()
    }
}

impl Gives for Studio {
    fn window(&self) -> Window {
        assert!(*self.durable().window() == both::lent(&self.model.window));
        self.model.window.clone()
    }

    fn give(&mut self, turns: &[u32], window: &Window) -> Given {
        let durable = self.durable.as_mut().expect("it is open");
        let giver = durable.giver(turns);
        let given = durable.give(turns, &both::lent(window));
        let given =
            given.map_err(|failure| failure.refusal().unwrap_or_else(|| panic!("{failure}")));
        let mut returner = Journaled {
            replica: &mut self.model,
            disk: &mut self.disk,
            floor: &mut self.floor,
        };
        let due = giving::give(&mut returner, turns, window);
        let due_answer = (due.number, due.giver, due.aborted.clone());
        assert_eq!(
            answered(giver, given),
            due_answer,
            "a giving, told {turns:?}"
        );
        self.check_file();
        due
    }
}

impl Powered for Studio {
    fn disk(&self) -> &[u8] {
        &self.disk
    }

    fn floor(&self) -> usize {
        self.floor
    }

    fn restart(&mut self, restart: &Restart) -> Result<Restarted, u8> {
        self.check_file();
        self.durable = None;
        let head = self.head_of(restart.journal.len() / BLOCK);
        fs::write(&self.path, [&head[..], &restart.journal].concat()).unwrap();
        let (durable, restarted) = open(&self.path, restart.n, restart.own);
        assert_eq!(Ok(&restarted), restart.run(&mut self.model).as_ref());
        self.check_memory(&durable, restart);
        self.durable = Some(durable);
        self.disk = restart.journal[..BLOCK * restarted.count as usize].to_vec();
        self.check_file();
        self.floor = journal::floor_after(self.floor, restart, &restarted);
        Ok(restarted)
    }

    fn ended(&mut self, call: &Call) {
        let floor = self.floor;
        let _ = self.call(call);
        self.floor = floor;
    }
}
