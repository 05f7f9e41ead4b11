//! A replica whose blocks stand in a journal, so that it can be opened again after a cut of the power.

mod giving;

use std::io::{self, Write};
use std::path::Path;

use crate::disk::Medium;
use crate::head::Head;
use crate::journal::Journal;
use crate::outcome::Outcomes;
use crate::{
    Asked, Calls, Digest, DiskError, Failure, Notice, Outcome, Recorder, Refusal, Reopened,
    Replica, Report, Restarted, Taken, Work, BLOCK, ITEMS,
};

/// One replica of a group with its journal in a file.
///
/// Nothing is handed out that was not made durable. A send gives its block once that is durable; a work
/// appends the block of the slot that it leaves, which is durable with the next send; a giving appends those of
/// all the slots that it leaves, before it answers. What is journaled is also durable
/// when a notice is taken, and when a slot that is out is passed; the notices stand in a file beside the
/// journal ([`crate::notices_path`]). Where the disk fails, a call
/// gives an error and no block, what was appended since the last good sync is cut off again, and no call
/// but a look (values, read, report, turn) is accepted any more: it is opened anew. A look may then show
/// more than the file has. The [`Replica`] itself is not given out, since after a failed send it holds a
/// block that nobody may have.
///
/// The file says whose journal it is ([`crate::Head`]), and keeps copies of its last two rounds: what an
/// open takes up, mends, cuts off and refuses, [`Durable::open`] names.
///
/// ```
/// use stemline::{Durable, Failure, ITEMS};
///
/// fn main() -> Result<(), Failure> {
///     let path = std::env::temp_dir().join(format!("stemline-{}.journal", std::process::id()));
///     let (mut replica, _) = Durable::open(&path, "grotesque", 2, 0, &[0; ITEMS])?;
///     let ticket = replica.begin()?;
///     replica.write(ticket, 5, 40)?;
///     replica.ask(ticket)?;
///     let block = replica.send()?;
///     // The power is cut before anybody has the block.
///     drop(replica);
///     let (replica, reopened) = Durable::open(&path, "grotesque", 2, 0, &[0; ITEMS])?;
///     assert_eq!(replica.values()[5], 40);
///     assert_eq!(reopened.committed, [ticket]);
///     // It is handed out once more.
///     assert_eq!(reopened.last, Some(block));
///     // Nobody else's file is taken up.
///     drop(replica);
///     let other = Durable::open(&path, "antiqua", 2, 0, &[0; ITEMS]);
///     let words = "it is of the group \"grotesque\", not of \"antiqua\"";
///     assert!(other.unwrap_err().to_string().ends_with(words));
/// #   let _ = std::fs::remove_file(path);
///     Ok(())
/// }
/// ```
#[derive(Debug)]
pub struct Durable<R = Replica> {
    replica: R,
    journal: Journal,
    outcomes: Outcomes,
    last: Option<[u8; BLOCK]>,
}

impl Durable {
    /// Opens replica `own` of `n` of a group from its journal, with the group's values to start with. With
    /// no file, or an empty one, it is a new replica, and the file gets its head. The last own block goes to
    /// every replica of the group once more. No classes are loaded. Refused by 2.
    ///
    /// A file with another head, of another replica, group, size or start, or with none, is left as it is,
    /// with an error that names what differs. The group's name has 1 to 255 bytes and no control characters.
    ///
    /// What a cut tore is cut off the file. It tears at most the blocks up to the next own slot, `n` at
    /// most, since that one's is made durable before anything follows; a file with more behind its last good
    /// block is damaged and left as it is, with an error.
    ///
    /// Where the good blocks end before the last own one that was sent, they are put back from the copies in
    /// the head, which reach two rounds back. Damage before that is an error, and the file is left as it is.
    /// So no own block that was handed out is ever cut off and sent anew, if not both the block and its copy
    /// are damaged at once.
    ///
    /// Tickets above the highest in own blocks are given again: see [`Reopened`].
    ///
    /// The notices taken are in force again ([`Durable::notices`]). Where they are lost or damaged, it is an
    /// error. Those that were announced meanwhile are taken before the first work, and then what waits is worked
    /// off: the turn may stand at a slot that is out ([`Durable::waits`]).
    pub fn open(
        path: impl AsRef<Path>,
        group: &str,
        n: u32,
        own: u32,
        values: &[i32; ITEMS],
    ) -> Result<(Durable, Reopened), Failure> {
        Durable::open_at(&Medium::System, path.as_ref(), group, n, own, values)
    }

    /// As [`Durable::open`], with the file at this medium.
    pub(crate) fn open_at(
        medium: &Medium,
        path: &Path,
        group: &str,
        n: u32,
        own: u32,
        values: &[i32; ITEMS],
    ) -> Result<(Durable, Reopened), Failure> {
        let restart =
            |bytes: &[u8], notices: &[Notice]| Replica::restart(n, own, values, bytes, notices);
        Durable::take_up(medium, path, group, n, own, values, restart)
    }

    /// As [`Replica::values`].
    pub fn values(&self) -> &[i32; ITEMS] {
        self.replica.values()
    }

    /// As [`Replica::read`].
    pub fn read(&self, ticket: u32, item: u32) -> Result<i32, Refusal> {
        self.replica.read(ticket, item)
    }

    /// As [`Replica::report`].
    pub fn report(&self) -> Report {
        self.replica.report()
    }
}

/// A replica that is recorded and has its journal in a file.
impl<C: Write, A: Write> Durable<Recorder<C, A>> {
    /// As [`Durable::open`], with the sinks of the calls and the answers, as [`Recorder::restart`] writes them.
    ///
    /// ```
    /// use stemline::{Durable, Failure, ITEMS};
    ///
    /// fn main() -> Result<(), Failure> {
    ///     let path = std::env::temp_dir().join(format!("recorded-{}.journal", std::process::id()));
    ///     let (mut calls, mut answers) = (Vec::new(), Vec::new());
    ///     let sinks = (&mut calls, &mut answers);
    ///     let (mut replica, _) = Durable::record(&path, "grotesque", 2, 0, &[0; ITEMS], sinks)?;
    ///     let block = replica.send()?;
    ///     replica.take(&block)?;
    ///     assert_eq!(replica.stopped(), None);
    ///     drop(replica);
    ///     // The restart, the send, the deliver and a work.
    ///     assert_eq!(answers.split(|&byte| byte == b'\n').count(), 4 + 1);
    /// #   let _ = std::fs::remove_file(path);
    ///     Ok(())
    /// }
    /// ```
    pub fn record(
        path: impl AsRef<Path>,
        group: &str,
        n: u32,
        own: u32,
        values: &[i32; ITEMS],
        (calls, answers): (C, A),
    ) -> Result<(Durable<Recorder<C, A>>, Reopened), Failure> {
        let restart = |bytes: &[u8], notices: &[Notice]| {
            Recorder::restart(n, own, values, bytes, notices, calls, answers)
        };
        Durable::take_up(
            &Medium::System,
            path.as_ref(),
            group,
            n,
            own,
            values,
            restart,
        )
    }

    /// As [`Recorder::values`].
    pub fn values(&mut self) -> &[i32; ITEMS] {
        self.replica.values()
    }

    /// As [`Recorder::read`].
    pub fn read(&mut self, ticket: u32, item: u32) -> Result<i32, Refusal> {
        self.replica.read(ticket, item)
    }

    /// As [`Recorder::report`].
    pub fn report(&mut self) -> Report {
        self.replica.report()
    }

    /// As [`Recorder::stopped`].
    pub fn stopped(&self) -> Option<&str> {
        self.replica.stopped()
    }

    /// As [`Recorder::left_out`].
    pub fn left_out(&self) -> u64 {
        self.replica.left_out()
    }

    /// As [`Recorder::flush`].
    pub fn flush(&mut self) {
        self.replica.flush();
    }
}

impl<R: Calls> Durable<R> {
    /// Opens a journal, with a restart from its blocks.
    fn take_up(
        medium: &Medium,
        path: &Path,
        group: &str,
        n: u32,
        own: u32,
        values: &[i32; ITEMS],
        restart: impl FnOnce(&[u8], &[Notice]) -> Result<(R, Restarted), Refusal>,
    ) -> Result<(Durable<R>, Reopened), Failure> {
        // What is refused makes no file.
        Replica::new(n, own, values)?;
        let head = Head::new(group, n, own, values)
            .map_err(|words| DiskError::new("open", path, io::Error::other(words)))?;
        let (mut journal, found) = Journal::open(medium, path, &head)?;
        let notices = journal.notices.taken.clone();
        let (replica, restarted) = journal.lend(&found, |bytes| restart(bytes, &notices))??;
        if restarted.blocks != found.tally.turn {
            // The reader of blocks is held to the restart by tests.
            let words = "a restart does not take up the blocks that are read";
            return Err(journal.error("take up", words).into());
        }
        journal.take_up(&found)?;
        let committed = found.tally.committed.iter();
        let reopened = Reopened {
            blocks: restarted.blocks,
            last: restarted.last,
            cut: found.behind,
            why: found.stop,
            mended: found.mended.len() as u32,
            committed: committed.map(|&(ticket, _)| ticket).collect(),
            tickets: replica.replica().report().tickets,
        };
        let durable = Durable {
            replica,
            journal,
            outcomes: Outcomes::new(own, found.tally, reopened.tickets),
            last: reopened.last,
        };
        Ok((durable, reopened))
    }

    /// What is committed up to the present turn, the same at all replicas of the group at this turn. Where
    /// it differs, the copies differ for good: a number is used twice, or a replica is of another group.
    ///
    /// A host sends it along with its blocks, and hands what comes to [`Durable::agrees`].
    pub fn digest(&self) -> Digest {
        let turn = self.replica.replica().memory().turn.slot;
        let digests = &self.journal.digests;
        // The journal is at most one block ahead: the own one, sent and not yet taken.
        digests.at(turn).unwrap_or_else(|| digests.last())
    }

    /// Whether another replica has committed the same: `None` where this one was not yet at that turn, or
    /// no more knows, which it does for 64 turns.
    pub fn agrees(&self, other: &Digest) -> Option<bool> {
        let own = self.journal.digests.at(other.turn)?;
        Some(own == *other)
    }

    /// What became of a ticket that was given since the last open, or that the open found committed. A ticket
    /// above [`Reopened::tickets`] that was given before the open is another transaction's now.
    ///
    /// Four bytes are kept for each ticket; [`Durable::forget`] frees them.
    pub fn outcome(&self, ticket: u32) -> Outcome {
        self.outcomes.of(ticket)
    }

    /// Forgets what became of all tickets up to this one, also of those that are still open.
    pub fn forget(&mut self, ticket: u32) {
        self.outcomes.forget(ticket);
    }

    /// The block to hand out again, until the next own one is sent: the one that was sent last, or that the
    /// open found.
    pub fn last(&self) -> Option<&[u8; BLOCK]> {
        self.last.as_ref()
    }

    /// As [`Replica::is_turn`].
    pub fn is_turn(&self) -> bool {
        self.replica.replica().is_turn()
    }

    /// As [`Replica::waits`].
    pub fn waits(&self) -> bool {
        self.replica.replica().waits()
    }

    /// The notices taken, in order, since the first open of the file. One whose call a cut has ended may be
    /// among them.
    pub fn notices(&self) -> &[Notice] {
        &self.journal.notices.taken
    }

    /// As [`Replica::out`]; all that is journaled, and then the notice, is durable.
    pub fn out(&mut self, replica: u32, slot: u32) -> Result<(), Failure> {
        self.going()?.out(replica, slot)?;
        Ok(self.journal.notice(Notice::Out { replica, slot })?)
    }

    /// As [`Replica::back`]; all that is journaled, and then the notice, is durable.
    pub fn back(&mut self, replica: u32, slot: u32) -> Result<(), Failure> {
        self.going()?.back(replica, slot)?;
        Ok(self.journal.notice(Notice::Back { replica, slot })?)
    }

    /// As [`Replica::begin`].
    pub fn begin(&mut self) -> Result<u32, Failure> {
        let ticket = self.going()?.begin()?;
        self.outcomes.begun(ticket);
        Ok(ticket)
    }

    /// As [`Replica::write`].
    pub fn write(&mut self, ticket: u32, item: u32, value: i32) -> Result<(), Failure> {
        let answer = self.going()?.write(ticket, item, value);
        self.outcomes.written(ticket, &answer);
        Ok(answer?)
    }

    /// As [`Replica::ask`].
    pub fn ask(&mut self, ticket: u32) -> Result<Asked, Failure> {
        let asked = self.going()?.ask(ticket)?;
        self.outcomes.asked(ticket, asked);
        Ok(asked)
    }

    /// As [`Replica::withdraw`].
    pub fn withdraw(&mut self, ticket: u32) -> Result<(), Failure> {
        self.going()?.withdraw(ticket)?;
        self.outcomes.withdrawn(ticket);
        Ok(())
    }

    /// As [`Replica::load`]. No journal keeps the classes: they are to be loaded after every open.
    pub fn load(&mut self, classes: &[u8]) -> Result<(), Failure> {
        Ok(self.going()?.load(classes)?)
    }

    /// As [`Replica::send`]; the block, and all that the journal has before it, is durable.
    pub fn send(&mut self) -> Result<[u8; BLOCK], Failure> {
        let block = self.going()?.send()?;
        self.journal.send(&block)?;
        self.outcomes.sent();
        self.last = Some(block);
        Ok(block)
    }

    /// As [`Replica::deliver`].
    pub fn deliver(&mut self, bytes: &[u8]) -> Result<(), Failure> {
        Ok(self.going()?.deliver(bytes)?)
    }

    /// As [`Replica::work`]; the block of the slot that it leaves is appended, and durable where the slot is out.
    pub fn work(&mut self) -> Result<Work, Failure> {
        let work = self.going()?.work()?;
        self.keep(&[work])?;
        Ok(work)
    }

    /// As [`Replica::take`]; the blocks of the slots that its steps leave are appended, in order, and durable
    /// where one of these is out.
    pub fn take(&mut self, bytes: &[u8]) -> Result<Taken, Failure> {
        let taken = self.going()?.take(bytes)?;
        self.keep(&taken.steps)?;
        Ok(taken)
    }

    /// As [`Replica::take_slot`], with its block appended as by [`Durable::take`].
    pub fn take_slot(&mut self, bytes: &[u8]) -> Result<Taken, Failure> {
        let taken = self.going()?.take_slot(bytes)?;
        self.keep(&taken.steps)?;
        Ok(taken)
    }

    fn keep(&mut self, works: &[Work]) -> Result<(), Failure> {
        works.iter().for_each(|work| self.outcomes.worked(work));
        self.follow()
    }

    /// Brings the journal to the turn.
    fn follow(&mut self) -> Result<(), Failure> {
        let memory = self.replica.replica().memory();
        Ok(self.journal.follow(memory.turn.slot, &memory.window)?)
    }

    /// The replica, while its journal has all that it needs.
    fn going(&mut self) -> Result<&mut R, Failure> {
        self.journal.going()?;
        Ok(&mut self.replica)
    }
}

#[cfg(test)]
mod tests;
