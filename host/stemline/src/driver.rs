//! What a host must do, as a state machine without sockets, threads and clock.
//!
//! A [`Driver`] is a replica with its journal, or a station, with the duties of a host around it: it sends when it
//! is the turn, hands blocks out again, compares digests, asks for what it lacks, gives to others, and tells clients
//! how their transactions end. The host has the links, the clock and the clients. It hands in what has come
//! ([`Driver::handle`]), then does what [`Driver::flush`] says, and calls that again when [`Driver::timer`] is due:
//!
//! ```
//! use std::time::Duration;
//! use stemline::driver::{Answer, Driver, Frames, Group, Input, Output, Peer, Waits};
//! use stemline::ITEMS;
//!
//! fn main() -> Result<(), Box<dyn std::error::Error>> {
//!     let group = Group::new("grotesque", 2, &[0; ITEMS])?;
//!     let folder = std::env::temp_dir().join(format!("stemline-driver-{}", std::process::id()));
//!     std::fs::create_dir_all(&folder)?;
//!     let mut drivers = Vec::new();
//!     for own in 0..2 {
//!         let path = folder.join(format!("{own}.journal"));
//!         let (driver, _) = Driver::open(path, &group, own, Waits::default(), &[])?;
//!         drivers.push(driver);
//!     }
//!     let mut now = Duration::ZERO;
//!     drivers[0].handle(now, Input::Up(Peer::Replica(1)));
//!     drivers[1].handle(now, Input::Up(Peer::Replica(0)));
//!     // A designer at replica 1 sets item 5.
//!     let writes = vec![(5, Some(40))];
//!     drivers[1].handle(now, Input::Transact { client: 7, writes, tries: 3 });
//!     let mut told = None;
//!     while told.is_none() {
//!         for own in 0..2 {
//!             for output in drivers[own].flush(now) {
//!                 match output {
//!                     // A link would carry these bytes, and the other end cut them into frames.
//!                     Output::Send { to: Peer::Replica(k), bytes } => {
//!                         let mut frames = Frames::new();
//!                         frames.push(&bytes);
//!                         while let Some(frame) = frames.next() {
//!                             let (from, frame) = (Peer::Replica(own as u32), frame?);
//!                             drivers[k as usize].handle(now, Input::Frame { from, frame });
//!                         }
//!                     }
//!                     Output::Tell { client: 7, answer } => told = Some(answer),
//!                     _ => {}
//!                 }
//!             }
//!         }
//!         now += Duration::from_millis(10);
//!     }
//!     assert_eq!(told, Some(Answer::Committed { ticket: 1, place: 1, tries: 1 }));
//!     assert_eq!(drivers[1].content(5)?, Some(40));
//! #   drop(drivers);
//! #   std::fs::remove_dir_all(folder)?;
//!     Ok(())
//! }
//! ```
//!
//! **What is promised** rests on the premises in `host/README.md`: the host says truly who is at the other end of a
//! link, one process has a number and its journal, and the membership service does what it must. A block is taken
//! from the link of its sender alone, or from a peer that was asked for its blocks.
//!
//! **Where the disk fails**, or a peer has committed something else, the driver stops: it hands nothing out any more,
//! says so ([`Event::is_fatal`]), and every call is refused. After a failed disk it is dropped and opened anew; where
//! copies differ, people are needed.

mod clients;
pub mod codec;
mod giving;
mod group;
mod links;
mod member;
mod notices;
mod turn;
mod words;

use std::collections::BTreeMap;
use std::path::Path;
use std::time::Duration;

use self::clients::Clients;
pub use self::codec::{Body, Frame, FrameError, Frames, FRAME};
use self::giving::Asking;
pub use self::group::{Group, Peer, PeerStatus, Status, Waits};
use self::links::Link;
use self::member::{Fed, Member};
pub use self::words::{Answer, CallError, Change, Event, Input, Output};
use crate::disk::Medium;
use crate::{owner, Block, Digest, Durable, Failure, Notice, Refusal, Reopened, BLOCK, SLOTS};

/// A replica with its journal, or a station, and what a host must do with it: see [the module](self).
#[derive(Debug)]
pub struct Driver {
    group: Group,
    mark: u64,
    own: Option<u32>,
    waits: Waits,
    member: Member,
    links: BTreeMap<Peer, Link>,
    clients: Clients,
    /// Blocks that came too early, by their slots.
    held: BTreeMap<u32, [u8; BLOCK]>,
    /// Notices that can be taken only later.
    pending: Vec<Notice>,
    opening: bool,
    asking: Option<Asking>,
    /// Nobody is asked for blocks before.
    ask_after: Duration,
    outputs: Vec<Output>,
    stopped: Option<String>,
    now: Duration,
    /// When the turn moved last, and when the last own block was handed out again.
    moved: Duration,
    said: Duration,
    /// Before this slot no empty block is waited with.
    hurry: u32,
    /// The own slot for which the others were woken.
    woken: Option<u32>,
    /// The slot of the last own block.
    last_slot: Option<u32>,
    /// What was told by [`Output::Committed`].
    followed: Digest,
}

impl Driver {
    /// Opens replica `own` of a group from its journal, as [`Durable::open`], with the notices that the membership
    /// service has said so far, in its order; those that it took before are passed over. Where one of them cannot be
    /// taken, the driver has stopped.
    ///
    /// Transactions of before are gone; of their tickets [`Reopened::committed`] has those that are committed. What the
    /// journal has is not told again by [`Output::Committed`].
    pub fn open(
        path: impl AsRef<Path>,
        group: &Group,
        own: u32,
        waits: Waits,
        notices: &[Notice],
    ) -> Result<(Driver, Reopened), Failure> {
        Driver::open_at(&Medium::System, path.as_ref(), group, own, waits, notices)
    }

    pub(crate) fn open_at(
        medium: &Medium,
        path: &Path,
        group: &Group,
        own: u32,
        waits: Waits,
        notices: &[Notice],
    ) -> Result<(Driver, Reopened), Failure> {
        let (name, n, values) = (group.name(), group.replicas(), group.values());
        let (durable, reopened) = Durable::open_at(medium, path, name, n, own, values)?;
        let member = Member::Replica(Box::new(durable));
        let mut driver = Driver::new(group, Some(own), waits, member);
        let last = reopened.last.as_ref().map(|last| Block::read(last));
        driver.last_slot = last.transpose()?.map(|last| last.slot());
        driver.take_up(notices);
        Ok((driver, reopened))
    }

    /// A station of a group, made anew, with the notices that were said so far. It asks replicas for the blocks from
    /// slot 0 on.
    pub fn station(group: &Group, waits: Waits, notices: &[Notice]) -> Result<Driver, Refusal> {
        let member = Member::Station(Box::new(Fed::new(group)?));
        let mut driver = Driver::new(group, None, waits, member);
        driver.take_up(notices);
        Ok(driver)
    }

    fn new(group: &Group, own: Option<u32>, waits: Waits, member: Member) -> Driver {
        let others = (0..group.replicas()).filter(|&k| Some(k) != own);
        let links = others.map(|k| (Peer::Replica(k), Link::default()));
        Driver {
            mark: group.mark(),
            group: group.clone(),
            own,
            waits,
            links: links.collect(),
            clients: Clients::default(),
            held: BTreeMap::new(),
            pending: Vec::new(),
            opening: false,
            asking: None,
            ask_after: Duration::ZERO,
            outputs: Vec::new(),
            stopped: None,
            now: Duration::ZERO,
            moved: Duration::ZERO,
            said: Duration::ZERO,
            hurry: 0,
            woken: None,
            last_slot: None,
            followed: member.digest(),
            member,
        }
    }

    /// Takes the notices that were said before, and works until nothing waits.
    fn take_up(&mut self, notices: &[Notice]) {
        let taken = self.member.notices();
        let new = notices.iter().filter(|notice| !taken.contains(notice));
        self.pending = new.copied().collect();
        self.opening = true;
        let settled = self.settle();
        self.opening = false;
        self.stop_at(settled);
    }

    /// Takes one input at a time since any fixed moment, which never goes back. What it leads to comes by
    /// [`Driver::flush`]: all that has come together is handed in, then flushed once.
    pub fn handle(&mut self, now: Duration, input: Input) {
        self.now = self.now.max(now);
        if let Input::Transact {
            client,
            writes,
            tries,
        } = &input
        {
            return self.transact(*client, writes, *tries);
        }
        if self.stopped.is_some() {
            return;
        }
        let done = match input {
            Input::Up(peer) => {
                self.link_up(peer);
                Ok(())
            }
            Input::Down(peer) => {
                self.link_down(peer);
                Ok(())
            }
            Input::Frame { from, frame } => self.frame(from, frame),
            Input::Notice(notice) => self.said(notice),
            Input::Gone { client } => {
                self.gone(client);
                Ok(())
            }
            Input::Transact { .. } => Ok(()),
        };
        self.stop_at(done);
    }

    /// Does what is due at this time, and gives what the host is to do, in order. One sync makes durable all that
    /// came together: it may take as long as the disk takes.
    pub fn flush(&mut self, now: Duration) -> Vec<Output> {
        self.now = self.now.max(now);
        if self.stopped.is_none() {
            let done = self.due();
            self.stop_at(done);
        }
        std::mem::take(&mut self.outputs)
    }

    fn due(&mut self) -> Result<(), Event> {
        self.settle()?;
        self.tell_ended();
        self.start()?;
        if self.is_due() {
            self.send()?;
            self.tell_ended();
            self.start()?;
        }
        self.wake();
        self.resend();
        self.ask_if_behind();
        self.forget();
        Ok(())
    }

    fn stop_at(&mut self, done: Result<(), Event>) {
        if let Err(event) = done {
            self.stop(event);
        }
    }

    /// Stops for good. What was to be sent is not: it goes out after the next open, if it is durable.
    fn stop(&mut self, event: Event) {
        if self.stopped.is_some() {
            return;
        }
        let words = event.to_string();
        self.outputs
            .retain(|output| !matches!(output, Output::Send { .. }));
        self.tell_stopped(&words);
        self.outputs.push(Output::Say(event));
        self.stopped = Some(words);
    }

    /// When [`Driver::flush`] is to be called at the latest, if nothing comes before. `None` where it has stopped.
    pub fn timer(&self) -> Option<Duration> {
        if self.stopped.is_some() {
            return None;
        }
        let mut at = self.said + self.waits.resend;
        if self.member.is_turn() {
            at = at.min(match self.is_busy() {
                true => self.now,
                false => self.moved + self.waits.idle,
            });
        }
        if self.best() > self.member.turn() {
            at = at.min(self.ask_at());
        }
        Some(at.max(self.now))
    }

    /// Waits as long as this from now on.
    pub fn set_waits(&mut self, waits: Waits) {
        self.waits = waits;
    }

    /// What is committed here, by the present turn.
    pub fn digest(&self) -> Digest {
        self.member.digest()
    }

    /// The notices taken, in order.
    pub fn notices(&self) -> &[Notice] {
        self.member.notices()
    }

    /// Why it has stopped, in words.
    pub fn stopped(&self) -> Option<&str> {
        self.stopped.as_deref()
    }

    /// Its group.
    pub fn group(&self) -> &Group {
        &self.group
    }

    /// Its own number; `None` at a station.
    pub fn own(&self) -> Option<u32> {
        self.own
    }

    /// Where it is, to be shown.
    pub fn status(&self) -> Status {
        let memory = self.member.memory();
        let turn = memory.turn.slot;
        let is_out = |peer| match peer {
            Peer::Replica(k) => {
                let outage = memory
                    .group
                    .from
                    .get(k as usize)
                    .zip(memory.group.until.get(k as usize));
                outage.is_some_and(|(&from, &until)| from <= turn && turn < until)
            }
            Peer::Station(_) => false,
        };
        let peers = self.links.iter().map(|(&peer, link)| PeerStatus {
            peer,
            up: link.up,
            digest: link.digest,
            heard: link.heard,
            out: is_out(peer),
        });
        Status {
            own: self.own,
            digest: self.member.digest(),
            report: self.member.report(),
            waits_for: (turn < SLOTS).then(|| owner(turn, self.group.replicas())),
            peers: peers.collect(),
            notices: self.member.notices().to_vec(),
            pending: self.pending.clone(),
            clients: self.clients.count(),
            stopped: self.stopped.clone(),
        }
    }
}

/// What ends a driver, of a call that should not have failed.
impl From<Failure> for Event {
    fn from(failure: Failure) -> Event {
        match failure {
            Failure::Disk(error) => Event::Disk(error.to_string()),
            Failure::Refused(refusal) => Event::Broken(refusal),
        }
    }
}

#[cfg(test)]
mod tests;
