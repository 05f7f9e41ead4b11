//! The thread that owns the driver: what comes from links and clients goes in one after the other, and what the
//! driver gives goes out to them. It alone waits for the disk.
//!
//! Where the disk fails, the driver is dropped and the journal opened anew, again and again; what clients waited
//! for is then told from the journal.

mod calls;
mod opening;

use std::collections::HashMap;
use std::sync::Arc;
use std::time::{Duration, Instant};

use stemline::driver::{self, Answer, Change, Driver, Frame, Input, Output, Peer, Status};
use stemline::{Notice, ITEMS};
use tokio::runtime::Handle;
use tokio::sync::mpsc::error::TrySendError;
use tokio::sync::{broadcast, mpsc, oneshot};
use tokio::time::timeout;
use tracing::{debug, error, info, warn};

pub use self::calls::{Call, Caller};
use crate::config::Config;
use crate::links::Link;
use crate::protocol::Told;
use crate::setters::Setters;

/// Events that wait for the engine: links and clients wait with what comes behind them.
const EVENTS: usize = 256;
/// What goes in before what is due is done.
const TOGETHER: usize = 256;
/// Changes that wait for a watcher.
const CHANGES: usize = 4096;
/// How long a node that is told to end waits for the outcomes that its clients wait for.
const GRACE: Duration = Duration::from_secs(2);

/// Where a client is told what became of its transaction.
pub type Tell = mpsc::UnboundedSender<Told>;

/// What comes to the engine.
pub enum Event {
    /// A link is there.
    Up(Peer, Link),
    /// The link with this id is gone.
    Down(Peer, u64),
    /// A frame came over it.
    Frame(Peer, u64, Box<Frame>),
    /// A client's transaction.
    Set {
        /// No other has this number.
        client: u64,
        /// Items and what they are set to.
        writes: Vec<(u32, Option<i32>)>,
        /// How often it may be begun.
        tries: u32,
        /// Where it is told.
        tell: Tell,
    },
    /// A step of a client's transaction.
    Call(Caller, Call),
    /// The client of a transaction that is under way is gone.
    Gone(u64),
    /// A connection is closed.
    Left(u64),
    /// Somebody looks.
    Look(oneshot::Sender<Look>),
    /// What the membership service has said so far.
    Notices(Vec<Notice>),
    /// What the journal's blocks said of who set what.
    Read(Setters),
    /// The node is to end.
    End,
}

/// What there is to see.
#[derive(Clone)]
pub struct Look {
    /// Where the driver is.
    pub status: Status,
    /// What is committed here, by item.
    pub contents: [Option<i32>; ITEMS],
    /// Who set it last.
    pub setters: Setters,
    /// The driver's time.
    pub now: Duration,
}

/// The engine of a node.
pub struct Engine {
    config: Arc<Config>,
    runtime: Handle,
    events: mpsc::Receiver<Event>,
    sender: mpsc::Sender<Event>,
    changes: broadcast::Sender<Arc<Change>>,
    start: Instant,
    links: HashMap<Peer, Link>,
    clients: HashMap<u64, Tell>,
    /// The connections that began the transactions which are not asked yet.
    tickets: HashMap<u32, u64>,
    /// What clients wait for behind a failure of the disk, by ticket.
    unknown: Vec<(u32, Tell)>,
    setters: Setters,
    /// When it ends at the latest, once it is told to.
    ending: Option<Instant>,
}

impl Engine {
    /// With where its events are sent, and where what is committed can be watched.
    pub fn new(
        config: Arc<Config>,
        runtime: Handle,
    ) -> (Engine, mpsc::Sender<Event>, broadcast::Sender<Arc<Change>>) {
        let (sender, events) = mpsc::channel(EVENTS);
        let (changes, _) = broadcast::channel(CHANGES);
        let engine = Engine {
            config,
            runtime,
            events,
            sender: sender.clone(),
            changes: changes.clone(),
            start: Instant::now(),
            links: HashMap::new(),
            clients: HashMap::new(),
            tickets: HashMap::new(),
            unknown: Vec::new(),
            setters: Setters::default(),
            ending: None,
        };
        (engine, sender, changes)
    }

    /// Opens the journal, says whether that went well, and goes on until it is told to end.
    pub fn run(mut self, opened: oneshot::Sender<Result<(), String>>) {
        let first = self.open();
        let (words, mut driver) = match first {
            Ok(driver) => (Ok(()), Some(driver)),
            Err(words) => (Err(words), None),
        };
        let _ = opened.send(words);
        while let Some(mut open) = driver {
            driver = match self.serve(&mut open) {
                None => None,
                Some(words) => {
                    let last = self.look(&open);
                    drop(open);
                    self.reopen(last, words)
                }
            };
        }
        let left = self.clients.drain().map(|(_, tell)| tell);
        for tell in left.chain(self.unknown.drain(..).map(|(_, tell)| tell)) {
            let words = "the node ended before the outcome was known".to_string();
            let _ = tell.send(Told::Unknown { words });
        }
    }

    /// Until the node is to end, or the disk has failed: then in which words.
    fn serve(&mut self, driver: &mut Driver) -> Option<String> {
        loop {
            if let Some(words) = self.step(driver) {
                return Some(words);
            }
            if self.is_over() {
                return None;
            }
            for event in self.wait(driver.timer()) {
                self.take(driver, event);
            }
        }
    }

    /// Whether it was told to end, and nobody is waited for any more.
    fn is_over(&self) -> bool {
        self.ending
            .is_some_and(|end| self.clients.is_empty() || Instant::now() >= end)
    }

    /// What has come, by this time of the driver's at the latest.
    fn wait(&mut self, until: Option<Duration>) -> Vec<Event> {
        let until = until.map(|until| self.start + until);
        let end = [until, self.ending].into_iter().flatten().min();
        let rest = end.map(|end| end.saturating_duration_since(Instant::now()));
        let events = &mut self.events;
        let first = match rest {
            // The engine holds a sender itself: the channel never ends.
            None => self.runtime.block_on(events.recv()),
            Some(rest) => {
                let first = async { timeout(rest, events.recv()).await };
                self.runtime.block_on(first).unwrap_or_default()
            }
        };
        let more = std::iter::from_fn(|| events.try_recv().ok());
        first.into_iter().chain(more.take(TOGETHER)).collect()
    }

    fn now(&self) -> Duration {
        self.start.elapsed()
    }

    fn take(&mut self, driver: &mut Driver, event: Event) {
        let now = self.now();
        match event {
            Event::Up(..) | Event::Down(..) | Event::Frame(..) => self.carried(driver, event),
            Event::Set { tell, .. } if self.ending.is_some() => {
                let _ = tell.send(Told::refused("the node ends"));
            }
            Event::Set {
                client,
                writes,
                tries,
                tell,
            } => {
                self.clients.insert(client, tell);
                let whole = Input::Transact {
                    client,
                    writes,
                    tries,
                };
                driver.handle(now, whole);
            }
            Event::Gone(client) => {
                self.clients.remove(&client);
                driver.handle(now, Input::Gone { client });
            }
            Event::Call(caller, call) => self.call(driver, caller, call),
            Event::Left(connection) => self.leave(driver, connection),
            Event::Look(answer) => {
                let _ = answer.send(self.look(driver));
            }
            Event::Notices(said) => said
                .into_iter()
                .for_each(|notice| driver.handle(now, Input::Notice(notice))),
            Event::Read(setters) => self.setters.join(&setters),
            Event::End => self.end(),
        }
    }

    /// What comes from a link. What comes from one that is not the peer's any more is passed over.
    fn carried(&mut self, driver: &mut Driver, event: Event) {
        let now = self.now();
        match event {
            Event::Up(peer, link) => {
                // It is linked anew, and the old link may not have noticed yet that it is gone.
                if self.links.insert(peer, link).is_some() {
                    driver.handle(now, Input::Down(peer));
                }
                driver.handle(now, Input::Up(peer));
            }
            Event::Down(peer, id) if self.is_link(peer, id) => {
                self.links.remove(&peer);
                driver.handle(now, Input::Down(peer));
            }
            Event::Frame(from, id, frame) if self.is_link(from, id) => {
                let frame = *frame;
                driver.handle(now, Input::Frame { from, frame });
            }
            _ => {}
        }
    }

    fn end(&mut self) {
        self.ending.get_or_insert(Instant::now() + GRACE);
    }

    /// Whether that is still the link to this peer.
    fn is_link(&self, peer: Peer, id: u64) -> bool {
        self.links.get(&peer).is_some_and(|link| link.id == id)
    }

    fn look(&self, driver: &Driver) -> Look {
        Look {
            status: driver.status(),
            contents: driver.contents(),
            setters: self.setters.clone(),
            now: self.now(),
        }
    }

    /// Does what is due. Where the disk fails, says so in words.
    fn step(&mut self, driver: &mut Driver) -> Option<String> {
        let outputs = driver.flush(self.now());
        let failed = outputs.iter().find_map(|output| match output {
            Output::Say(driver::Event::Disk(words)) => Some(words.clone()),
            _ => None,
        });
        for output in outputs {
            self.put(output, failed.is_some());
        }
        failed
    }

    fn put(&mut self, output: Output, failed: bool) {
        match output {
            Output::Send { to, bytes } => self.send(to, bytes),
            Output::Tell { client, answer } => {
                if let Some(tell) = self.clients.remove(&client) {
                    self.tell(tell, answer, failed);
                }
            }
            Output::Waits { client, refusal } => {
                if let Some(tell) = self.clients.get(&client) {
                    let _ = tell.send(Told::waits_for(refusal));
                }
            }
            Output::Committed(change) => {
                self.setters.take(&change);
                // Nobody may be watching.
                let _ = self.changes.send(Arc::new(change));
            }
            Output::Close(peer) => {
                if let Some(link) = self.links.get_mut(&peer) {
                    link.out = None;
                }
            }
            // That it is opened anew is said with it.
            Output::Say(driver::Event::Disk(_)) => {}
            Output::Say(event) if event.is_fatal() => error!("{event}"),
            Output::Say(event) => match event {
                driver::Event::Asked { .. }
                | driver::Event::Given { .. }
                | driver::Event::Noticed { .. } => info!("{event}"),
                _ => warn!("{event}"),
            },
        }
    }

    /// A link that is slow or gone loses it: what counts is sent again.
    fn send(&self, to: Peer, bytes: Arc<[u8]>) {
        let out = self.links.get(&to).and_then(|link| link.out.as_ref());
        if let Some(Err(TrySendError::Full(_))) = out.map(|out| out.try_send(bytes)) {
            debug!("{to} is slow, a frame to it is dropped");
        }
    }

    fn tell(&mut self, tell: Tell, answer: Answer, failed: bool) {
        let told = match answer {
            Answer::Committed {
                ticket,
                place,
                tries,
            } => Told::Committed {
                ticket,
                place,
                tries,
            },
            Answer::ReadOnly { ticket } => Told::Readonly { ticket },
            Answer::Aborted { tries, .. } => Told::Aborted { tries },
            Answer::Refused(error) => Told::from(error),
            Answer::Unknown { ticket } if failed => {
                let words = "the disk failed; the journal, once it is open, says what became of it";
                let _ = tell.send(Told::waits(words));
                self.unknown.push((ticket, tell));
                return;
            }
            Answer::Unknown { .. } => Told::Unknown {
                words: "the node stopped before the outcome was known".to_string(),
            },
        };
        // A client that is gone is told nothing.
        let _ = tell.send(told);
    }
}
