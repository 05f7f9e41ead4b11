//! Opening the journal, at the start and behind a failure of the disk.

use std::path::Path;
use std::thread;
use std::time::Duration;

use stemline::driver::{Driver, Input};
use stemline::{Reopened, Stop};
use tracing::{error, info, warn};

use super::{Engine, Event, Look};
use crate::protocol::Told;
use crate::setters;

/// How long it waits before it opens the journal anew, first and at most.
const FIRST_WAIT: Duration = Duration::from_millis(500);
const LAST_WAIT: Duration = Duration::from_secs(30);

impl Engine {
    /// The driver, from its journal or as a station, with the links that are there.
    pub(super) fn open(&mut self) -> Result<Driver, String> {
        let config = self.config.clone();
        let notices = config.said()?;
        let mut driver = match (&config.journal, config.own) {
            (Some(path), Some(own)) => {
                let opened = Driver::open(path, &config.group, own, config.waits, &notices);
                let (driver, reopened) = opened.map_err(|failure| failure.to_string())?;
                self.opened(path, own, &reopened);
                driver
            }
            _ => Driver::station(&config.group, config.waits, &notices)
                .map_err(|refusal| refusal.to_string())?,
        };
        let now = self.now();
        for &peer in self.links.keys() {
            driver.handle(now, Input::Up(peer));
        }
        Ok(driver)
    }

    /// Says what the open found, and tells who waited for it.
    fn opened(&mut self, path: &Path, own: u32, reopened: &Reopened) {
        let (name, blocks) = (path.display(), reopened.blocks);
        info!("the journal {name} is open, with {blocks} blocks");
        if reopened.mended > 0 {
            let mended = reopened.mended;
            warn!("{mended} blocks of it were damaged, and are put back from its copies");
        }
        if reopened.why != Stop::End {
            let (cut, why) = (reopened.cut, reopened.why);
            warn!("{cut} bytes behind its blocks are cut off: {why}");
        }
        if self.unknown.is_empty() {
            return self.read_setters(path, blocks);
        }
        let tickets: Vec<u32> = self.unknown.iter().map(|&(ticket, _)| ticket).collect();
        let n = self.config.group.replicas();
        let read = setters::read(path, n, blocks, own, &tickets);
        for (ticket, tell) in self.unknown.drain(..) {
            let place = read.as_ref().map(|(_, places)| places.get(&ticket));
            let told = match place {
                Ok(Some(&place)) => Told::Committed {
                    ticket,
                    place,
                    tries: 1,
                },
                Ok(None) => {
                    Told::refused("the disk failed before it was sent: it is not committed")
                }
                Err(error) => Told::Unknown {
                    words: format!("{name} cannot be read: {error}"),
                },
            };
            let _ = tell.send(told);
        }
        if let Ok((setters, _)) = read {
            self.setters.join(&setters);
        }
    }

    /// Reads who set what, beside the engine: a journal may have millions of blocks.
    fn read_setters(&self, path: &Path, blocks: u32) {
        let (path, sender) = (path.to_path_buf(), self.sender.clone());
        let n = self.config.group.replicas();
        thread::spawn(move || match setters::read(&path, n, blocks, 0, &[]) {
            Ok((setters, _)) => {
                // The engine may have ended meanwhile.
                let _ = sender.blocking_send(Event::Read(setters));
            }
            Err(error) => warn!("who set what is not known: {}: {error}", path.display()),
        });
    }

    /// Opens the journal anew until it is open, or the node is to end.
    pub(super) fn reopen(&mut self, mut last: Look, mut words: String) -> Option<Driver> {
        // What was not asked is gone, and its tickets are given again.
        self.tickets.clear();
        let mut wait = FIRST_WAIT;
        loop {
            error!(
                "{words}; the journal is opened anew in {} ms",
                wait.as_millis()
            );
            last.status.stopped = Some(words);
            if !self.rest(wait, &last) {
                return None;
            }
            match self.open() {
                Ok(driver) => return Some(driver),
                Err(again) => words = again,
            }
            wait = LAST_WAIT.min(2 * wait);
        }
    }

    /// Waits with no driver. False where the node is to end.
    fn rest(&mut self, wait: Duration, last: &Look) -> bool {
        let until = self.now() + wait;
        while self.now() < until && self.ending.is_none() {
            for event in self.wait(Some(until)) {
                self.turn_away(event, last);
            }
        }
        self.ending.is_none()
    }

    fn turn_away(&mut self, event: Event, last: &Look) {
        let stopped = || {
            let words = last.status.stopped.as_deref().unwrap_or_default();
            Told::refused(format!("the node has stopped: {words}"))
        };
        match event {
            Event::Up(peer, link) => {
                self.links.insert(peer, link);
            }
            Event::Down(peer, id) if self.is_link(peer, id) => {
                self.links.remove(&peer);
            }
            Event::Call(caller, _) => {
                let _ = caller.tell.send(stopped());
            }
            // The driver takes the file's notices when it is opened, and blocks are sent again.
            Event::Down(..) | Event::Frame(..) | Event::Notices(_) => {}
            Event::Gone(_) | Event::Left(_) => {}
            Event::Set { tell, .. } => {
                let _ = tell.send(stopped());
            }
            Event::Look(answer) => {
                let _ = answer.send(last.clone());
            }
            Event::Read(setters) => self.setters.join(&setters),
            Event::End => self.end(),
        }
    }
}
