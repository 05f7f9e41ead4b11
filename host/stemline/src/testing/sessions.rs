//! The clients of a simulated group.

use std::collections::BTreeMap;

use super::Simulation;
use crate::driver::Input;
use crate::{Asked, Refusal};

/// The items that clients write: few, so that they get in each other's way.
const ITEMS_USED: u64 = 12;

/// A client with a ticket.
#[derive(Debug)]
pub(super) struct Session {
    pub member: usize,
    ticket: u32,
    client: u64,
    snapshot: u32,
    writes: BTreeMap<u32, i32>,
}

impl Session {
    /// The client goes, and lets its items go.
    pub fn leave(self, simulation: &mut Simulation) {
        if let Some(driver) = simulation.driver(self.member) {
            // Where another's writeset has ended it, that is no matter.
            let _ = driver.withdraw(self.ticket);
        }
    }
}

impl Simulation {
    /// A client of a replica asks for a whole transaction. Gives the client's number. A verdict knows its writeset
    /// by its values: they should be its number, and are made so.
    pub fn transact(&mut self, member: usize, writes: &[(u32, Option<i32>)]) -> u64 {
        self.clients += 1;
        let client = self.clients;
        let set: BTreeMap<u32, i32> = writes
            .iter()
            .map(|&(item, _)| (item, client as i32))
            .collect();
        let at = (member, self.members[member].incarnation);
        if self.members[member].driver.is_some() {
            let writes = set
                .iter()
                .map(|(&item, &value)| (item, Some(value)))
                .collect();
            self.sheet.asked(client, at, set, None);
            let tries = 1 + self.random.below(3) as u32;
            self.input(
                member,
                Input::Transact {
                    client,
                    writes,
                    tries,
                },
            );
        }
        client
    }

    /// A whole transaction with random items, now and then one that is refused.
    pub(super) fn transact_any(&mut self) {
        let members = match self.random.percent(2) {
            true => self.members.len(),
            false => self.replicas(),
        };
        let member = self.random.below(members as u64) as usize;
        let most = if self.random.percent(4) { 10 } else { 8 };
        let count = 1 + self.random.below(most);
        let bound = if self.random.percent(2) {
            200
        } else {
            ITEMS_USED
        };
        let items = (0..count).map(|_| self.random.below(bound) as u32);
        let writes: Vec<_> = items.map(|item| (item, Some(0))).collect();
        self.transact(member, &writes);
    }

    /// A client with a ticket does its next step.
    pub(super) fn step_session(&mut self) {
        let at = self.random.below(self.sessions.len() as u64 + 2) as usize;
        if at >= self.sessions.len() {
            return self.begin_session();
        }
        let session = self.sessions.swap_remove(at);
        if let Some(session) = self.step(session) {
            self.sessions.push(session);
        }
    }

    fn begin_session(&mut self) {
        let member = self.random.below(self.members.len() as u64) as usize;
        let Some(driver) = self.driver(member) else {
            return;
        };
        let snapshot = driver.digest().commits;
        let Ok(ticket) = driver.begin() else {
            return;
        };
        self.clients += 1;
        self.sessions.push(Session {
            member,
            ticket,
            client: self.clients,
            snapshot,
            writes: BTreeMap::new(),
        });
    }

    /// One call of a client; gives it back where its transaction goes on.
    fn step(&mut self, mut session: Session) -> Option<Session> {
        let Session {
            member,
            ticket,
            client,
            ..
        } = session;
        let item = self.random.below(ITEMS_USED) as u32;
        let choice = self.random.below(10);
        let incarnation = self.members[member].incarnation;
        let driver = self.members[member].driver.as_mut()?;
        let refused = match choice {
            0..=2 => match driver.read(ticket, item) {
                Ok(value) => {
                    match session.writes.get(&item) {
                        None => self.sheet.read(item, session.snapshot, value),
                        Some(&own) if value == Some(own) => {}
                        own => self
                            .sheet
                            .complain(format!("client {client} wrote {own:?} and reads {value:?}")),
                    }
                    None
                }
                Err(error) => error.refusal(),
            },
            3..=6 => match driver.write(ticket, item, Some(client as i32)) {
                Ok(()) => {
                    session.writes.insert(item, client as i32);
                    None
                }
                Err(error) => error.refusal(),
            },
            7 => {
                let _ = driver.withdraw(ticket);
                return None;
            }
            _ => {
                let asked = driver.ask(ticket, client);
                if let Ok(asked) = asked {
                    let is_read_only = asked == Asked::ReadOnly;
                    if is_read_only != session.writes.is_empty() {
                        self.sheet
                            .complain(format!("client {client} asked and got {asked:?}"));
                    }
                    let at = (member, incarnation);
                    self.sheet
                        .asked(client, at, session.writes, Some(session.snapshot));
                }
                return None;
            }
        };
        match refused {
            Some(Refusal::Stale | Refusal::NotOpen) => None,
            _ => Some(session),
        }
    }
}
