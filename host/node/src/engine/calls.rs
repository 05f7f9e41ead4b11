//! Transactions by steps: a client begins, reads and writes, and asks or withdraws, over one connection.

use stemline::driver::{CallError, Driver};
use stemline::Refusal;

use super::{Engine, Tell};
use crate::protocol::Told;

/// One step of a client.
#[derive(Clone, Copy, Debug)]
pub enum Call {
    /// Begins a transaction.
    Begin,
    /// Reads an item.
    Read {
        /// Of this transaction.
        ticket: u32,
        /// The item.
        item: u32,
    },
    /// Writes an item.
    Write {
        /// Of this transaction.
        ticket: u32,
        /// The item.
        item: u32,
        /// What it is set to.
        content: Option<i32>,
    },
    /// Asks for the commit; what became of it is told later.
    Ask {
        /// Of this transaction.
        ticket: u32,
    },
    /// Ends it without a trace.
    Withdraw {
        /// This transaction.
        ticket: u32,
    },
}

/// Who calls.
pub struct Caller {
    /// The connection, to which its transactions belong.
    pub connection: u64,
    /// The number of this call, which no other has.
    pub client: u64,
    /// Where it is told.
    pub tell: Tell,
}

impl Engine {
    /// Does a step. A transaction belongs to the connection that began it.
    pub(super) fn call(&mut self, driver: &mut Driver, caller: Caller, call: Call) {
        let done = match call {
            Call::Begin => driver.begin().map(|ticket| {
                self.tickets.insert(ticket, caller.connection);
                Told::Begun { ticket }
            }),
            Call::Read { ticket, item } => self
                .of(&caller, ticket)
                .and_then(|()| driver.read(ticket, item))
                .map(|value| Told::Read { value }),
            Call::Write {
                ticket,
                item,
                content,
            } => self
                .of(&caller, ticket)
                .and_then(|()| driver.write(ticket, item, content))
                .map(|()| Told::Written),
            Call::Ask { ticket } => {
                let asked = self.of(&caller, ticket);
                match asked.and_then(|()| driver.ask(ticket, caller.client)) {
                    Ok(_) => {
                        self.tickets.remove(&ticket);
                        self.clients.insert(caller.client, caller.tell);
                        return;
                    }
                    Err(error) => Err(error),
                }
            }
            Call::Withdraw { ticket } => self
                .of(&caller, ticket)
                .and_then(|()| driver.withdraw(ticket))
                .map(|()| {
                    self.tickets.remove(&ticket);
                    Told::Withdrawn
                }),
        };
        let told = done.unwrap_or_else(|error| self.refused(caller.connection, call, error));
        let _ = caller.tell.send(told);
    }

    /// Refused by 3 where the transaction is not this connection's.
    fn of(&self, caller: &Caller, ticket: u32) -> Result<(), CallError> {
        match self.tickets.get(&ticket) == Some(&caller.connection) {
            true => Ok(()),
            false => Err(Refusal::NotOpen.into()),
        }
    }

    /// A transaction that was the caller's and is not open any more was aborted.
    fn refused(&mut self, connection: u64, call: Call, error: CallError) -> Told {
        let (Call::Read { ticket, .. }
        | Call::Write { ticket, .. }
        | Call::Ask { ticket }
        | Call::Withdraw { ticket }) = call
        else {
            return Told::from(error);
        };
        let ended = matches!(error.refusal(), Some(Refusal::NotOpen | Refusal::Stale));
        match ended && self.tickets.get(&ticket) == Some(&connection) {
            true => {
                self.tickets.remove(&ticket);
                Told::Aborted { tries: 1 }
            }
            false => Told::from(error),
        }
    }

    /// A connection is gone, and takes along what it has open.
    pub(super) fn leave(&mut self, driver: &mut Driver, connection: u64) {
        let left = self.tickets.iter().filter(|(_, &of)| of == connection);
        let left: Vec<u32> = left.map(|(&ticket, _)| ticket).collect();
        for ticket in left {
            self.tickets.remove(&ticket);
            // It may have been aborted meanwhile.
            let _ = driver.withdraw(ticket);
        }
    }
}
