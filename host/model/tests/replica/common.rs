//! What the tests share: replicas, and what is done with them again and again.

pub use model::drive::start_values;
use model::replica::Replica;
pub use model::samples::{block_of, Writes};

/// A replica of `n` with values that all differ.
pub fn make(n: u32, own: u32) -> Replica {
    Replica::make(n, own, &start_values()).unwrap()
}

/// A station beside `n` replicas, with the same values.
pub fn station(n: u32) -> Replica {
    Replica::station(n, &start_values()).unwrap()
}

/// Delivers a block of the turn and works it off. It gives the tickets that were aborted.
pub fn take(replica: &mut Replica, block: &[u8]) -> Vec<u32> {
    replica.deliver(block).unwrap();
    let mut aborted = Vec::new();
    loop {
        let work = replica.work().unwrap();
        aborted.extend(work.aborted);
        if work.moved {
            return aborted;
        }
    }
}

/// Lets blocks without records pass until the turn is `slot`, own slots among them.
pub fn pass_to(replica: &mut Replica, n: u32, own: u32, slot: u32) {
    for s in replica.report().turn..slot {
        let block = if s % n == own {
            replica.send().unwrap()
        } else {
            block_of(n, s, &[])
        };
        take(replica, &block);
    }
}

/// Begins a transaction with these writes and asks for its commit.
pub fn ask(replica: &mut Replica, writes: &[(u32, i32)]) -> u32 {
    let ticket = replica.begin().unwrap();
    for &(item, value) in writes {
        replica.write(ticket, item, value).unwrap();
    }
    replica.ask(ticket).unwrap();
    ticket
}
