//! A designer who sets measures at one node for as long as a trial lasts, and keeps what was told.

use std::path::{Path, PathBuf};
use std::sync::atomic::{AtomicBool, AtomicUsize, Ordering};
use std::sync::Arc;
use std::thread::{self, JoinHandle};
use std::time::Duration;

use model::samples::Random;

use crate::client::{Client, Told};

/// So many values a worker has of its own.
const VALUES: i32 = 20_000_000;

/// Measures that workers set: few enough that they meet.
const ITEMS: usize = 24;

/// A transaction of a worker. All its writes have one value, and no other transaction of the trial has it.
#[derive(Clone, Debug)]
pub struct Asked {
    /// The node that it was asked at.
    pub node: usize,
    /// What it wrote: items and values, by rising items.
    pub writes: Vec<(u32, i32)>,
    /// What was told.
    pub told: Told,
}

/// A thread that sets measures.
pub struct Worker {
    flags: Arc<Flags>,
    thread: JoinHandle<Vec<Asked>>,
}

#[derive(Default)]
struct Flags {
    ended: AtomicBool,
    committed: AtomicUsize,
}

/// What a worker does.
struct Work {
    /// The worker's number in the trial.
    number: i32,
    node: usize,
    socket: PathBuf,
    random: Random,
    flags: Arc<Flags>,
    asked: Vec<Asked>,
}

impl Worker {
    /// Starts one at the socket of a node. The numbers of a trial's workers differ.
    pub fn start(number: usize, node: usize, socket: &Path, seed: u64) -> Worker {
        let flags = Arc::new(Flags::default());
        let work = Work {
            number: number as i32,
            node,
            socket: socket.to_path_buf(),
            random: Random::new(seed ^ ((number as u64) << 32)),
            flags: flags.clone(),
            asked: Vec::new(),
        };
        let thread = thread::spawn(move || work.all());
        Worker { flags, thread }
    }

    /// How many of its transactions were told to be committed.
    pub fn committed(&self) -> usize {
        self.flags.committed.load(Ordering::Relaxed)
    }

    /// Lets it end what it is at, and gives all that it asked.
    pub fn end(self) -> Vec<Asked> {
        self.flags.ended.store(true, Ordering::Relaxed);
        self.thread.join().expect("a worker does not panic")
    }
}

impl Work {
    fn all(mut self) -> Vec<Asked> {
        while !self.flags.ended.load(Ordering::Relaxed) {
            match Client::connect(&self.socket, Duration::from_secs(60)) {
                Ok(client) => self.at(client),
                Err(_) => thread::sleep(Duration::from_millis(20)),
            }
        }
        self.asked
    }

    /// Sets measures over one connection, until that is gone.
    fn at(&mut self, mut client: Client) {
        while !self.flags.ended.load(Ordering::Relaxed) {
            let writes = self.writes();
            let tries = self.random.pick(&[0, 1, 1, 5, 50]);
            let told = match tries {
                0 => client
                    .set_by_steps(&writes, Duration::from_millis(self.random.below(50) as u64)),
                _ => client.set(&writes, tries),
            };
            let pause = match told {
                Told::Committed(..) | Told::Aborted => self.random.below(30),
                Told::Refused(_) | Told::Unknown(_) => 30,
            };
            if let Told::Committed(..) = told {
                self.flags.committed.fetch_add(1, Ordering::Relaxed);
            }
            let gone = matches!(told, Told::Unknown(_));
            self.asked.push(Asked {
                node: self.node,
                writes,
                told,
            });
            thread::sleep(Duration::from_millis(pause as u64));
            if gone {
                return;
            }
        }
    }

    /// One to four measures, all set to the next value of this worker.
    fn writes(&mut self) -> Vec<(u32, i32)> {
        let value = self.number * VALUES + self.asked.len() as i32 + 1;
        let first = self.random.below(ITEMS);
        let count = 1 + self.random.below(4);
        let step = 1 + self.random.below(5);
        // Never more than once round, so that no item comes twice.
        let item = |k| ((first + k * step) % ITEMS) as u32;
        let mut writes: Vec<(u32, i32)> = (0..count).map(|k| (item(k), value)).collect();
        writes.sort_unstable();
        writes
    }
}
