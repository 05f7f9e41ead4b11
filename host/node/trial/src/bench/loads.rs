//! The loads of the papers' table: transactions that come at a rate, last a tenth of a second, and meet.
//!
//! As there: three rates for the whole group, six connections at each replica, each transaction an update and a
//! reading with a pause between, none or eight tenths of them reading alone. An engine has 128 items and a writeset
//! eight of them, so the writesets have 1.7 items on average: two transactions meet as often as 15 of 10,000 do.

use std::collections::VecDeque;
use std::sync::{Arc, Condvar, Mutex};
use std::thread::{self, sleep, JoinHandle};
use std::time::{Duration, Instant};

use model::samples::Random;

use super::store::{Designer, Running, Setting, Step};
use super::Times;

/// Connections at each replica.
const CONNECTIONS: usize = 6;
/// No transaction is shorter.
const LENGTH: Duration = Duration::from_millis(100);
/// Items of the store.
const ITEMS: usize = 128;

/// A load.
#[derive(Clone, Copy)]
pub struct Load {
    /// Transactions a second, over the whole group.
    pub rate: f64,
    /// How many of a hundred only read.
    pub reading: usize,
    /// How long it lasts.
    pub long: Duration,
}

/// What a load came to.
#[derive(Default)]
pub struct Done {
    /// Of those with writes that were committed: from begin to told outcome.
    pub committed: Times,
    /// Of those that were aborted.
    pub aborted: Times,
    /// All that ended, each second.
    pub rate: f64,
}

/// How one transaction ended.
struct Ended {
    step: Step,
    wrote: bool,
    took: Duration,
}

/// A replica's transactions that wait for a connection.
#[derive(Default)]
struct Queue {
    waiting: Mutex<(VecDeque<u64>, bool)>,
    more: Condvar,
}

impl Queue {
    fn put(&self, seed: u64) {
        self.waiting
            .lock()
            .expect("no connection panics")
            .0
            .push_back(seed);
        self.more.notify_one();
    }

    /// The next one; none where the load is over.
    fn take(&self) -> Option<u64> {
        let waiting = self.waiting.lock().expect("no connection panics");
        let idle = |(queue, over): &mut (VecDeque<u64>, bool)| queue.is_empty() && !*over;
        let mut waiting = self
            .more
            .wait_while(waiting, idle)
            .expect("no connection panics");
        match waiting.1 {
            true => None,
            false => waiting.0.pop_front(),
        }
    }

    fn end(&self) {
        self.waiting.lock().expect("no connection panics").1 = true;
        self.more.notify_all();
    }
}

/// Puts a load on a group.
pub fn measure(setting: &Setting, load: Load, seed: u64) -> Result<Done, String> {
    let running = Running::start(setting)?;
    let queues: Vec<Arc<Queue>> = (0..setting.replicas).map(|_| Arc::default()).collect();
    let mut threads = Vec::new();
    for k in 0..setting.replicas * CONNECTIONS {
        let place = k % setting.replicas;
        let (designer, queue) = (running.designer(place)?, Arc::clone(&queues[place]));
        threads.push(thread::spawn(move || {
            connection(designer, &queue, load.reading)
        }));
    }
    arrive(&queues, load, seed);
    queues.iter().for_each(|queue| queue.end());
    summed(threads, load.long)
}

/// Lets transactions come at random moments, each at a random replica.
fn arrive(queues: &[Arc<Queue>], load: Load, seed: u64) {
    let mut random = Random::new(seed);
    let began = Instant::now();
    let mut at = Duration::ZERO;
    loop {
        let part = (random.below(1 << 30) + 1) as f64 / (1u64 << 30) as f64;
        at += Duration::from_secs_f64(-part.ln() / load.rate);
        if at > load.long {
            sleep(load.long.saturating_sub(began.elapsed()));
            return;
        }
        sleep(at.saturating_sub(began.elapsed()));
        queues[random.below(queues.len())].put(random.bits());
    }
}

fn connection(
    mut designer: Box<dyn Designer>,
    queue: &Queue,
    reading: usize,
) -> Result<Vec<Ended>, String> {
    let mut all = Vec::new();
    while let Some(seed) = queue.take() {
        let mut random = Random::new(seed);
        let wrote = random.below(100) >= reading;
        let began = Instant::now();
        let step = transaction(designer.as_mut(), &mut random, wrote, began)?;
        all.push(Ended {
            step,
            wrote,
            took: began.elapsed(),
        });
    }
    Ok(all)
}

/// An update, or a reading; a pause; a reading; and the end.
fn transaction(
    designer: &mut dyn Designer,
    random: &mut Random,
    wrote: bool,
    began: Instant,
) -> Result<Step, String> {
    designer.begin()?;
    for item in items(random) {
        let step = match wrote {
            true => designer.write(item, random.bits() as i32)?,
            false => designer.read(item)?,
        };
        if step == Step::Aborted {
            return Ok(step);
        }
    }
    sleep(LENGTH.saturating_sub(began.elapsed()));
    for item in items(random) {
        if designer.read(item)? == Step::Aborted {
            return Ok(Step::Aborted);
        }
    }
    designer.ask()
}

/// One item or two, rising, so that no two transactions wait for each other.
fn items(random: &mut Random) -> Vec<u32> {
    let count = if random.below(10) < 7 { 2 } else { 1 };
    let first = random.below(ITEMS);
    let mut items = vec![first, (first + 1 + random.below(ITEMS - 1)) % ITEMS];
    items.truncate(count);
    items.sort_unstable();
    items.into_iter().map(|item| item as u32).collect()
}

fn summed(
    threads: Vec<JoinHandle<Result<Vec<Ended>, String>>>,
    long: Duration,
) -> Result<Done, String> {
    let mut all = Vec::new();
    for thread in threads {
        all.extend(
            thread
                .join()
                .map_err(|_| "a connection panicked".to_string())??,
        );
    }
    let of = |step: Step| {
        let ended = all.iter().filter(|ended| ended.wrote && ended.step == step);
        Times::new(ended.map(|ended| ended.took).collect())
    };
    Ok(Done {
        committed: of(Step::Done),
        aborted: of(Step::Aborted),
        rate: all.len() as f64 / long.as_secs_f64(),
    })
}
