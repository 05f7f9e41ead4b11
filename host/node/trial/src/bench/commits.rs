//! Commits a second, and the time from ask to told outcome: clients that set one measure each, again and again.

use std::sync::{Arc, Barrier};
use std::thread;
use std::time::{Duration, Instant};

use super::store::{Designer, Running, Setting};
use super::Times;

/// How long clients are at work before it counts.
const WARM: Duration = Duration::from_secs(1);

/// How many clients there are.
#[derive(Clone, Copy, PartialEq, Debug)]
pub enum Clients {
    /// One, at the first member.
    One,
    /// So many at each member.
    Each(usize),
}

/// What was measured of one group.
pub struct Commits {
    /// Committed each second.
    pub rate: f64,
    /// From ask to told outcome.
    pub times: Times,
}

/// Measures a group for so long. Every client has a measure of its own.
pub fn measure(setting: &Setting, clients: Clients, long: Duration) -> Result<Commits, String> {
    let running = Running::start(setting)?;
    let places: Vec<usize> = match clients {
        Clients::One => vec![0],
        Clients::Each(count) => (0..setting.replicas * count)
            .map(|k| k % setting.replicas)
            .collect(),
    };
    let barrier = Arc::new(Barrier::new(places.len()));
    let mut threads = Vec::new();
    for (number, place) in places.into_iter().enumerate() {
        let (designer, barrier) = (running.designer(place)?, Arc::clone(&barrier));
        threads.push(thread::spawn(move || {
            barrier.wait();
            puts(designer, number as u32, long)
        }));
    }
    let mut all = Vec::new();
    for thread in threads {
        all.extend(
            thread
                .join()
                .map_err(|_| "a client panicked".to_string())??,
        );
    }
    Ok(Commits {
        rate: all.len() as f64 / long.as_secs_f64(),
        times: Times::new(all),
    })
}

/// The times of one client. Those count that end within the time that counts.
fn puts(
    mut designer: Box<dyn Designer>,
    item: u32,
    long: Duration,
) -> Result<Vec<Duration>, String> {
    let began = Instant::now();
    let mut times = Vec::new();
    for value in 1.. {
        let asked = Instant::now();
        designer.put(item, value)?;
        match began.elapsed() {
            now if now > WARM + long => break,
            now if now > WARM => times.push(asked.elapsed()),
            _ => {}
        }
    }
    Ok(times)
}
