//! Groups of nodes beside groups of etcd, under the same clients.

pub mod commits;
pub mod etcd;
pub mod grpc;
pub mod loads;
pub mod store;

use std::fs::File;
use std::io::Write;
use std::path::Path;
use std::time::{Duration, Instant};

/// Times that were measured.
#[derive(Default)]
pub struct Times(Vec<Duration>);

impl Times {
    /// Of all these.
    pub fn new(mut times: Vec<Duration>) -> Times {
        times.sort_unstable();
        Times(times)
    }

    /// How many there are.
    pub fn count(&self) -> usize {
        self.0.len()
    }

    /// Their mean, in milliseconds.
    pub fn mean(&self) -> f64 {
        self.0.iter().sum::<Duration>().as_secs_f64() * 1000.0 / self.0.len() as f64
    }

    /// The one below which so many of a hundred are, in milliseconds.
    pub fn at(&self, percent: usize) -> f64 {
        let place = (self.0.len() * percent / 100).min(self.0.len().saturating_sub(1));
        self.0
            .get(place)
            .map_or(f64::NAN, |time| time.as_secs_f64() * 1000.0)
    }
}

/// How long an append of a block and its fsync take in a folder, alone.
pub fn fsyncs(folder: &Path) -> Result<Times, String> {
    let path = folder.join("fsyncs");
    let words = |error: std::io::Error| format!("{}: {error}", path.display());
    let mut file = File::create(&path).map_err(words)?;
    let mut times = Vec::new();
    for _ in 0..200 {
        let began = Instant::now();
        file.write_all(&[7; 512]).map_err(words)?;
        file.sync_data().map_err(words)?;
        times.push(began.elapsed());
    }
    std::fs::remove_file(&path).map_err(words)?;
    Ok(Times::new(times))
}
