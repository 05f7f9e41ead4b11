//! What the members of a group stand on: a namespace for each, with lines between them, or this machine's loopback.

use std::net::TcpListener;
use std::path::Path;
use std::process::Command;

use crate::lines::{address, plug, Lines, Quality};
use crate::space::Space;

/// The port of every member that has a namespace of its own.
const PORT: u16 = 4700;

/// Places for the members of a group. All goes when this is dropped.
pub struct Net {
    lines: Option<Lines>,
    spaces: Vec<Space>,
    addresses: Vec<String>,
}

impl Net {
    /// A namespace for each, with perfect lines between all.
    pub fn spaced(count: usize, seed: u64) -> Result<Net, String> {
        let spaces: Vec<Space> = (0..count).map(|_| Space::new()).collect::<Result<_, _>>()?;
        let lines = Lines::new(&spaces.iter().collect::<Vec<_>>(), seed)?;
        Ok(Net {
            lines: Some(lines),
            spaces,
            addresses: (0..count)
                .map(|k| format!("{}:{PORT}", address(k)))
                .collect(),
        })
    }

    /// Ports on loopback at which nobody listens.
    pub fn loopback(count: usize) -> Result<Net, String> {
        let bound = (0..count).map(|_| TcpListener::bind("127.0.0.1:0"));
        let listeners: Result<Vec<TcpListener>, _> = bound.collect();
        let listeners = listeners.map_err(|error| error.to_string())?;
        let addresses = listeners.iter().map(|listener| listener.local_addr());
        let addresses: Result<Vec<_>, _> =
            addresses.map(|at| at.map(|at| at.to_string())).collect();
        Ok(Net {
            lines: None,
            spaces: Vec::new(),
            addresses: addresses.map_err(|error| error.to_string())?,
        })
    }

    /// How many places there are.
    pub fn count(&self) -> usize {
        self.addresses.len()
    }

    /// Where others reach the one at a place: `HOST:PORT`.
    pub fn address(&self, k: usize) -> &str {
        &self.addresses[k]
    }

    /// The host of that.
    pub fn host(&self, k: usize) -> &str {
        self.addresses[k].split(':').next().unwrap_or_default()
    }

    /// A command that runs a program at a place.
    pub fn command(&self, k: usize, program: &Path) -> Command {
        match self.spaces.get(k) {
            Some(space) => space.command(program),
            None => Command::new(program),
        }
    }

    /// The lines, where there are any.
    pub fn lines(&self) -> Result<&Lines, String> {
        self.lines
            .as_ref()
            .ok_or_else(|| "loopback has no lines".to_string())
    }

    /// Lets all lines carry like this.
    pub fn set_all(&self, quality: Quality) -> Result<(), String> {
        self.lines().map(|lines| lines.set_all(quality))
    }

    /// Pulls the plug of a place, or puts it in again.
    pub fn plug(&self, k: usize, up: bool) -> Result<(), String> {
        plug(&self.spaces[k], up)
    }
}
