//! A program that is started, killed, and started again.

use std::fs::{self, OpenOptions};
use std::io;
use std::path::{Path, PathBuf};
use std::process::{Child, Command, ExitStatus, Stdio};
use std::time::Duration;

use crate::{run, until};

/// A process with a log of all that it said, over all its starts. It is killed when this is dropped.
pub struct Process {
    command: Command,
    log: PathBuf,
    child: Option<Child>,
}

impl Process {
    /// Of a command, which is not started yet.
    pub fn new(command: Command, log: &Path) -> Process {
        Process {
            command,
            log: log.to_path_buf(),
            child: None,
        }
    }

    /// Starts it; one that runs is left as it is.
    pub fn start(&mut self) -> io::Result<()> {
        if self.is_running() {
            return Ok(());
        }
        let log = OpenOptions::new()
            .create(true)
            .append(true)
            .open(&self.log)?;
        let started = self
            .command
            .stdin(Stdio::null())
            .stdout(log.try_clone()?)
            .stderr(log)
            .spawn()?;
        self.child = Some(started);
        Ok(())
    }

    /// Whether it runs.
    pub fn is_running(&mut self) -> bool {
        let ended = |child: &mut Child| matches!(child.try_wait(), Ok(None));
        self.child.as_mut().is_some_and(ended)
    }

    /// Kills it, as a cut of the power does but for the disk.
    pub fn kill(&mut self) {
        if let Some(mut child) = self.child.take() {
            // It may have ended by itself.
            let _ = child.kill();
            let _ = child.wait();
        }
    }

    /// Waits for its end, and kills what does not end.
    pub fn wait(&mut self, most: Duration) -> Result<ExitStatus, String> {
        let Some(mut child) = self.child.take() else {
            return Err("it does not run".to_string());
        };
        let mut status = None;
        let ended = until("its end", most, || {
            status = child.try_wait().ok().flatten();
            status.is_some()
        });
        if ended.is_err() {
            let _ = child.kill();
            let _ = child.wait();
        }
        ended.and(status.ok_or_else(String::new))
    }

    /// Asks it to end, by SIGTERM, and waits for that.
    pub fn end(&mut self, most: Duration) -> Result<ExitStatus, String> {
        if let Some(child) = &self.child {
            run("kill", &["-TERM", &child.id().to_string()])?;
        }
        self.wait(most)
    }

    /// All that it said so far.
    pub fn said(&self) -> String {
        let bytes = fs::read(&self.log).unwrap_or_default();
        String::from_utf8_lossy(&bytes).into_owned()
    }
}

impl Drop for Process {
    fn drop(&mut self) {
        self.kill();
    }
}
