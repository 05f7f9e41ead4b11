//! Network namespaces of a trial's own, made and taken away by `ip netns`.

use std::fs;
use std::path::{Path, PathBuf};
use std::process::{self, Command};
use std::sync::atomic::{AtomicUsize, Ordering};
use std::sync::Once;

use crate::run;

/// What the names of all these namespaces begin with; the process and a number follow.
const MARK: &str = "stemline-";

/// A namespace of the network. It goes when this is dropped.
pub struct Space {
    name: String,
}

impl Space {
    /// A new one, with nothing but its loopback.
    pub fn new() -> Result<Space, String> {
        static SWEPT: Once = Once::new();
        SWEPT.call_once(sweep);
        static MADE: AtomicUsize = AtomicUsize::new(0);
        let number = MADE.fetch_add(1, Ordering::Relaxed);
        let name = format!("{MARK}{}-{number}", process::id());
        run("ip", &["netns", "add", &name])?;
        let space = Space { name };
        space.ip(&["link", "set", "lo", "up"])?;
        Ok(space)
    }

    /// What it is called.
    pub fn name(&self) -> &str {
        &self.name
    }

    /// `ip` within it.
    pub fn ip(&self, arguments: &[&str]) -> Result<String, String> {
        run("ip", &[&["-n", &self.name], arguments].concat())
    }

    /// A command that runs a program within it. `ip` becomes that program, so that its process is the command's.
    pub fn command(&self, program: &Path) -> Command {
        let mut command = Command::new("ip");
        command.args(["netns", "exec", &self.name]).arg(program);
        command
    }
}

impl Drop for Space {
    fn drop(&mut self) {
        // Nobody is told: what is left here the next trial sweeps away.
        let _ = run("ip", &["netns", "delete", &self.name]);
    }
}

/// Takes away what trials left that were killed: their namespaces, and the processes in these.
fn sweep() {
    for name in run("ip", &["netns", "list"]).unwrap_or_default().lines() {
        let name = name.split_whitespace().next().unwrap_or_default();
        let process = name
            .strip_prefix(MARK)
            .and_then(|rest| rest.split('-').next());
        if process.is_some_and(|id| !Path::new("/proc").join(id).exists()) {
            for id in run("ip", &["netns", "pids", name])
                .unwrap_or_default()
                .lines()
            {
                let _ = run("kill", &["-9", id]);
            }
            let _ = run("ip", &["netns", "delete", name]);
        }
    }
}

/// A small file system in memory, mounted on a folder. It goes when this is dropped.
pub struct SmallDisk {
    folder: PathBuf,
}

impl SmallDisk {
    /// One with room for so many bytes.
    pub fn new(folder: &Path, bytes: u64) -> Result<SmallDisk, String> {
        fs::create_dir_all(folder).map_err(|error| error.to_string())?;
        let size = format!("size={bytes}");
        run(
            "mount",
            &[
                "-t",
                "tmpfs",
                "-o",
                &size,
                "tmpfs",
                &folder.to_string_lossy(),
            ],
        )?;
        Ok(SmallDisk {
            folder: folder.to_path_buf(),
        })
    }

    /// Fills all the room that is left with a file, which is given.
    pub fn fill(&self) -> Result<PathBuf, String> {
        use std::io::Write;
        let ballast = self.folder.join("ballast");
        let mut file = fs::File::create(&ballast).map_err(|error| error.to_string())?;
        while file.write_all(&[0; 512]).is_ok() {}
        Ok(ballast)
    }
}

impl Drop for SmallDisk {
    fn drop(&mut self) {
        let _ = run("umount", &["--lazy", &self.folder.to_string_lossy()]);
        let _ = fs::remove_dir(&self.folder);
    }
}
