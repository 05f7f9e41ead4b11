//! The steps of a journal at the disk. In tests each is told before it is done, and can be let fail.

use std::fs::{self, File, OpenOptions, TryLockError};
use std::io::{self, Cursor, Read, Seek, SeekFrom, Write};
use std::path::Path;

use crate::map;
use crate::testing::{Disk as Simulated, Handle};

/// Where files are: at the system, or at a simulated disk.
#[derive(Clone, Debug)]
pub(crate) enum Medium {
    System,
    Simulated(Simulated),
}

/// A file, nobody else's while it is open.
#[derive(Debug)]
pub(crate) struct Disk {
    pub(crate) file: Open,
    what: What,
}

/// An open file.
#[derive(Debug)]
pub(crate) enum Open {
    System(File),
    Simulated(Handle),
}

/// Which file it is.
#[derive(Clone, Copy, Debug, PartialEq, Eq)]
pub(crate) enum What {
    Journal,
    Notices,
}

impl Medium {
    /// All bytes of a file, if it is there.
    pub(crate) fn read(&self, path: &Path) -> io::Result<Option<Vec<u8>>> {
        match self {
            Medium::System => match fs::read(path) {
                Err(error) if error.kind() == io::ErrorKind::NotFound => Ok(None),
                file => Ok(Some(file?)),
            },
            Medium::Simulated(disk) => disk.read(path),
        }
    }

    /// Opens a file, or makes it, and gives its length.
    pub(crate) fn open(&self, path: &Path, what: What) -> io::Result<(Disk, u64)> {
        let (file, length) = match self {
            Medium::System => open(path, what)?,
            Medium::Simulated(disk) => {
                let (handle, length) = disk.take(path)?;
                (Open::Simulated(handle), length)
            }
        };
        Ok((Disk { file, what }, length))
    }
}

/// Opens a file of the system.
fn open(path: &Path, what: What) -> io::Result<(Open, u64)> {
    let mut options = OpenOptions::new();
    let options = options.read(true).write(true).create(true).truncate(false);
    let file = options.open(path)?;
    file.try_lock().map_err(|error| match error {
        TryLockError::WouldBlock => io::Error::other("it is open already"),
        TryLockError::Error(error) => error,
    })?;
    let kind = file.metadata()?;
    if !kind.is_file() {
        return Err(io::Error::other("it is no file on a disk"));
    }
    sync_folder(path, what)?;
    Ok((Open::System(file), kind.len()))
}

impl Disk {
    /// A reader of what is from this byte on.
    pub(crate) fn reader(&mut self, at: u64) -> io::Result<Box<dyn Read + '_>> {
        Ok(match &mut self.file {
            Open::System(file) => {
                file.seek(SeekFrom::Start(at))?;
                Box::new(file)
            }
            Open::Simulated(file) => Box::new(Cursor::new(file.bytes(at)?)),
        })
    }

    /// Lends the first so many bytes.
    pub(crate) fn lend<T>(&mut self, length: u64, to: impl FnOnce(&[u8]) -> T) -> io::Result<T> {
        match &mut self.file {
            Open::System(file) => map::lend(file, length, to),
            Open::Simulated(file) => {
                let bytes = file.bytes(0)?;
                let lent = bytes.get(..length as usize);
                let lent = lent.ok_or_else(|| io::Error::other("it is shorter than was read"))?;
                Ok(to(lent))
            }
        }
    }

    /// Writes from this byte on.
    pub(crate) fn write(&mut self, at: u64, bytes: &[u8]) -> io::Result<()> {
        tell(self.what, || Step::Write(at, bytes.to_vec()))?;
        match &mut self.file {
            Open::System(file) => {
                file.seek(SeekFrom::Start(at))?;
                file.write_all(bytes)
            }
            Open::Simulated(file) => file.write(at, bytes),
        }
    }

    /// Makes the file so long, be it shorter or longer; what is new is zero.
    pub(crate) fn cut(&mut self, length: u64) -> io::Result<()> {
        tell(self.what, || Step::Cut(length))?;
        match &mut self.file {
            Open::System(file) => file.set_len(length),
            Open::Simulated(file) => file.cut(length),
        }
    }

    /// Makes all that was written durable.
    pub(crate) fn sync(&mut self) -> io::Result<()> {
        tell(self.what, || Step::Sync)?;
        match &mut self.file {
            Open::System(file) => file.sync_data(),
            Open::Simulated(file) => file.sync(),
        }
    }
}

/// The lock goes with the file at the latest. A process that was just forked has a copy of the file, which
/// would hold it a moment longer.
impl Drop for Disk {
    fn drop(&mut self) {
        if let Open::System(file) = &self.file {
            let _ = file.unlock();
        }
    }
}

/// A file that was made is durable once its folder is.
fn sync_folder(path: &Path, what: What) -> io::Result<()> {
    let folder = match path.parent() {
        Some(folder) if folder != Path::new("") => folder,
        _ => Path::new("."),
    };
    tell(what, || Step::Folder(folder.display().to_string()))?;
    let synced = match cfg!(unix) {
        true => File::open(folder).and_then(|folder| folder.sync_all()),
        false => Ok(()),
    };
    synced.map_err(|error| {
        let words = format!("its folder cannot be made durable: {error}");
        io::Error::new(error.kind(), words)
    })
}

/// A step that changes something.
#[derive(Clone, Debug, PartialEq, Eq)]
#[cfg_attr(not(test), allow(dead_code))]
pub(crate) enum Step {
    Folder(String),
    Write(u64, Vec<u8>),
    Cut(u64),
    Sync,
}

#[cfg(not(test))]
fn tell(_: What, _: impl FnOnce() -> Step) -> io::Result<()> {
    Ok(())
}

#[cfg(test)]
fn tell(what: What, step: impl FnOnce() -> Step) -> io::Result<()> {
    told::tell(what, step())
}

/// The steps of this thread's journals and notices, which are a test's.
#[cfg(test)]
pub(crate) mod told {
    use std::cell::{Cell, RefCell};
    use std::io;

    use super::{Step, What};

    thread_local! {
        static STEPS: RefCell<Vec<(What, Step)>> = const { RefCell::new(Vec::new()) };
        static FAILS: Cell<Option<&'static str>> = const { Cell::new(None) };
    }

    /// The line of a step, without the bytes.
    fn line(what: What, step: &Step) -> String {
        let line = match step {
            Step::Folder(folder) => format!("folder {folder}"),
            Step::Write(at, bytes) => format!("write {} at {at}", bytes.len()),
            Step::Cut(length) => format!("cut {length}"),
            Step::Sync => "sync".to_string(),
        };
        match what {
            What::Journal => line,
            What::Notices => format!("notices: {line}"),
        }
    }

    pub(super) fn tell(what: What, step: Step) -> io::Result<()> {
        let fails = FAILS
            .get()
            .is_some_and(|word| line(what, &step).starts_with(word));
        STEPS.with_borrow_mut(|steps| steps.push((what, step)));
        match fails {
            true => {
                FAILS.set(None);
                Err(io::Error::other("the test lets it fail"))
            }
            false => Ok(()),
        }
    }

    /// Lets the next step fail whose line begins so.
    pub(crate) fn fail(word: &'static str) {
        FAILS.set(Some(word));
    }

    /// The steps since they were asked for last.
    pub(crate) fn taken() -> Vec<(What, Step)> {
        STEPS.take()
    }

    /// Their lines.
    pub(crate) fn steps() -> Vec<String> {
        let steps = taken();
        steps.iter().map(|(what, step)| line(*what, step)).collect()
    }
}
