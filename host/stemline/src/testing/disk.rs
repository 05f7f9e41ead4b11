//! A disk that loses, tears and garbles what was not made durable.

use std::collections::BTreeMap;
use std::io;
use std::path::{Path, PathBuf};
use std::sync::{Arc, Mutex, MutexGuard, PoisonError};

use super::Random;
use crate::disk::Medium;
use crate::driver::{Driver, Group, Waits};
use crate::{Failure, Notice, Reopened};

/// The bytes of a file that are only torn, never garbled: its head.
const HEAD_PAGE: u64 = 4_096;
/// And those of a file of notices.
const FRONT: u64 = 32;
/// The one journal on a disk.
const JOURNAL: &str = "simulated.journal";

/// A simulated disk with its files. What was written since a file's last sync is there after a cut of the power
/// or not, in part, or garbled, as the random numbers have it. A clone is the same disk.
#[derive(Clone, Debug, Default)]
pub struct Disk {
    state: Arc<Mutex<State>>,
}

/// What a disk can do wrong while the power is on.
#[derive(Clone, Copy, Debug, PartialEq, Eq)]
pub enum Fault {
    /// The next write fails, and a part of it may be there.
    Write,
    /// The next sync fails. As with real systems, what it should have made durable can be read, and the next sync
    /// passes it over.
    Sync,
}

/// What a sync does: a right one makes all durable that was written before it.
#[derive(Clone, Copy, Debug, Default, PartialEq, Eq)]
pub enum Syncs {
    /// What it should.
    #[default]
    Right,
    /// It makes durable what was written before the last one: as if a host handed out first, and synced then.
    Late,
    /// Nothing.
    Never,
}

#[derive(Debug, Default)]
struct State {
    files: BTreeMap<PathBuf, Kept>,
    steps: u64,
    cut_at: Option<u64>,
    fault: Option<(Fault, u64)>,
    /// A fault was met.
    failed: bool,
    syncs: Syncs,
    /// Those that were done.
    synced: u64,
    off: bool,
    /// How often the power was cut: what was open before is dead.
    cuts: u64,
}

#[derive(Debug, Default)]
struct Kept {
    /// What a cut leaves for sure.
    sure: Vec<u8>,
    /// What a read gives.
    now: Vec<u8>,
    since: Vec<Step>,
    /// How many of these were there at the last sync.
    late: usize,
    open: bool,
}

#[derive(Clone, Debug)]
enum Step {
    Write(u64, Vec<u8>),
    Cut(u64),
}

/// An open file of a simulated disk.
#[derive(Debug)]
pub(crate) struct Handle {
    disk: Disk,
    path: PathBuf,
    cuts: u64,
}

impl Disk {
    /// An empty disk, with the power on.
    pub fn new() -> Disk {
        Disk::default()
    }

    /// Lets the power go before the step of this number, counted from the present one, 0: a write, a sync, or the
    /// making of a file. Every step from there on fails.
    pub fn cut_after(&self, steps: u64) {
        let mut state = self.state();
        state.cut_at = Some(state.steps + steps);
    }

    /// Cuts the power now.
    pub fn cut(&self) {
        self.state().off = true;
    }

    /// Whether the power is cut.
    pub fn is_off(&self) -> bool {
        self.state().off
    }

    /// The power is on again. Of what was not durable is there what the random numbers say.
    pub fn power_on(&self, random: &mut Random) {
        let mut state = self.state();
        (state.off, state.cut_at, state.fault) = (false, None, None);
        state.cuts += 1;
        for file in state.files.values_mut() {
            file.late = 0;
            for step in file.since.drain(..) {
                keep_part(&mut file.sure, &step, random);
            }
            file.now = file.sure.clone();
            file.open = false;
        }
    }

    /// Lets the next step of this kind fail. The number says how much of a failed write or sync is there.
    pub fn fail(&self, fault: Fault, number: u64) {
        self.state().fault = Some((fault, number));
    }

    /// Nothing that was to go wrong does.
    pub fn calm(&self) {
        let mut state = self.state();
        (state.cut_at, state.fault) = (None, None);
    }

    /// Whether a fault was met since this was asked last.
    pub fn has_failed(&self) -> bool {
        std::mem::take(&mut self.state().failed)
    }

    /// From here on a sync says that it is done, and does this.
    pub fn sync_by(&self, syncs: Syncs) {
        self.state().syncs = syncs;
    }

    /// Changes a bit of the byte at this place of the journal, as a disk does that grows old.
    pub fn damage(&self, at: u64) {
        if let Some(file) = self.state().files.get_mut(Path::new(JOURNAL)) {
            for bytes in [&mut file.sure, &mut file.now] {
                if let Some(byte) = bytes.get_mut(at as usize) {
                    *byte ^= 1;
                }
            }
        }
    }

    /// How many syncs were done.
    pub fn synced(&self) -> u64 {
        self.state().synced
    }

    /// Opens a replica with its journal on this disk, as [`Driver::open`].
    pub fn open(
        &self,
        group: &Group,
        own: u32,
        waits: Waits,
        notices: &[Notice],
    ) -> Result<(Driver, Reopened), Failure> {
        let medium = Medium::Simulated(self.clone());
        Driver::open_at(&medium, Path::new(JOURNAL), group, own, waits, notices)
    }

    /// All bytes of a file, if it is there.
    pub(crate) fn read(&self, path: &Path) -> io::Result<Option<Vec<u8>>> {
        let state = self.state();
        state.on()?;
        Ok(state.files.get(path).map(|file| file.now.clone()))
    }

    /// Opens a file, or makes it, and gives its length.
    pub(crate) fn take(&self, path: &Path) -> io::Result<(Handle, u64)> {
        let mut state = self.state();
        state.step()?;
        let cuts = state.cuts;
        let file = state.files.entry(path.to_path_buf()).or_default();
        if std::mem::replace(&mut file.open, true) {
            return Err(io::Error::other("it is open already"));
        }
        let length = file.now.len() as u64;
        let handle = Handle {
            disk: self.clone(),
            path: path.to_path_buf(),
            cuts,
        };
        Ok((handle, length))
    }

    fn state(&self) -> MutexGuard<'_, State> {
        // A panic of another thread has left no step half done.
        self.state.lock().unwrap_or_else(PoisonError::into_inner)
    }
}

impl State {
    fn on(&self) -> io::Result<()> {
        match self.off {
            true => Err(io::Error::other("the power is cut")),
            false => Ok(()),
        }
    }

    /// Counts a step; where the power goes before it, it fails.
    fn step(&mut self) -> io::Result<()> {
        self.on()?;
        self.off = self.cut_at.is_some_and(|at| self.steps >= at);
        self.steps += 1;
        self.on()
    }

    /// The fault of this kind, if it is due.
    fn due(&mut self, fault: Fault) -> Option<u64> {
        let (found, number) = self.fault?;
        (found == fault).then(|| {
            (self.fault, self.failed) = (None, true);
            number
        })
    }
}

impl Handle {
    /// Does a step with its file.
    fn with<T>(&self, step: impl FnOnce(&mut State, &Path) -> io::Result<T>) -> io::Result<T> {
        let mut state = self.disk.state();
        match state.cuts == self.cuts {
            true => step(&mut state, &self.path),
            false => Err(io::Error::other("the power was cut since it was opened")),
        }
    }

    /// What is from this byte on.
    pub(crate) fn bytes(&self, at: u64) -> io::Result<Vec<u8>> {
        self.with(|state, path| {
            state.on()?;
            let file = state.files.entry(path.to_path_buf()).or_default();
            Ok(file.now.get(at as usize..).unwrap_or_default().to_vec())
        })
    }

    pub(crate) fn write(&self, at: u64, bytes: &[u8]) -> io::Result<()> {
        self.with(|state, path| {
            let due = state.due(Fault::Write);
            let done = state.step();
            let there = match due {
                Some(number) => &bytes[..number as usize % (bytes.len() + 1)],
                None => bytes,
            };
            let file = state.files.entry(path.to_path_buf()).or_default();
            // Also where the power goes: a part of it may be there.
            file.add(Step::Write(at, there.to_vec()));
            match due {
                Some(_) => Err(io::Error::other("no space left on the simulated disk")),
                None => done,
            }
        })
    }

    pub(crate) fn cut(&self, length: u64) -> io::Result<()> {
        self.with(|state, path| {
            let done = state.step();
            let file = state.files.entry(path.to_path_buf()).or_default();
            file.add(Step::Cut(length));
            done
        })
    }

    pub(crate) fn sync(&self) -> io::Result<()> {
        self.with(|state, path| {
            state.step()?;
            state.synced += 1;
            let (due, syncs) = (state.due(Fault::Sync), state.syncs);
            let file = state.files.entry(path.to_path_buf()).or_default();
            let late = std::mem::replace(&mut file.late, file.since.len());
            let since: Vec<Step> = match syncs {
                Syncs::Right => file.since.drain(..).collect(),
                Syncs::Late => file.since.drain(..late).collect(),
                Syncs::Never => return Ok(()),
            };
            file.late = file.since.len();
            let Some(number) = due else {
                since.iter().for_each(|step| apply(&mut file.sure, step));
                return Ok(());
            };
            let mut random = Random::new(number);
            for step in &since {
                keep_part(&mut file.sure, step, &mut random);
            }
            Err(io::Error::other("the simulated disk fails"))
        })
    }
}

impl Drop for Handle {
    fn drop(&mut self) {
        let _ = self.with(|state, path| {
            if let Some(file) = state.files.get_mut(path) {
                file.open = false;
            }
            Ok(())
        });
    }
}

impl Kept {
    fn add(&mut self, step: Step) {
        apply(&mut self.now, &step);
        self.since.push(step);
    }
}

/// Does a step whole.
fn apply(bytes: &mut Vec<u8>, step: &Step) {
    match step {
        Step::Cut(length) => bytes.resize(*length as usize, 0),
        Step::Write(at, new) => put(bytes, *at as usize, new, 0..new.len(), true),
    }
}

/// Puts these of the new bytes in their places; the file is as long as with all of them, or with these.
fn put(bytes: &mut Vec<u8>, at: usize, new: &[u8], there: std::ops::Range<usize>, long: bool) {
    let end = at + if long { new.len() } else { there.end };
    bytes.resize(bytes.len().max(end), 0);
    bytes[at..][there.clone()].copy_from_slice(&new[there]);
}

/// Does a step as a cut of the power leaves it.
fn keep_part(bytes: &mut Vec<u8>, step: &Step, random: &mut Random) {
    let Step::Write(at, new) = step else {
        if random.percent(50) {
            apply(bytes, step);
        }
        return;
    };
    let (place, length) = (*at as usize, new.len());
    let torn = random.below(length as u64 + 1) as usize;
    match random.below(10) {
        0..=2 => {}
        3..=5 => apply(bytes, step),
        6 => put(bytes, place, new, 0..torn, false),
        7 => put(bytes, place, new, torn..length, true),
        8 => put(bytes, place, new, 0..0, true),
        _ => {
            let appended = *at >= FRONT && place >= bytes.len();
            match appended || *at >= HEAD_PAGE {
                true => garble(bytes, place, new, random),
                false => put(bytes, place, new, 0..torn, false),
            }
        }
    }
}

/// The bytes that the write was to change may be any.
fn garble(bytes: &mut Vec<u8>, at: usize, new: &[u8], random: &mut Random) {
    bytes.resize(bytes.len().max(at + new.len()), 0);
    for (byte, &due) in bytes[at..].iter_mut().zip(new) {
        if *byte != due {
            *byte = random.bits() as u8;
        }
    }
}

#[cfg(test)]
mod tests;
