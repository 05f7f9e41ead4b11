#![doc = include_str!("../testdata/README.md")]
//!
//! # Here
//!
//! [`files`] reads the folder, [`play`] plays one file at members of any kind and gives its text anew, and
//! [`difference`] names the first line that is not as it was. The words of a refusal come from whoever
//! plays: those of the Rust crate for hosts.

mod parse;
mod play;
mod words;

use std::fs;
use std::path::{Path, PathBuf};

use crate::drive::{Gives, Machine, Powered};
use crate::replica::{Replica, ITEMS};

/// What refuses a call, in words, by its number.
pub type Words = fn(u8) -> &'static str;

/// A replica with its disk, or a station, that scenes are played at.
pub trait Player: Powered + Gives {
    /// Of one just made: as it is after so many slots without records, and so many transactions
    /// withdrawn.
    fn late(&mut self, slots: u32, tickets: u32);
    /// Alters the memory: the transaction is not open any more, though no call ended it.
    fn lose(&mut self, ticket: u32);
}

impl Machine {
    /// A machine of a replica just made, or of a station, which has no number.
    pub fn make(n: u32, own: Option<u32>, values: &[i32; ITEMS]) -> Result<Machine, u8> {
        let made = match own {
            Some(own) => Replica::make(n, own, values),
            None => Replica::station(n, values),
        };
        made.map(Machine::new)
    }
}

impl Player for Machine {
    fn late(&mut self, slots: u32, tickets: u32) {
        self.replica = self.replica.clone().fast_forward(slots, tickets);
    }
    fn lose(&mut self, ticket: u32) {
        self.replica.open.retain(|open| open.ticket != ticket);
    }
}

/// A file with a scene.
#[derive(Clone, Debug)]
pub struct Scene {
    /// Its name in the folder.
    pub name: String,
    /// Where it is.
    pub path: PathBuf,
    /// All of it.
    pub text: String,
}

/// The scenes of `model/testdata`, by name.
pub fn files() -> Result<Vec<Scene>, String> {
    folder(&Path::new(env!("CARGO_MANIFEST_DIR")).join("testdata"))
}

/// The scenes of a folder, by name. It has one at least, and nothing else but the text that says what
/// a scene is.
pub fn folder(folder: &Path) -> Result<Vec<Scene>, String> {
    let failed = |error| format!("{}: {error}", folder.display());
    let mut scenes = Vec::new();
    for entry in fs::read_dir(folder).map_err(failed)? {
        let path = entry.map_err(failed)?.path();
        let name = path.file_name().unwrap_or_default().to_string_lossy();
        let name = name.into_owned();
        if name == "README.md" {
            continue;
        }
        if !name.ends_with(".txt") {
            return Err(format!("{name}: a scene's name ends in .txt"));
        }
        let text = fs::read_to_string(&path).map_err(|error| format!("{name}: {error}"))?;
        scenes.push(Scene { name, path, text });
    }
    if scenes.is_empty() {
        return Err(format!("{}: no scene is there", folder.display()));
    }
    scenes.sort_by(|a, b| a.name.cmp(&b.name));
    Ok(scenes)
}

/// Plays a scene, and gives its text with what its members answer. `make` makes a replica by its number,
/// and without one a station. An error names file and line.
pub fn play<P: Player>(
    scene: &Scene,
    make: impl Fn(u32, Option<u32>, &[i32; ITEMS]) -> Result<P, u8>,
    words: Words,
) -> Result<String, String> {
    let named = |(line, error): (usize, String)| format!("{}, line {line}: {error}", scene.name);
    let lines = parse::lines(&scene.text).map_err(named)?;
    let mut playing = play::Playing::new(make, words);
    let mut text = String::new();
    let mut answers = Vec::new();
    for (at, line) in lines.iter().enumerate() {
        if let parse::Line::Command(command) = &line.content {
            let answer = playing
                .play(command)
                .map_err(|error| named((at + 1, error)))?;
            answers.extend(answer);
        }
        if let parse::Line::Answer = line.content {
            continue;
        }
        text.push_str(line.text);
        text.push('\n');
        if let parse::Line::Dashes = line.content {
            for answer in answers.drain(..) {
                text.push_str(&answer);
                text.push('\n');
            }
        }
    }
    Ok(text)
}

/// The first line of a scene that is not as it is played, in words.
pub fn difference(scene: &Scene, played: &str) -> Option<String> {
    let [mut stored, mut due] = [scene.text.lines(), played.lines()];
    let end = "the end of the file";
    for line in 1.. {
        match (stored.next(), due.next()) {
            (None, None) => break,
            (expected, got) if expected == got => {}
            (expected, got) => {
                return Some(format!(
                    "{}, line {line}:\n  expected: {}\n  got:      {}",
                    scene.name,
                    expected.unwrap_or(end),
                    got.unwrap_or(end)
                ))
            }
        }
    }
    // What is left is how the last line ends.
    let same = scene.text == played;
    (!same).then(|| format!("{}: a line's end is not a line feed", scene.name))
}

#[cfg(test)]
mod tests;
