//! The membership service of the killed program. What it said stands in a file, by one write for each notice and
//! before anybody takes it, so that it outlives the program as the log does.

use std::fs::{self, OpenOptions};
use std::io::Write;
use std::path::Path;

use model::notice::{self, Kind, Notice};

use super::N;

/// All that was said, in order.
pub fn said(room: &Path) -> Vec<Notice> {
    let text = fs::read_to_string(room.join("notices")).unwrap_or_default();
    // A kill does not tear a write; but the last line is told by its end.
    let whole = text.rfind('\n').map_or(0, |at| at + 1);
    let lines = text[..whole].lines();
    lines.map(|line| parse(line).expect(line)).collect()
}

fn parse(line: &str) -> Option<Notice> {
    let (kind, rest) = line.split_once(' ')?;
    let (about, slot) = rest.split_once(' ')?;
    let (about, slot) = (about.parse().ok()?, slot.parse().ok()?);
    Some(match kind {
        "O" => Notice::out(about, slot),
        _ => Notice::back(about, slot),
    })
}

/// Says a notice.
pub fn say(room: &Path, notice: Notice) {
    let letter = match notice.kind {
        Kind::Out => 'O',
        Kind::Back => 'U',
    };
    let line = format!("{letter} {} {}\n", notice.about, notice.slot);
    let mut file = OpenOptions::new();
    let file = file.append(true).create(true).open(room.join("notices"));
    file.unwrap().write_all(line.as_bytes()).unwrap();
}

/// Of what was said, the next notice that who has taken these lacks and can take at its turn: those about one
/// replica in order, and an Out not before the Back in front of it.
pub fn due(said: &[Notice], taken: &[Notice], turn: u32) -> Option<Notice> {
    (0..N as u32).find_map(|about| {
        let last = notice::about(taken, about).next_back();
        let next = notice::about(said, about).nth(notice::about(taken, about).count())?;
        let ahead = last.is_some_and(|last| last.kind == Kind::Back && last.slot > turn);
        (!ahead).then_some(*next)
    })
}

/// The slot of the first notice that was said and who has taken these lacks.
pub fn lacking(said: &[Notice], taken: &[Notice]) -> Option<u32> {
    let next = |about: u32| notice::about(said, about).nth(notice::about(taken, about).count());
    (0..N as u32)
        .filter_map(next)
        .map(|notice| notice.slot)
        .min()
}

/// The next notice about a replica, where the others and their blocks are below this slot: out, if another is not,
/// or back.
pub fn next(said: &[Notice], about: u32, slot: u32) -> Option<Notice> {
    let last = |about: u32| notice::about(said, about).next_back();
    let is_out = |about: u32| last(about).is_some_and(|last| last.kind == Kind::Out);
    let others = (0..N as u32).any(|other| other != about && !is_out(other));
    match last(about) {
        Some(out) if out.kind == Kind::Out => Some(Notice::back(about, slot.max(out.slot + 1))),
        Some(back) if others && back.slot <= slot => Some(Notice::out(about, slot)),
        None if others => Some(Notice::out(about, slot)),
        _ => None,
    }
}
