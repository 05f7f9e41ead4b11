//! Long journals: they are opened in less memory than they have bytes; and where the system gives no map of
//! one, that is an error in words.

use std::env;
use std::fs::{self, OpenOptions};
use std::io::{BufWriter, Write};
use std::path::Path;
use std::process::Command;

use stemline::{Durable, Replica, BLOCK, ITEMS};

use crate::files::Room;

const BLOCKS: u32 = 200_000;
const ASKED: &str = "STEMLINE_LONG";

/// Appends the blocks of so many slots to a new journal of replica 0 of 2.
fn write(path: &Path) {
    drop(Durable::open(path, "long", 2, 0, &[0; ITEMS]).unwrap());
    let file = OpenOptions::new().append(true).open(path).unwrap();
    let mut file = BufWriter::new(file);
    let mut group = [0, 1].map(|own| Replica::new(2, own, &[0; ITEMS]).unwrap());
    for slot in 0..BLOCKS {
        let block = group[slot as usize % 2].send().unwrap();
        for replica in &mut group {
            replica.take(&block).unwrap();
        }
        file.write_all(&block).unwrap();
    }
    file.flush().unwrap();
}

/// Opens it in a process with this limit of the shell, in KB, and gives what it says.
fn opened(path: &Path, limit: &str) -> String {
    let program = env::current_exe().unwrap();
    let asked = "exec \"$0\" long::opens --exact --ignored --nocapture --test-threads=1";
    let mut command = Command::new("bash");
    command.args(["-c", &format!("ulimit {limit}; {asked}")]);
    let ran = command.arg(program).env(ASKED, path).output().unwrap();
    let said = String::from_utf8_lossy(&ran.stdout);
    let line = said.lines().find_map(|line| line.split_once("opened: "));
    let line = line.map(|(_, words)| words.to_string());
    line.unwrap_or_else(|| format!("{}: {}", ran.status, String::from_utf8_lossy(&ran.stderr)))
}

#[test]
fn in_little_memory() {
    if !cfg!(target_os = "linux") {
        println!("left out: only Linux limits a process's own memory alone");
        return;
    }
    let room = Room::new("long");
    let path = room.0.join("journal");
    write(&path);
    let bytes = fs::metadata(&path).unwrap().len();
    assert!(bytes > BLOCK as u64 * u64::from(BLOCKS));
    let due = format!("{BLOCKS} blocks");
    assert_eq!(opened(&path, "-v unlimited"), due);
    // Half of its bytes, which leaves maps of files out.
    let half = bytes / 2_048;
    assert_eq!(opened(&path, &format!("-d {half}")), due);
    // With maps.
    let said = opened(&path, &format!("-v {half}"));
    let due = format!("cannot lend the journal {}: ", path.display());
    assert!(said.starts_with(&due), "{said}");
}

/// What is started; by itself it does nothing.
#[test]
#[ignore = "the program that long::in_little_memory starts"]
fn opens() {
    let Some(path) = env::var_os(ASKED) else {
        return;
    };
    match Durable::open(path, "long", 2, 0, &[0; ITEMS]) {
        Ok((_, reopened)) => println!("opened: {} blocks", reopened.blocks),
        Err(failure) => println!("opened: {failure}"),
    }
}
