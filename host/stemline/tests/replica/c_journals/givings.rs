//! Givings over a journal in C: the same calls leave the same files as in Rust, byte for byte, and where the disk fails
//! what was answered is there, and the rest is given behind the next open.

use std::fs;
use std::path::Path;

use stemline::{notices_path, Durable, Replica, BLOCK, DOWN, HEAD, ITEMS};

use super::notices::{opened, play, program, ran, N, OWN};
use crate::files::Room;
use crate::looks::digits;

/// The lines of a run, with what is due for each; and the others, at whose turn it ends.
struct Run {
    lines: Vec<(String, String)>,
    replica: Durable,
    others: [Replica; 2],
    /// The block of each slot, as journals have it.
    blocks: Vec<[u8; BLOCK]>,
}

impl Run {
    fn play(&mut self, line: &str) -> String {
        let due = play(&mut self.replica, line);
        self.lines.push((line.to_string(), due.clone()));
        due
    }

    fn turn(&self) -> u32 {
        self.others[0].report().turn
    }

    /// So many slots with all of them.
    fn together(&mut self, slots: u32) {
        for _ in 0..slots {
            let sender = self.turn() % N;
            let block = match sender == OWN {
                true => {
                    self.play("send");
                    *self.replica.last().unwrap()
                }
                false => self.others[sender as usize / 2].send().unwrap(),
            };
            self.play(&format!("take {}", digits(&block)));
            self.take(&block);
        }
    }

    /// The others send so often without it.
    fn alone(&mut self, sends: u32) {
        for _ in 0..sends {
            let sender = self.turn() % N;
            let other = &mut self.others[sender as usize / 2];
            let ticket = other.begin().unwrap();
            other.write(ticket, sends % 128, ticket as i32).unwrap();
            other.ask(ticket).unwrap();
            let block = other.send().unwrap();
            self.take(&block);
        }
    }

    fn take(&mut self, block: &[u8; BLOCK]) {
        for other in &mut self.others {
            other.take(block).unwrap();
        }
        self.follow();
    }

    fn out(&mut self, k: u32, slot: u32) {
        for other in &mut self.others {
            other.out(k, slot).unwrap();
        }
        self.follow();
    }

    /// What is out is passed, and what was left is what journals have.
    fn follow(&mut self) {
        for other in &mut self.others {
            while other.waits() {
                other.work().unwrap();
            }
        }
        let window = self.others[0].window();
        for slot in self.blocks.len() as u32..self.turn() {
            self.blocks.push(*window.block(slot).unwrap());
        }
    }

    /// The line of a giving from the first of the others, up to this turn.
    fn giving(&self, to: u32) -> String {
        let window = self.others[0].window();
        let slots = self.replica.report().turn..to;
        let blocks: Vec<String> = slots
            .filter_map(|slot| Some(digits(window.block(slot)?)))
            .collect();
        let hex: String = blocks.iter().map(|hex| format!(" {hex}")).collect();
        format!("give {to} {DOWN} {to} {}{hex}", blocks.len())
    }
}

/// Givings after a short holiday and a long one, with what turns them away, a part first, and opens in between.
fn run(rust: &Path, c: &Path) -> Run {
    let open = (format!("open {} {N} {OWN}", c.display()), "0".to_string());
    let mut run = Run {
        lines: vec![open.clone()],
        replica: opened(rust),
        others: [0, 2].map(|own| Replica::new(N, own, &[0; ITEMS]).unwrap()),
        blocks: Vec::new(),
    };
    run.together(5);
    run.out(OWN, 7);
    run.alone(9);
    // Without the notice an own slot is none that it sent.
    assert_eq!(run.play(&run.giving(run.turn())), "19");
    assert_eq!(run.replica.report().turn, 7);
    run.play(&format!("out {OWN} 7"));
    assert_eq!(run.play(&run.giving(12)), "0");
    assert_eq!(run.replica.report().turn, 12);
    assert_eq!(run.play(&run.giving(run.turn())), "0");
    assert_eq!(run.play(&run.giving(run.turn())), "0", "level");
    assert_eq!(run.play(&format!("give {DOWN} 3 {DOWN} 0")), "30");
    run.alone(60);
    assert_eq!(run.play(&run.giving(run.turn())), "31");
    let first = run.replica.report().turn as usize;
    for slot in first..run.turn() as usize - 64 {
        let line = format!("slot {}", digits(&run.blocks[slot]));
        assert_eq!(run.play(&line), "0");
    }
    run.lines.push(open);
    assert_eq!(run.play(&run.giving(run.turn())), "0");
    assert_eq!(run.replica.report().turn, run.turn());
    run
}

#[test]
fn c_and_rust_write_the_same() {
    let room = Room::new("c-givings");
    let [rust, c] = ["rust", "c"].map(|name| room.0.join(name));
    let run = run(&rust, &c);
    let said = ran(&program("c_givings"), &run.lines, 0);
    let due: String = run
        .lines
        .iter()
        .map(|(_, due)| format!("{due}\n"))
        .collect();
    assert_eq!(String::from_utf8(said.stdout).unwrap(), due);
    assert!(said.status.success());
    drop(run.replica);
    // As Rust wrote it, with the same open in between.
    let written = |path: &Path| [path.to_path_buf(), notices_path(path)].map(fs::read);
    let [[ours, our_notices], [theirs, their_notices]] =
        [&rust, &c].map(|path| written(path).map(Result::unwrap));
    assert!(our_notices == their_notices);
    assert!(ours[HEAD..] == theirs[HEAD..] && ours[HEAD..] == run.blocks.concat());
    let opened = [&rust, &c].map(|path| opened(path));
    assert_eq!(opened[0].digest(), opened[1].digest());
    assert!(opened[0].window() == opened[1].window());
    assert!(opened[0].window() == run.others[0].window());
}

/// Each fsync fails once: the files have a first part of what was given, with all that was answered, and one that
/// opens them is given the rest.
#[test]
fn failed_fsyncs() {
    let room = Room::new("c-givings-fail");
    let [rust, c] = ["rust", "c"].map(|name| room.0.join(name));
    let run = run(&rust, &c);
    let program = program("c_givings_fail");
    let mut failed = 0;
    for fail in 1.. {
        let _ = (fs::remove_file(&c), fs::remove_file(notices_path(&c)));
        let said = ran(&program, &run.lines, fail);
        if said.status.success() {
            break;
        }
        failed += 1;
        let text = String::from_utf8(said.stdout).unwrap();
        let answers: Vec<&str> = text.lines().collect();
        let why = answers.last().unwrap();
        assert!(why.starts_with("cannot "), "{why}");
        let mut replica = opened(&c);
        let turn = replica.report().turn as usize;
        let file = fs::read(&c).unwrap();
        assert!(file[HEAD..] == run.blocks[..turn].concat(), "{fail}: {why}");
        let mut sends = run
            .lines
            .iter()
            .zip(&answers)
            .filter(|((line, _), answer)| line == "send" && answer.starts_with("0 "));
        if let Some((_, answer)) = sends.next_back() {
            let block: stemline::Block = answer[2..].parse().unwrap();
            assert!((block.slot() as usize) < turn, "{fail}: {why}");
        }
        if replica.notices().is_empty() {
            continue;
        }
        for block in &run.blocks[turn..run.blocks.len().max(turn + 64) - 64] {
            replica.take_slot(block).unwrap();
        }
        let turns = [run.turn(), DOWN, DOWN];
        let given = replica.give(&turns, run.others[0].window()).unwrap();
        assert_eq!((given.giver, given.ended), (0, None), "{fail}: {why}");
        assert_eq!(replica.values(), run.others[0].values());
    }
    assert!(failed > 40, "{failed}");
}
