//! Notices beside a journal in C: the same calls leave the same files as in Rust, byte for byte, and where the disk
//! fails nothing is lost that was answered.

use std::fs;
use std::path::{Path, PathBuf};
use std::process::{Command, Output, Stdio};

use stemline::{notices_path, Block, Durable, Failure, Notice, Replica, Window, BLOCK, ITEMS};

use super::{told, JOURNAL, STEPS};
use crate::c::build;
use crate::files::Room;
use crate::looks::digits;

const PROGRAM: &str = include_str!("../../c/notices.c");
pub const N: u32 = 3;
pub const OWN: u32 = 1;

/// A line for the program, and the same call in Rust, which gives what the program prints.
pub fn play(replica: &mut Durable, line: &str) -> String {
    let mut fields = line.split(' ');
    let verb = fields.next().unwrap();
    let mut number = || fields.next().unwrap().parse().unwrap();
    let done = match verb {
        "send" => match replica.send() {
            Ok(block) => return format!("0 {}", digits(&block)),
            Err(failure) => Err(failure),
        },
        "take" | "slot" => {
            let block: Block = fields.next().unwrap().parse().unwrap();
            let taken = match verb {
                "take" => replica.take(block.bytes()),
                _ => replica.take_slot(block.bytes()),
            };
            taken.map(|_| ())
        }
        "give" => {
            let turns = [number(), number(), number()];
            let mut window = Window::new();
            for digits in fields.skip(1) {
                let block: Block = digits.parse().unwrap();
                assert!(window.put(block.slot(), block.bytes()));
            }
            match replica.give(&turns, &window) {
                Ok(given) => return given.ended.map_or(0, |by| by.number()).to_string(),
                Err(failure) => Err(failure),
            }
        }
        "work" => replica.work().map(|_| ()),
        "out" => replica.out(number(), number()),
        _ => replica.back(number(), number()),
    };
    let refused = |failure: Failure| failure.refusal().unwrap().number().to_string();
    done.map_or_else(refused, |()| "0".to_string())
}

pub fn opened(path: &Path) -> Durable {
    let opened = Durable::open(path, "grotesque", N, OWN, &[0; ITEMS]);
    opened.unwrap().0
}

/// The lines of a run: notices about another and about oneself, slots passed as out by works and by takes, refused
/// calls, and an open in between. Gives for each what is due, and leaves Rust's files.
fn run(rust: &Path, c: &Path) -> Vec<(String, String)> {
    let mut lines = Vec::new();
    let mut others = [0, 2].map(|own| Replica::new(N, own, &[0; ITEMS]).unwrap());
    let open = format!("open {} {N} {OWN}", c.display());
    lines.push((open.clone(), "0".to_string()));
    let mut replica = opened(rust);
    // From which turn on each is said, and how far ahead its slot is; two are refused.
    let mut said = [
        (4, "out 0", 2),
        (9, "back 0", 3),
        (10, "out 0", 9),
        (14, "out 1", 1),
        (20, "back 1", 1),
        (25, "out 2", 1),
        (26, "back 2", 9),
        (27, "back 2", 20),
    ]
    .into_iter()
    .peekable();
    for step in 0..40 {
        let turn = replica.report().turn;
        if let Some((_, notice, ahead)) = said.next_if(|&(from, _, _)| from <= turn) {
            let line = &format!("{notice} {}", turn + ahead);
            let due = play(&mut replica, line);
            let fields: Vec<&str> = line.split(' ').collect();
            let [about, slot] = [fields[1], fields[2]].map(|field| field.parse().unwrap());
            for other in &mut others {
                let taken = match fields[0] {
                    "out" => other.out(about, slot),
                    _ => other.back(about, slot),
                };
                assert_eq!(taken.is_ok(), due == "0", "{line}");
            }
            lines.push((line.clone(), due));
        }
        if step == 22 {
            drop(replica);
            replica = opened(rust);
            lines.push((open.clone(), "0".to_string()));
        }
        let sender = replica.report().turn % N;
        if replica.waits() {
            lines.push(("work".to_string(), play(&mut replica, "work")));
        } else {
            let block = match sender == OWN {
                true => {
                    let due = play(&mut replica, "send");
                    lines.push(("send".to_string(), due));
                    *replica.last().unwrap()
                }
                false => others[sender as usize / 2].send().unwrap(),
            };
            let line = format!("take {}", digits(&block));
            let due = play(&mut replica, &line);
            lines.push((line, due));
            for other in &mut others {
                other.take(&block).unwrap();
            }
        }
        for other in &mut others {
            while other.waits() && other.report().turn < replica.report().turn {
                other.work().unwrap();
            }
        }
    }
    let (notices, turn) = (replica.notices().len(), replica.report().turn);
    assert!(
        said.next().is_none() && notices == 6 && turn > 40,
        "{notices} notices, turn {turn}"
    );
    lines
}

/// The program, whose steps at the disk go by way of `steps.c`.
pub fn program(name: &str) -> PathBuf {
    build(
        name,
        &[
            ("notices.c", "cc", "-std=c99", PROGRAM),
            ("stemline_journal.c", "cc", "-std=c99", &told(JOURNAL)),
            ("steps.c", "cc", "-std=c99", STEPS),
        ],
    )
}

/// Runs the program on lines; the fsync of this number fails, none for 0.
pub fn ran(program: &Path, lines: &[(String, String)], fail: usize) -> Output {
    let file = program.with_extension("lines");
    let text: String = lines.iter().map(|(line, _)| format!("{line}\n")).collect();
    fs::write(&file, text).unwrap();
    let mut command = Command::new(program);
    command.env("STEMLINE_FAIL", fail.to_string());
    command.stdin(Stdio::from(fs::File::open(&file).unwrap()));
    command.output().unwrap()
}

#[test]
fn c_and_rust_write_the_same() {
    let room = Room::new("c-notices");
    let [rust, c] = ["rust", "c"].map(|name| room.0.join(name));
    let lines = run(&rust, &c);
    let program = program("c_notices");
    // Also after each line: a beginning of the list leaves what Rust has left by then.
    for count in [lines.len(), 8, 13, 17, 24, 30] {
        for path in [&rust, &c] {
            let _ = (fs::remove_file(path), fs::remove_file(notices_path(path)));
        }
        let lines = &lines[..count];
        let mut replica = opened(&rust);
        for (line, _) in lines {
            match line.starts_with("open") {
                true => {
                    drop(replica);
                    replica = opened(&rust);
                }
                false => drop(play(&mut replica, line)),
            }
        }
        drop(replica);
        let said = ran(&program, lines, 0);
        assert!(said.status.success());
        let due: String = lines.iter().map(|(_, due)| format!("{due}\n")).collect();
        assert_eq!(String::from_utf8(said.stdout).unwrap(), due);
        let of =
            |path: &Path| [path.to_path_buf(), notices_path(path)].map(|path| fs::read(path).ok());
        assert!(of(&rust) == of(&c), "after {count} lines");
        assert!(count < 13 || of(&c)[1].is_some());
    }
}

/// Each fsync fails once: what was answered before is there, and the files are taken up.
#[test]
fn failed_fsyncs() {
    let room = Room::new("c-notices-fail");
    let [rust, c] = ["rust", "c"].map(|name| room.0.join(name));
    let lines = run(&rust, &c);
    let program = program("c_notices_fail");
    let mut failed = 0;
    for fail in 1.. {
        let _ = (fs::remove_file(&c), fs::remove_file(notices_path(&c)));
        let said = ran(&program, &lines, fail);
        if said.status.success() {
            break;
        }
        failed += 1;
        let text = String::from_utf8(said.stdout).unwrap();
        let answers: Vec<&str> = text.lines().collect();
        let (why, answers) = answers.split_last().unwrap();
        assert!(
            why.starts_with("cannot ") && why.contains("the journal"),
            "{why}"
        );
        let answered = lines.iter().zip(answers);
        let taken: Vec<&str> = answered
            .clone()
            .filter(|((line, _), answer)| {
                **answer == "0" && (line.starts_with("out") || line.starts_with("back"))
            })
            .map(|((line, _), _)| &line[..])
            .collect();
        let sent = answered.filter(|((line, _), answer)| line == "send" && answer.len() > 2);
        let last = sent.last().map(|(_, answer)| answer.to_string());
        let replica = opened(&c);
        let notices: Vec<String> = replica.notices().iter().map(said_as).collect();
        assert!(
            notices.iter().zip(&taken).all(|(found, due)| found == due),
            "{fail}: {why}"
        );
        // The one whose call failed may be there.
        assert!(
            (taken.len()..=taken.len() + 1).contains(&notices.len()),
            "{fail}: {why}"
        );
        if let Some(last) = last {
            let journal = fs::read(&c).unwrap();
            let block: Block = last[2..].parse().unwrap();
            let blocks = &journal[stemline::HEAD..];
            assert!(
                blocks[BLOCK * block.slot() as usize..].starts_with(block.bytes()),
                "{fail}: {why}"
            );
        }
    }
    assert!(failed > 40, "{failed}");
}

/// A notice as its line.
fn said_as(notice: &Notice) -> String {
    match notice {
        Notice::Out { replica, slot } => format!("out {replica} {slot}"),
        Notice::Back { replica, slot } => format!("back {replica} {slot}"),
    }
}
