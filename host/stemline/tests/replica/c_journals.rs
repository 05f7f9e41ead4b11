//! Journals in C. The example program goes on where it ended, leaves damaged files as they are, and takes its
//! steps at the disk in the right order.

mod givings;
mod notices;
mod opens;
mod outcomes;

use std::fs::{self, OpenOptions};
use std::io::Write;
use std::path::{Path, PathBuf};
use std::process::{Command, Output};

use stemline::{Durable, BLOCK, HEAD, ITEMS};

use crate::c::{build, has_cpp, printed, run};

const EXAMPLE: &str = include_str!("../../../examples/durable.c");
const JOURNAL: &str = include_str!("../../../source/stemline_journal.c");
const STEPS: &str = include_str!("../c/steps.c");

/// The program and its two files, which are not there yet.
struct Runs {
    program: PathBuf,
    files: [PathBuf; 2],
}

/// The journal's file with its steps at the disk by way of `steps.c`.
fn told(journal: &str) -> String {
    let (includes, code) = journal.split_once("#include \"journal_head.h\"").unwrap();
    let told = ["fsync", "ftruncate", "pwrite"].map(|call| {
        let told = format!("#define {call} told_{call}\n");
        match call {
            "fsync" => format!("{told}int told_fsync(int);\n"),
            "ftruncate" => format!("{told}int told_ftruncate(int, off_t);\n"),
            _ => format!("{told}ssize_t told_pwrite(int, const void *, size_t, off_t);\n"),
        }
    });
    format!(
        "{includes}#include \"journal_head.h\"\n{}{code}",
        told.concat()
    )
}

impl Runs {
    fn new(name: &str) -> Runs {
        let program = build(
            name,
            &[
                ("durable.c", "cc", "-std=c99", EXAMPLE),
                ("stemline_journal.c", "cc", "-std=c99", &told(JOURNAL)),
                ("steps.c", "cc", "-std=c99", STEPS),
            ],
        );
        let files = ["first.journal", "second.journal"].map(|file| program.with_file_name(file));
        for file in &files {
            let _ = fs::remove_file(file);
        }
        Runs { program, files }
    }

    /// A run in which the fsync of this number fails, and the write of that one is short; none is for 0.
    fn run(&self, fail: u32, short: u32) -> Output {
        let mut command = Command::new(&self.program);
        command.args(&self.files);
        command.env("STEMLINE_FAIL", fail.to_string());
        command.env("STEMLINE_SHORT", short.to_string());
        command.output().unwrap()
    }

    /// A run that ends by an error: the steps, and what it says behind them.
    fn fails(&self, fail: u32, short: u32) -> (String, String) {
        let ran = self.run(fail, short);
        assert_eq!(ran.status.code(), Some(1));
        let said = String::from_utf8(ran.stderr).unwrap();
        let (steps, last) = said.trim_end().rsplit_once('\n').unwrap_or(("", &said));
        (steps.to_string(), last.trim_end().to_string())
    }

    fn blocks(&self, k: usize) -> Vec<u8> {
        fs::read(&self.files[k]).unwrap().split_off(HEAD)
    }
}

/// Three runs, before the last of which the first file loses a part of its last block and the second has more
/// than is whole.
#[test]
fn journals_are_gone_on_with() {
    let runs = Runs::new("durable");
    let files = &runs.files;
    let torn = ", 100 bytes cut off: the block is torn: 100 of 512 bytes";
    for (run, blocks, told) in [
        (1, [0, 0], ["", ""]),
        (2, [2, 2], ["", ""]),
        (
            3,
            [3, 4],
            [
                ", 412 bytes cut off: the block is torn: 412 of 512 bytes",
                torn,
            ],
        ),
    ] {
        let said = printed(&runs.run(0, 0));
        let mut due = String::new();
        for ((file, blocks), told) in files.iter().zip(blocks).zip(told) {
            due.push_str(&format!("{}: {blocks} blocks{told}\n", file.display()));
        }
        due.push_str(&format!("item 5: {run} and {run}\n"));
        assert_eq!(said, due);
        if run == 2 {
            let open = |file| OpenOptions::new().append(true).open(file).unwrap();
            let length = (HEAD + 4 * BLOCK - 100) as u64;
            open(&files[0]).set_len(length).unwrap();
            open(&files[1]).write_all(&[7; 100]).unwrap();
        }
    }
    let [first, second] = [0, 1].map(|k| runs.blocks(k));
    assert!(first == second && first.len() == 6 * BLOCK);
    // Rust goes on with them.
    let opened = Durable::open(&files[1], "durable", 2, 1, &[0; ITEMS]);
    let (replica, reopened) = opened.unwrap();
    assert_eq!((replica.values()[5], reopened.blocks), (3, 6));
    assert_eq!((reopened.cut, reopened.mended), (0, 0));
}

/// One file for both, the files of each other, a lost one, and one that is no journal: what is said is why,
/// and every file is left as it is.
#[test]
fn files_of_others() {
    let runs = Runs::new("durable_others");
    printed(&runs.run(0, 0));
    printed(&runs.run(0, 0));
    let good = [0, 1].map(|k| fs::read(&runs.files[k]).unwrap());
    let fails = |files: [&Path; 2]| {
        let ran = Command::new(&runs.program).args(files).output().unwrap();
        assert_eq!(ran.status.code(), Some(1));
        let said = String::from_utf8(ran.stderr).unwrap();
        assert!([0, 1].map(|k| fs::read(&runs.files[k]).unwrap()) == good);
        said.lines().last().unwrap().to_string()
    };
    let [first, second] = [0, 1].map(|k| runs.files[k].as_path());
    assert!(fails([first, first]).ends_with("first.journal: it is open already"));
    let said = fails([second, first]);
    assert!(said.ends_with("second.journal: it is of replica 1, not of 0"));
    let lost = first.with_file_name("lost.journal");
    let _ = fs::remove_file(&lost);
    let said = fails([&lost, second]);
    let due = "the replicas do not meet, at the turns 0 and 4: is a journal lost?";
    assert_eq!(said, due);
    fs::write(&lost, "stems\n").unwrap();
    let said = fails([&lost, second]);
    assert!(said.ends_with("the mark is missing"), "{said}");
    assert_eq!(fs::read(&lost).unwrap(), b"stems\n");
    // The same number twice, in files of two runs: both have sent slot 1, with other bytes.
    let twin = first.with_file_name("twin.journal");
    let _ = fs::remove_file(&twin);
    let opened = Durable::open(&twin, "durable", 2, 1, &[0; ITEMS]);
    let (mut replica, _) = opened.unwrap();
    for slot in 0..4 {
        let block = match slot % 2 {
            0 => good[0][HEAD + BLOCK * slot..]
                .first_chunk()
                .copied()
                .unwrap(),
            _ => replica.send().unwrap(),
        };
        replica.take(&block).unwrap();
    }
    drop(replica);
    let said = fails([first, &twin]);
    assert_eq!(
        said,
        "the replicas have committed different things by turn 4"
    );
}

/// The steps of two runs: a head is durable before anything is, a block and its copy before it is handed out,
/// what is taken up before the run goes on, and the folder before all.
#[test]
fn steps_in_their_order() {
    let runs = Runs::new("durable_steps");
    let made = "folder\ncut 12288\nsync 12288\nwrite 808 at 0\nsync 12288\ncut 12288\nsync 12288\n";
    let first = format!(
        "{made}{made}write 512 at 12288\nwrite 528 at 4096\nsync 12800\nwrite 512 at 12288\n\
         write 512 at 12800\nwrite 1040 at 4096\nsync 13312\nwrite 512 at 12800\n"
    );
    assert_eq!(String::from_utf8(runs.run(0, 0).stderr).unwrap(), first);
    let second = "folder\ncut 13312\nwrite 512 at 12288\nwrite 512 at 12800\nwrite 528 at 4096\nsync 13312\n\
                  folder\ncut 13312\nwrite 1024 at 12288\nwrite 1040 at 4096\nsync 13312\n\
                  write 512 at 13312\nwrite 1040 at 8192\nsync 13824\nwrite 512 at 13312\n\
                  write 512 at 13824\nwrite 1040 at 8192\nsync 14336\nwrite 512 at 13824\n";
    assert_eq!(String::from_utf8(runs.run(0, 0).stderr).unwrap(), second);
    let third = String::from_utf8(runs.run(0, 0).stderr).unwrap();
    let due = "folder\ncut 14336\nwrite 1024 at 12800\nwrite 512 at 13824\nwrite 1040 at 8192\nsync 14336\n";
    assert!(third.starts_with(due), "{third}");
}

/// Where an fsync fails or a write is short, the program ends and says why: nothing is handed out, and the
/// file is what was durable.
#[test]
fn failed_steps() {
    let runs = Runs::new("durable_fails");
    printed(&runs.run(0, 0));
    let good = fs::read(&runs.files[0]).unwrap();
    let error = "Input/output error";
    let (steps, said) = runs.fails(1, 0);
    assert_eq!(steps, "folder");
    let due = format!("first.journal: its folder cannot be made durable: {error}");
    assert!(said.ends_with(&due), "{said}");
    // Of an open: nothing that was perhaps handed out is cut off.
    let (steps, said) = runs.fails(2, 0);
    assert!(steps.ends_with("sync 13312\ncut 13312"), "{steps}");
    assert!(said.starts_with("cannot sync the journal"), "{said}");
    assert!(fs::read(&runs.files[0]).unwrap() == good);
    // Of the sends of the first and of the second replica.
    let (steps, said) = runs.fails(5, 0);
    assert!(
        steps.ends_with("sync 13824\ncut 13312\nwrite 16 at 8192"),
        "{steps}"
    );
    assert!(said.ends_with(&format!("first.journal: {error}")), "{said}");
    assert_eq!([0, 1].map(|k| runs.blocks(k).len()), [1_024, 1_024]);
    let (steps, _) = runs.fails(6, 0);
    assert!(
        steps.ends_with("sync 14336\ncut 13312\nwrite 16 at 8192"),
        "{steps}"
    );
    assert_eq!([0, 1].map(|k| runs.blocks(k).len()), [1_536, 1_024]);
    // The rest of a short write does not fit: of the second's block, and of its copy.
    let before = runs.blocks(1);
    for (short, doing) in [(6, "append to"), (7, "put a copy into")] {
        let (_, said) = runs.fails(0, short);
        let due = format!("cannot {doing} the journal {}", runs.files[1].display());
        assert_eq!(said, format!("{due}: No space left on device"));
        assert!(runs.blocks(1) == before, "{short}");
    }
    let said = printed(&runs.run(0, 0));
    assert!(said.contains("first.journal: 3 blocks\n"), "{said}");
}

/// The header in each language that it is for, with the file to compile in.
#[test]
fn header_in_each_language() {
    let source = "#include \"stemline_journal.h\"\n#include <stdio.h>\n\
        int main(void) {\nstatic stemline_journal j; static stemline_replica r; static stemline_reopened f;\n\
        static const int32_t start[STEMLINE_ITEMS] = {0};\n\
        printf(\"%d %s\\n\", stemline_journal_open(&j, &r, \"none\", \"\", 2, 0, start, &f), j.why);\n\
        return 0;\n}\n";
    let mut languages = vec![("main.c", "cc", "-std=c99"), ("main.c", "cc", "-std=c11")];
    if has_cpp() {
        languages.push(("main.cc", "c++", "-std=c++17"));
    }
    for (file, compiler, standard) in languages {
        let main = (file, compiler, standard, source);
        let journal = ("stemline_journal.c", "cc", "-std=c11", JOURNAL);
        let program = build("journal_header", &[main, journal]);
        let due = "-1 cannot open the journal none: the group has no name\n";
        assert_eq!(printed(&run(&program, b"")), due);
    }
    let value = |name: &str| {
        let header = include_str!("../../../include/stemline_journal.h");
        let line = header
            .lines()
            .find_map(|line| line.strip_prefix(&format!("#define {name} ")));
        line.and_then(|rest| rest.split_whitespace().next()?.parse().ok())
    };
    assert_eq!(value("STEMLINE_JOURNAL_HEAD"), Some(HEAD));
}
