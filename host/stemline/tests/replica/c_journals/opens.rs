//! What C opens Rust opens, and what either takes up, mends, cuts off and refuses is the same.

use std::fs;
use std::path::Path;

use model::samples::Random;
use stemline::{notices_path, Durable, Replica, BLOCK, HEAD, ITEMS};

use super::JOURNAL;
use crate::c::{build, printed, run};
use crate::files::Room;
use crate::looks::digits;

const OPENS: &str = include_str!("../../c/journal.c");

/// A journal, and the notices beside it, if there are any.
#[derive(Clone, PartialEq)]
struct Files(Vec<u8>, Option<Vec<u8>>);

impl Files {
    fn put(&self, path: &Path) {
        fs::write(path, &self.0).unwrap();
        match &self.1 {
            Some(notices) => fs::write(notices_path(path), notices).unwrap(),
            None => drop(fs::remove_file(notices_path(path))),
        }
    }

    fn of(path: &Path) -> Files {
        Files(fs::read(path).unwrap(), fs::read(notices_path(path)).ok())
    }
}

/// The files of replica `own` of `n` after so many slots; with the next replica out from slot 3 on, and back later,
/// and from slot 8 on the own one.
fn journal(path: &Path, n: u32, own: u32, slots: u32, noticed: bool) -> Files {
    Files(Vec::new(), None).put(path);
    let opened = Durable::open(path, "grotesque", n, own, &[0; ITEMS]);
    let (mut replica, _) = opened.unwrap();
    let made = |own| Replica::new(n, own, &[0; ITEMS]).unwrap();
    let mut others: Vec<Replica> = (0..n).filter(|&k| k != own).map(made).collect();
    while replica.report().turn < slots {
        let slot = replica.report().turn;
        let next = (own + 1) % n;
        macro_rules! all {
            ($call:ident, $($given:expr),*) => {{
                replica.$call($($given),*).unwrap();
                for other in &mut others {
                    other.$call($($given),*).unwrap();
                }
            }};
        }
        match slot {
            2 if noticed => all!(out, next, 3),
            6 if noticed => all!(back, next, 4 + n),
            8 if noticed => all!(out, own, 8),
            _ => {}
        }
        if replica.waits() {
            all!(work,);
            continue;
        }
        if slot % n == own {
            let ticket = replica.begin().unwrap();
            replica.write(ticket, slot % 9, slot as i32).unwrap();
            replica.ask(ticket).unwrap();
        }
        let sender = others.iter_mut().find(|other| other.is_turn());
        let block = match sender {
            Some(sender) => sender.send().unwrap(),
            None => replica.send().unwrap(),
        };
        // Not by a take, which would pass the slots behind it.
        replica.deliver(&block).unwrap();
        while !replica.work().unwrap().moved {}
        for other in &mut others {
            other.deliver(&block).unwrap();
            while !other.work().unwrap().moved {}
        }
    }
    drop(replica);
    Files::of(path)
}

/// Something that a file may have suffered: bits, a cut, more behind it, a part of zeros.
fn suffer(random: &mut Random, file: &mut Vec<u8>) {
    let places = [0, 808, 4_096, 4_096 + 1_100, 8_192, HEAD, file.len()];
    let near = random.pick(&places) + random.below(700);
    let any = random.below(file.len() + 1);
    let at = random
        .pick(&[near, any, any])
        .min(file.len().saturating_sub(1));
    match random.below(8) {
        0..3 if !file.is_empty() => file[at] ^= 1 << random.below(8),
        3 => file.truncate(at),
        4 => file.truncate(file.len().saturating_sub(random.below(1_200))),
        5 => {
            let more = random.below(1_400);
            file.extend(vec![random.below(3) as u8; more]);
        }
        6 => {
            let end = file.len().min(at + random.below(600));
            file[at.min(end)..end].fill(0);
        }
        _ => {}
    }
}

/// What Rust's open says of a file, as `journal.c` says it.
fn opened(path: &Path, n: u32, own: u32) -> String {
    match Durable::open(path, "grotesque", n, own, &[0; ITEMS]) {
        Ok((replica, found)) => format!(
            "{} blocks, {} mended, {} notices, {} cut: {}; {}; last {}{}",
            found.blocks,
            found.mended,
            replica.notices().len(),
            found.cut,
            found.why,
            replica.digest(),
            digits(&found.last.unwrap_or([0; BLOCK])),
            replica
                .notices()
                .iter()
                .map(|notice| format!("; {notice}"))
                .collect::<String>()
        ),
        Err(failure) => match failure.refusal() {
            Some(refusal) => refusal.words().to_string(),
            None => failure.to_string(),
        },
    }
}

/// Good, cut, damaged and other files: what C and Rust say of them, and leave of them, is the same.
#[test]
fn c_and_rust_open_the_same() {
    const FILES: usize = 3_000;
    let room = Room::new("c-and-rust");
    let room = &room.0;
    let program = build(
        "c_opens",
        &[
            ("opens.c", "cc", "-std=c99", OPENS),
            ("stemline_journal.c", "cc", "-std=c99", JOURNAL),
        ],
    );
    let mut random = Random::new(29);
    let groups = [
        (2, 0, 9, false),
        (2, 1, 3, false),
        (3, 1, 14, false),
        (6, 5, 29, false),
        (4, 0, 1, false),
        (3, 2, 0, false),
        (3, 1, 3, true),
        (3, 0, 7, true),
        (3, 2, 14, true),
        (2, 1, 12, true),
        (6, 3, 30, true),
    ];
    let made = room.join("made");
    let good = groups.map(|(n, own, slots, noticed)| {
        let files = journal(&made, n, own, slots, noticed);
        assert_eq!(files.1.is_some(), noticed);
        (n, own, files)
    });
    let (mut list, mut due) = (String::new(), Vec::new());
    for at in 0..FILES {
        let (n, own, ref files) = good[random.below(good.len())];
        let mut files = files.clone();
        for _ in 0..random.below(3) {
            match &mut files.1 {
                Some(notices) if random.below(3) == 0 => suffer(&mut random, notices),
                _ => suffer(&mut random, &mut files.0),
            }
        }
        // Now and then the notices are lost, or another's are there.
        if random.below(40) == 0 {
            files.1 = good[random.below(good.len())].2 .1.clone();
        }
        // Now and then as another.
        let (n, own) = match random.below(12) {
            0 => (2 + random.below(5) as u32, own),
            1 => (n, random.below(7) as u32),
            _ => (n, own),
        };
        let path = room.join(format!("{at}"));
        files.put(&path);
        let said = opened(&path, n, own);
        let left = Files::of(&path);
        if !said.contains(" blocks, ") {
            assert!(left == files, "{said}");
        }
        files.put(&path);
        list.push_str(&format!("{} {n} {own}\n", path.display()));
        due.push((path, said, left));
    }
    let said = printed(&run(&program, list.as_bytes()));
    assert_eq!(said.lines().count(), FILES);
    let mut met = [0; 6];
    for (line, (path, due, left)) in said.lines().zip(&due) {
        assert!(line.ends_with(&due[..]), "{line}\nin C, in Rust\n{due}");
        assert!(Files::of(path) == *left, "{line}");
        met[match due {
            _ if due.contains("notices are") => 5,
            _ if !due.contains(" blocks, ") => 0,
            _ if !due.contains(" 0 notices, ") => 4,
            _ if !due.contains(", 0 mended") => 1,
            _ if !due.contains(" 0 cut: ") => 2,
            _ => 3,
        }] += 1;
    }
    assert!(met.iter().all(|&count| count > 100), "{met:?}");
}
