//! Groups whose journals are files, and lose power.

use std::fs;
use std::path::{Path, PathBuf};

use model::block::BLOCK;
use model::drive::{Group, Powered, Seen, Subject, STYLES};
use model::samples::Random;
use model::trace::Call;

use crate::seeds::Seeds;
use crate::studio::Studio;

/// A folder, which goes when its test ends. It is in memory where that can be, since a disk takes its time
/// for each block that is made durable.
pub struct Room(pub PathBuf);

impl Room {
    pub fn new(name: &str) -> Room {
        let shared = Path::new("/dev/shm");
        let room = match shared.is_dir() {
            true => shared.join(format!("stemline-{}-{name}", std::process::id())),
            false => Path::new(env!("CARGO_TARGET_TMPDIR")).join(name),
        };
        fs::create_dir_all(&room).unwrap();
        Room(room)
    }
}

impl Drop for Room {
    fn drop(&mut self) {
        let _ = fs::remove_dir_all(&self.0);
    }
}

/// A new group of `n` over files of the folder, with so many calls of a hundred about notices.
pub fn group(room: &Room, n: u32, seed: u64, notices: usize) -> Group<Studio> {
    let member = |own| Studio::new(room.0.join(format!("{own}.journal")), n, own);
    let style = STYLES[seed as usize % 4].with_notices(notices);
    Group::new((0..n).map(member).collect(), style)
}

/// Lets all come to rest; then demand 3 holds, and all journals are the same.
pub fn check(group: &mut Group<Studio>) {
    (0..group.members.len()).for_each(|k| group.open(k));
    group.settle(1);
    assert_eq!(group.violations(), [""; 0]);
    assert_eq!(group.observer.one_list(), Ok(()));
    assert!(group.observer.premise());
    for (k, member) in group.members.iter().enumerate() {
        assert_eq!(member.report(), group.tallies[k].report);
        assert_eq!(member.values(), group.members[0].values());
        assert!(member.disk() == group.members[0].disk(), "journal of {k}");
        member.check_file();
    }
}

/// A journal of which a cut may take three blocks and more, cut at each of their bytes; and one whose
/// last block is by a send that the cut ended.
#[test]
fn every_byte_of_the_last_three_blocks() {
    let room = Room::new("bytes");
    for lost in 0..=3 * BLOCK {
        for ended in [None, Some(Call::Send)] {
            let seed = 2 * lost as u64 + u64::from(ended.is_some());
            let n = 4 + seed as u32 % 3;
            let mut random = Random::new(seed);
            let mut group = group(&room, n, seed, 0);
            for _ in 0..60 {
                group.random_call(&mut random);
            }
            group.settle(1);
            // At its own slot, with the blocks of all others behind its last one.
            let k = group.sender().unwrap();
            let blocks = group.members[k].disk().len() / BLOCK + usize::from(ended.is_some());
            let restarted = group.cut(k, ended, |floor, all| {
                assert!(floor + 3 * BLOCK <= all);
                all - lost
            });
            assert_eq!(restarted.count as usize, blocks - lost.div_ceil(BLOCK));
            check(&mut group);
        }
    }
}

/// Random runs with cuts at any byte that one can leave.
#[test]
fn groups_over_files() {
    let room = Room::new("groups");
    let mut seen = Seen::default();
    let seeds = Seeds::new(20);
    seeds.each(|seed| {
        let mut random = Random::new(seed);
        let notices = [6, 0][seed as usize / 2 % 2];
        let mut group = group(&room, 2 + seed as u32 % 5, seed, notices);
        for _ in 0..1_000 {
            match random.below(40) {
                0 => group.random_cut(&mut random),
                _ => group.random_call(&mut random),
            }
        }
        check(&mut group);
        seen.add(&group.seen);
    });
    let enough = seen.restarts > 300 && seen.notices > 200 && seen.passed_out > 300;
    assert!(seeds.runs < 20 || enough, "{seen:?}");
}
