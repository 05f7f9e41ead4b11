//! What became of a ticket, in C: after each step, and behind an open as Rust has it.

use std::process::Command;

use stemline::{Durable, Outcome, ITEMS};

use super::JOURNAL;
use crate::c::{build, printed};
use crate::files::Room;

const OUTCOMES: &str = include_str!("../../c/outcomes.c");
const DUE: &str = "\
asked: - asked asked - - open - -
sent: - sent sent - - open - -
taken: - committed 2 committed 1 - - open - -
the other's: - committed 2 committed 1 - - - - -
one more: - committed 2 committed 1 - - - committed 4 open
closed: -1
opened: - committed 2 committed 1 - - - committed 4 -
";

#[test]
fn outcomes_in_c() {
    let room = Room::new("c-outcomes");
    let file = room.0.join("first.journal");
    let program = build(
        "outcomes",
        &[
            ("outcomes.c", "cc", "-std=c99", OUTCOMES),
            ("stemline_journal.c", "cc", "-std=c99", JOURNAL),
        ],
    );
    let ran = Command::new(&program).arg(&file).output().unwrap();
    assert_eq!(printed(&ran), DUE);
    let (replica, _) = Durable::open(&file, "grotesque", 2, 0, &[0; ITEMS]).unwrap();
    let due = [0, 2, 1, 0, 0, 0, 4, 0].map(|place| match place {
        0 => Outcome::Unknown,
        place => Outcome::Committed(place),
    });
    assert_eq!([0, 1, 2, 3, 4, 5, 6, 7].map(|t| replica.outcome(t)), due);
}
