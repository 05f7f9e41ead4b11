//! The scenes of `testdata`: the model answers what stands there, and wrong replicas do not.

use std::collections::BTreeSet;
use std::env;
use std::fs;
use std::sync::OnceLock;

use model::drive::{Gives, Machine, Powered, Subject};
use model::giving::Given;
use model::replica::{Report, Restarted, ITEMS};
use model::scenes::{self, Player, Scene};
use model::trace::{Answer, Call, Restart};
use model::window::Window;

use crate::faults::FAULTS;
use crate::giving_faults;
use crate::history::{Fault, Historical};
use crate::notice_faults;
use crate::restart_faults;
use crate::station_faults;

// The words of the crate for hosts: a file that stands alone.
#[allow(dead_code)]
#[path = "../../../stemline/src/refusal.rs"]
mod refusal;

/// What a number says to a host.
fn words(number: u8) -> &'static str {
    refusal::Refusal::from_number(number).map_or("accepted", refusal::Refusal::words)
}

/// All scenes; written anew first, where that is asked for.
fn all() -> &'static [Scene] {
    static SCENES: OnceLock<Vec<Scene>> = OnceLock::new();
    SCENES.get_or_init(|| read().unwrap_or_else(|error| panic!("{error}")))
}

fn read() -> Result<Vec<Scene>, String> {
    let mut scenes = scenes::files()?;
    let said = env::var_os("SCENES_REWRITE").map(|said| said.to_string_lossy().into_owned());
    if rewrite(said.as_deref())? {
        for scene in &mut scenes {
            scene.text = scenes::play(scene, Machine::make, words)?;
            fs::write(&scene.path, &scene.text).map_err(|e| format!("{}: {e}", scene.name))?;
        }
    }
    Ok(scenes)
}

/// Whether `SCENES_REWRITE` asks for the files to be written anew.
fn rewrite(said: Option<&str>) -> Result<bool, String> {
    match said {
        None | Some("0") => Ok(false),
        Some("1") => Ok(true),
        Some(other) => Err(format!("SCENES_REWRITE is {other:?}: not 0 or 1")),
    }
}

#[test]
fn the_model_answers_them() {
    let played = |scene| match scenes::play(scene, Machine::make, words) {
        Ok(played) => scenes::difference(scene, &played),
        Err(error) => Some(error),
    };
    let found: Vec<String> = all().iter().filter_map(played).collect();
    assert!(found.is_empty(), "\n{}", found.join("\n"));
}

#[test]
fn the_flag() {
    for (said, due) in [(None, false), (Some("0"), false), (Some("1"), true)] {
        assert_eq!(rewrite(said), Ok(due));
    }
    let error = "SCENES_REWRITE is \"yes\": not 0 or 1";
    assert_eq!(rewrite(Some("yes")), Err(error.to_string()));
}

/// Every number of document 01's table, 23, 25 and 28 to 31 refuse a call in some scene; there is no 22 any
/// more, and no 24, and 26 and 27 are of another program.
#[test]
fn every_refusal_is_shown() {
    let lines = all().iter().flat_map(|scene| scene.text.lines());
    let refused = lines.filter_map(|line| line.split_once(" refuses by ")?.1.split_once(':'));
    let numbers: BTreeSet<u8> = refused.map(|(n, _)| n.parse().unwrap()).collect();
    let due = (1..=31).filter(|n| ![22, 24, 26, 27].contains(n));
    assert!(numbers.into_iter().eq(due));
}

/// A replica by history, which has no disk.
struct ByHistory(Historical);

impl ByHistory {
    fn make(
        n: u32,
        own: Option<u32>,
        values: &[i32; ITEMS],
        fault: Fault,
    ) -> Result<ByHistory, u8> {
        Machine::make(n, own, values)?;
        Ok(ByHistory(Historical::make(n, own, *values, fault)))
    }

    /// Whether a scene asks for nothing that it has not.
    fn can_play(scene: &Scene) -> bool {
        let beyond = ["restart", "journal", "late", "lose", "give"];
        let mut lines = scene.text.lines();
        !lines.any(|line| beyond.iter().any(|word| line.starts_with(word)))
    }
}

impl Subject for ByHistory {
    fn call(&mut self, call: &Call) -> Result<Answer, u8> {
        self.0.call(call)
    }
    fn report(&self) -> Report {
        self.0.report()
    }
    fn values(&self) -> [i32; ITEMS] {
        self.0.values()
    }
}

impl Powered for ByHistory {
    fn disk(&self) -> &[u8] {
        &[]
    }
    fn floor(&self) -> usize {
        0
    }
    fn restart(&mut self, _: &Restart) -> Result<Restarted, u8> {
        unreachable!("it has no disk")
    }
}

impl Player for ByHistory {
    fn late(&mut self, _: u32, _: u32) {
        unreachable!("it has all its history")
    }
    fn lose(&mut self, _: u32) {
        unreachable!("it has all its history")
    }
}

impl Gives for ByHistory {
    fn window(&self) -> Window {
        unreachable!("it has no window")
    }
    fn give(&mut self, _: &[u32], _: &Window) -> Given {
        unreachable!("it has no window")
    }
}

/// A machine with a fault around it, as a player: by the machine's memory.
macro_rules! player {
    ($faulty:ty) => {
        impl Player for $faulty {
            fn late(&mut self, slots: u32, tickets: u32) {
                self.machine.late(slots, tickets);
            }
            fn lose(&mut self, ticket: u32) {
                self.machine.lose(ticket);
            }
        }
    };
}

/// The same, and its window and givings are the machine's.
macro_rules! giving_player {
    ($faulty:ty) => {
        player!($faulty);

        impl Gives for $faulty {
            fn window(&self) -> Window {
                self.machine.window()
            }
            fn give(&mut self, turns: &[u32], window: &Window) -> Given {
                self.machine.give(turns, window)
            }
        }
    };
}

giving_player!(restart_faults::Faulty);
giving_player!(station_faults::Faulty);
giving_player!(notice_faults::Faulty);
player!(giving_faults::Faulty);

/// Whether such replicas do not answer what stands in the scene.
fn differs<P: Player>(
    scene: &Scene,
    make: impl Fn(u32, Option<u32>, &[i32; ITEMS]) -> Result<P, u8>,
) -> bool {
    let played = scenes::play(scene, make, words);
    played.map_or(true, |played| scenes::difference(scene, &played).is_some())
}

/// Document 01's wrong replicas, and those about classes: some scene tells each.
#[test]
fn wrong_replicas_are_told() {
    let playable = || all().iter().filter(|scene| ByHistory::can_play(scene));
    let told = |fault| {
        let make = |n, own, values: &_| ByHistory::make(n, own, values, fault);
        playable().any(|scene| differs(scene, make))
    };
    assert!(playable().count() >= 12 && !told(Fault::None));
    for (fault, _) in FAULTS {
        assert!(told(fault), "no scene tells {fault:?}");
    }
}

/// Machines that keep a journal or restart from it wrongly. Stamps that are gone after a restart no
/// answer shows: every later snapshot is at or above them.
#[test]
fn wrong_machines_are_told() {
    let told = |fault| {
        let faulty = |machine| restart_faults::Faulty::of(machine, fault);
        let make = |n, own, values: &_| Machine::make(n, own, values).map(faulty);
        all().iter().any(|scene| differs(scene, make))
    };
    assert!(!told(restart_faults::Fault::None));
    for (fault, _) in restart_faults::FAULTS {
        let shown = fault != restart_faults::Fault::NoStamps;
        assert_eq!(told(fault), shown, "{fault:?}");
    }
}

/// Stations that are not as document 02's Req 05 says.
#[test]
fn wrong_stations_are_told() {
    let told = |fault| {
        let faulty = |machine| station_faults::Faulty::of(machine, fault);
        let make = |n, own, values: &_| Machine::make(n, own, values).map(faulty);
        all().iter().any(|scene| differs(scene, make))
    };
    assert!(!told(station_faults::Fault::None));
    for (fault, _) in station_faults::FAULTS {
        assert!(told(fault), "no scene tells {fault:?}");
    }
}

/// Replicas and stations that are wrong about notices.
#[test]
fn wrong_notices_are_told() {
    let told = |fault| {
        let faulty = |machine| notice_faults::Faulty::of(machine, fault);
        let make = |n, own, values: &_| Machine::make(n, own, values).map(faulty);
        all().iter().any(|scene| differs(scene, make))
    };
    assert!(!told(notice_faults::Fault::None));
    for (fault, _) in notice_faults::FAULTS {
        assert!(told(fault), "no scene tells {fault:?}");
    }
}

/// Replicas that are wrong about windows and givings.
#[test]
fn wrong_givings_are_told() {
    let told = |fault| {
        let faulty = |machine| giving_faults::Faulty::of(machine, fault);
        let make = |n, own, values: &_| Machine::make(n, own, values).map(faulty);
        all().iter().any(|scene| differs(scene, make))
    };
    assert!(!told(giving_faults::Fault::None));
    for fault in giving_faults::FAULTS {
        assert!(told(fault), "no scene tells {fault:?}");
    }
}
