//! The scenes of `model/testdata`: the library answers what stands there, in the words of this crate.

use model::block::BLOCK;
use model::drive::{Gives, Powered, Subject};
use model::giving::Given;
use model::replica::{self as second, Restarted, ITEMS};
use model::scenes::{self, Player};
use model::trace::{Answer, Call, Restart};
use model::window::Window;
use soak::played_at_station;
use stemline::ffi::Txn;
use stemline::{Memory, Refusal, Replica, Station, KEPT};

use crate::both::{answered, append, lent, play, report, restarted, stepped};

/// A replica of the library and its disk, or a station.
enum Library {
    Replica(Replica, Vec<u8>),
    Station(Station),
}

impl Library {
    fn make(n: u32, own: Option<u32>, values: &[i32; ITEMS]) -> Result<Library, u8> {
        let made = match own {
            Some(own) => {
                Replica::new(n, own, values).map(|made| Library::Replica(made, Vec::new()))
            }
            None => Station::new(n, values).map(Library::Station),
        };
        made.map_err(Refusal::number)
    }

    fn memory(&self) -> &Memory {
        match self {
            Library::Replica(replica, _) => replica.memory(),
            Library::Station(station) => station.memory(),
        }
    }

    fn alter(&mut self, change: impl FnOnce(&mut Memory)) {
        let mut memory = self.memory().clone();
        change(&mut memory);
        match self {
            Library::Replica(replica, _) => *replica = Replica::from_memory(memory),
            Library::Station(station) => *station = Station::from_memory(memory).unwrap(),
        }
    }
}

impl Subject for Library {
    fn call(&mut self, call: &Call) -> Result<Answer, u8> {
        match self {
            Library::Replica(replica, disk) => play(replica, call, disk),
            Library::Station(station) => match played_at_station!(station, call) {
                Some(answer) => answer,
                // A call that a station has not is refused by 25 over its memory, and changes nothing there.
                None => {
                    let mut over = Replica::from_memory(station.memory().clone());
                    let answer = play(&mut over, call, &mut Vec::new());
                    assert!(answer == Err(25) && over.memory() == station.memory());
                    answer
                }
            },
        }
    }
    fn report(&self) -> second::Report {
        report(match self {
            Library::Replica(replica, _) => replica.report(),
            Library::Station(station) => station.report(),
        })
    }
    fn values(&self) -> [i32; ITEMS] {
        self.memory().values
    }
}

impl Powered for Library {
    fn disk(&self) -> &[u8] {
        match self {
            Library::Replica(_, disk) => disk,
            Library::Station(_) => &[],
        }
    }
    fn floor(&self) -> usize {
        0
    }
    fn restart(&mut self, restart: &Restart) -> Result<Restarted, u8> {
        let Library::Replica(replica, disk) = self else {
            panic!("a station has no restart");
        };
        let restarted = restarted(replica, restart)?;
        *disk = restart.journal[..BLOCK * restarted.count as usize].to_vec();
        Ok(restarted)
    }
}

impl Gives for Library {
    fn window(&self) -> Window {
        let Memory { turn, window, .. } = self.memory();
        let slots = turn.slot.saturating_sub(KEPT as u32)..turn.slot;
        let first = slots.clone().find(|&slot| window.block(slot).is_some());
        let first = first.unwrap_or(turn.slot);
        let block = |slot| *window.block(slot).expect("behind the first there is each");
        Window::of(first, (first..turn.slot).map(block))
    }
    fn give(&mut self, turns: &[u32], window: &Window) -> Given {
        let Library::Replica(replica, disk) = self else {
            panic!("a station is not given what it missed");
        };
        let given = answered(replica.giver(turns), replica.give(turns, &lent(window)));
        append(disk, replica.memory());
        let (number, giver, aborted) = given;
        Given {
            number,
            giver,
            aborted,
            calls: Vec::new(),
        }
    }
}

impl Player for Library {
    fn late(&mut self, slots: u32, tickets: u32) {
        self.alter(|memory| {
            memory.turn.slot += slots;
            memory.counts.tickets += tickets;
            memory.counts.withdrawn += tickets;
        });
    }
    fn lose(&mut self, ticket: u32) {
        self.alter(|memory| {
            let rows = memory.table.iter_mut();
            rows.filter(|row| row.ticket == ticket)
                .for_each(|row| *row = Txn::default());
        });
    }
}

#[test]
fn the_library_answers_them() {
    let words = |number| Refusal::from_number(number).map_or("accepted", Refusal::words);
    let played = |scene| match scenes::play(scene, Library::make, words) {
        Ok(played) => scenes::difference(scene, &played),
        Err(error) => Some(error),
    };
    let scenes = scenes::files().unwrap_or_else(|error| panic!("{error}"));
    let found: Vec<String> = scenes.iter().filter_map(played).collect();
    assert!(found.is_empty(), "\n{}", found.join("\n"));
}
