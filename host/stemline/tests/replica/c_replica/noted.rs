//! Replicas of the model whose calls are put down as lines for the C program.

use std::cell::RefCell;
use std::rc::Rc;

use model::drive::{start_values, Gives, Machine, Powered, Subject};
use model::giving::Given;
use model::replay::{giving_line, hex, show_given};
use model::replica::{Replica, Report, Restarted, ITEMS};
use model::trace::{Answer, Call, Restart};
use model::window::Window;

use crate::lines::{line, shown};

/// Lines for the C program, and what it must print.
#[derive(Default)]
pub struct List {
    pub lines: String,
    pub due: String,
}

impl List {
    fn add(&mut self, line: &str, answer: &str) {
        self.lines.push_str(&format!("{line}\n"));
        self.due.push_str(&format!("{answer}\n"));
    }
}

/// A replica or station of the model at a place, whose calls are put down.
pub struct Noted {
    pub place: usize,
    pub model: Machine,
    list: Rc<RefCell<List>>,
}

impl Noted {
    /// Replica `own` of `n`, as it is after so many slots and tickets, at the place of its number.
    pub fn new(list: &Rc<RefCell<List>>, n: u32, own: u32, late: (u32, u32)) -> Noted {
        let model = Replica::make(n, own, &start_values()).unwrap();
        let line = format!("L {own} {n} {own} {} {}", late.0, late.1);
        Noted::of(list, own as usize, model, late, &line)
    }

    /// A station of a group of `n` so, at a place above those of the replicas.
    pub fn station(list: &Rc<RefCell<List>>, n: u32, place: usize, late: (u32, u32)) -> Noted {
        let model = Replica::station(n, &start_values()).unwrap();
        let line = format!("I {place} {n} {} {}", late.0, late.1);
        Noted::of(list, place, model, late, &line)
    }

    fn of(
        list: &Rc<RefCell<List>>,
        place: usize,
        model: Replica,
        late: (u32, u32),
        line: &str,
    ) -> Noted {
        let noted = Noted {
            place,
            model: Machine::new(model.fast_forward(late.0, late.1)),
            list: list.clone(),
        };
        noted.note(line, "0");
        noted
    }

    pub fn note(&self, line: &str, answer: &str) {
        self.list.borrow_mut().add(line, answer);
    }
}

impl Subject for Noted {
    fn call(&mut self, call: &Call) -> Result<Answer, u8> {
        let answer = self.model.call(call);
        self.note(&line(self.place, call), &shown(&answer));
        answer
    }

    fn report(&self) -> Report {
        self.model.report()
    }

    fn values(&self) -> [i32; ITEMS] {
        self.model.values()
    }
}

impl Gives for Noted {
    fn window(&self) -> Window {
        self.model.window()
    }

    fn give(&mut self, turns: &[u32], window: &Window) -> Given {
        let given = self.model.give(turns, window);
        self.note(&giving_line(self.place, turns), &show_given(&given));
        given
    }
}

impl Powered for Noted {
    fn disk(&self) -> &[u8] {
        self.model.disk()
    }

    fn floor(&self) -> usize {
        self.model.floor()
    }

    fn ended(&mut self, call: &Call) {
        let floor = self.model.floor;
        let _ = self.call(call);
        self.model.floor = floor;
    }

    fn restart(&mut self, restart: &Restart) -> Result<Restarted, u8> {
        let answer = self.model.restart(restart);
        let (k, n, own) = (self.place, restart.n, restart.own);
        let line = format!("T {k} {n} {own} {}", restart.journal.len());
        let shown = match &answer {
            Ok(restarted) => format!("0 {} {}", restarted.count, hex(&*restarted.block)),
            Err(number) => number.to_string(),
        };
        self.note(&line, &shown);
        answer
    }
}
