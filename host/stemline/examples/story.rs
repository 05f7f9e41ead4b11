//! Three replicas hold one face, and set stems. `host/examples/story.c` plays the same in C and prints
//! the same.
//!
//!     cargo run --offline --release -p stemline --example story

use std::io::{self, Write};
use std::process::ExitCode;

use stemline::{Refusal, Replica, BLOCK, ITEMS};

pub fn main() -> ExitCode {
    match tell(&mut io::stdout().lock()) {
        Ok(()) => ExitCode::SUCCESS,
        Err(words) => {
            let _ = writeln!(io::stderr(), "story: {words}");
            ExitCode::FAILURE
        }
    }
}

/// Plays the story and writes it out; or why not, in words.
pub fn tell(out: &mut impl Write) -> Result<(), String> {
    let text = story().map_err(|refusal| refusal.to_string())?;
    let written = out.write_all(text.as_bytes()).and_then(|()| out.flush());
    written.map_err(|error| format!("cannot print: {error}"))
}

/// The replicas, and what is printed of them.
struct Story {
    replicas: Vec<Replica>,
    text: String,
}

/// Plays the story and gives each step with the measures after it.
pub fn story() -> Result<String, Refusal> {
    let start = [0; ITEMS];
    let replicas = (0..3).map(|own| Replica::new(3, own, &start));
    let mut s = Story {
        replicas: replicas.collect::<Result<_, _>>()?,
        text: String::new(),
    };

    s.say("Behind each step: three measures, each at replicas 0, 1, 2.");
    s.say(&format!("{:66}item 5    item 10   item 20", ""));
    s.say("Two stems on different letters.");
    s.set(0, 10, 80)?;
    s.set(1, 20, 70)?;
    let first = s.send()?;
    s.take(0, &first)?;
    s.take(1, &first)?;
    let second = s.send()?;
    s.take(1, &second)?;
    s.take(0, &second)?;

    s.say("Replica 2 gets the second block before the first.");
    s.take(2, &second)?;
    s.take(2, &first)?;

    s.say("The stem of the n: replica 2 sets 86, then replica 0 sets 84.");
    s.set(2, 5, 86)?;
    let to_86 = s.send()?;
    s.take(2, &to_86)?;
    s.take(0, &to_86)?;
    s.set(0, 5, 84)?;
    let to_84 = s.send()?;
    s.take(0, &to_84)?;

    s.say("Replica 1 gets the 84 before the 86.");
    s.take(1, &to_84)?;
    s.take(1, &to_86)?;
    s.take(2, &to_84)?;

    s.end();
    Ok(s.text)
}

impl Story {
    fn say(&mut self, line: &str) {
        self.text.push_str(line);
        self.text.push('\n');
    }

    /// A transaction that writes one item, and asks for commit.
    fn set(&mut self, k: usize, item: u32, value: i32) -> Result<(), Refusal> {
        let replica = &mut self.replicas[k];
        let ticket = replica.begin()?;
        let old = replica.read(ticket, item)?;
        replica.write(ticket, item, value)?;
        replica.ask(ticket)?;
        self.show(format!(
            "replica {k}: ticket {ticket} sets item {item} from {old} to {value}"
        ));
        Ok(())
    }

    /// The replica whose turn it is sends. While some are behind, that is one of those in front.
    fn send(&mut self) -> Result<[u8; BLOCK], Refusal> {
        let whose = self.replicas.iter().position(Replica::is_turn);
        let k = whose.ok_or(Refusal::NotOurTurn)?;
        let block = self.replicas[k].send()?;
        self.show(format!("replica {k}: sends a block"));
        Ok(block)
    }

    /// A block arrives, and what waits at the turn is worked off.
    fn take(&mut self, k: usize, block: &[u8]) -> Result<(), Refusal> {
        let mut text = format!("replica {k}: takes a block");
        for (at, work) in self.replicas[k].take(block)?.steps.iter().enumerate() {
            let verb = if at == 0 { " commits" } else { "" };
            text += &format!(",{verb} ticket {} of {}", work.ticket, work.sender);
        }
        self.show(text);
        Ok(())
    }

    /// A step, and the three measures at each replica after it.
    fn show(&mut self, step: String) {
        let mut line = format!("  {step:<62}");
        for item in [5, 10, 20] {
            let at = |k: usize| self.replicas[k].values()[item];
            line += &format!("  {:2} {:2} {:2}", at(0), at(1), at(2));
        }
        self.say(&line);
    }

    /// What each replica reports, and whether all hold the same.
    fn end(&mut self) {
        for k in 0..3 {
            let said = self.replicas[k].report();
            self.say(&format!(
                "replica {k}: turn {}, commits {}, own {}",
                said.turn, said.commits, said.committed
            ));
        }
        let first = self.replicas[0].values();
        let equal = self.replicas.iter().all(|r| r.values() == first);
        let word = if equal { "yes" } else { "no" };
        self.say(&format!(
            "All three replicas hold the same measures: {word}"
        ));
    }
}
