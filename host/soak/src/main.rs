//! The library beside the model, and a program over journals that is killed, for as long as asked.

use std::fmt::Display;
use std::io::{self, Write};
use std::path::{Path, PathBuf};
use std::process::{exit, Command, ExitCode};
use std::time::{Duration, Instant};
use std::{env, fs};

use model::drive::{Givings, Seen};
use soak::crash::{program, Crash, Met};
use soak::lines::grouped;
use soak::plan::{Done, Plan, Step, Steps};
use soak::runs;

const HELP: &str = "\
usage: scripts/soak [--calls N] [--kills N] [--minutes M] [--seed S]

Compares the library with the second model call by call, in random runs by seed, of replicas and stations,
and kills a program over journals at random moments, after which nothing that it handed out may be lost.
Every ten seconds it prints how much was done.

  --calls N    the calls to compare, at least
  --kills N    the kills
  --minutes M  ends after so many minutes, whatever was done; alone, it goes on so long
  --seed S     the seed of the first run; each takes the seed after the last (0)

With no option, 1,000,000 calls and 40 kills. The status is 0 where all was the same and nothing was lost,
1 at the first difference or loss, 2 where it cannot begin, or can no longer print.";

/// Between two lines of progress.
const PAUSE: Duration = Duration::from_secs(10);

/// The steps at the library, the folder of the killed group, and the givings compared.
struct Soak {
    room: PathBuf,
    crash: Option<Crash>,
    givings: Givings,
}

impl Steps for Soak {
    fn run(&mut self, seed: u64) -> Seen {
        let mut seen = runs::run(seed);
        seen.add(&runs::run_with_cuts(seed));
        let (with_givings, givings) = runs::run_with_givings(seed);
        seen.add(&with_givings);
        self.givings.add(&givings);
        seen
    }

    fn kill(&mut self, new: Option<u64>) {
        if let Some(seed) = new {
            self.crash = Some(Crash::new(&self.room, seed));
        }
        let program = env::current_exe().expect("the program's own path");
        let crash = self.crash.as_mut().expect("a group has begun");
        crash.kill(Command::new(program));
    }

    fn rest(&mut self) -> Met {
        self.crash.take().expect("a group has begun").rest()
    }
}

/// How to see a difference again. Of a killed group that is what it left.
fn again(step: Step, room: &Path) -> String {
    match step {
        Step::Run(seed) => {
            let _ = fs::remove_dir_all(room);
            format!("scripts/soak --seed {seed} --calls 1 plays this run again")
        }
        Step::Kill(_) | Step::Rest => {
            format!("the journals and the log are left in {}", room.display())
        }
    }
}

/// Prints a line. Where that cannot be, nobody learns what is done: the soak ends, and takes its folder with
/// it.
fn say(room: Option<&Path>, line: impl Display) {
    let mut out = io::stdout().lock();
    let printed = writeln!(out, "{line}").and_then(|()| out.flush());
    if let Err(error) = printed {
        room.map(fs::remove_dir_all);
        complain(format!("cannot print: {error}"));
        exit(2);
    }
}

/// A line on standard error. If it cannot be told there, the status tells it.
fn complain(words: impl Display) {
    let _ = writeln!(io::stderr(), "soak: {words}");
}

fn summary(done: &Done, givings: &Givings, room: &Path) {
    // What a loss left is to be looked at.
    let room = done.difference.is_none().then_some(room);
    let say = |line: String| say(room, line);
    say(format!("soak: {done}"));
    if done.seen.calls > 0 {
        let (restarts, refused) = (grouped(done.seen.restarts), runs::refused(&done.seen));
        say(format!(
            "soak: compared: {restarts} restarts besides; calls refused, by number: {refused}"
        ));
        say(format!("soak: compared: givings: {}", runs::given(givings)));
    }
    if done.kills > 0 {
        let end = done.difference.map_or("; nothing lost", |_| "");
        say(format!("soak: killed: {}{end}", done.met));
    }
}

/// What is asked for, and a folder that can be written to.
fn begin(words: Vec<String>) -> Result<(Plan, PathBuf), String> {
    let plan = Plan::of(words)?;
    let room = env::temp_dir().join(format!("stemline-soak-{}", std::process::id()));
    let made = fs::create_dir_all(&room).and_then(|()| fs::remove_dir(&room));
    match made {
        Ok(()) => Ok((plan, room)),
        Err(error) => Err(format!("cannot write to {}: {error}", room.display())),
    }
}

fn main() -> ExitCode {
    if program::run() {
        return ExitCode::SUCCESS;
    }
    let words: Vec<String> = env::args().skip(1).collect();
    if words.iter().any(|word| word == "--help") {
        say(None, HELP);
        return ExitCode::SUCCESS;
    }
    let (plan, room) = match begin(words) {
        Ok(begun) => begun,
        Err(words) => {
            complain(words);
            return ExitCode::from(2);
        }
    };
    let mut soak = Soak {
        room,
        crash: None,
        givings: Givings::default(),
    };
    let mut said = Instant::now();
    let folder = soak.room.clone();
    let done = plan.go(&mut soak, |done| {
        if said.elapsed() >= PAUSE {
            said = Instant::now();
            say(Some(&folder), format!("soak: {done}"));
        }
    });
    if let Some(step) = done.difference {
        complain(again(step, &soak.room));
    }
    summary(&done, &soak.givings, &soak.room);
    match done.difference {
        None => ExitCode::SUCCESS,
        Some(_) => ExitCode::FAILURE,
    }
}
