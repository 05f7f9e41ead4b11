//! Plays simulated groups of drivers by seed, for as long as asked, and says what is wrong with them.

use std::env;
use std::io::{self, Write};
use std::process::ExitCode;
use std::time::{Duration, Instant};

use stemline::testing::{run, Seen};

const HELP: &str = "\
usage: kit [--runs N] [--seconds S] [--seed FIRST]

Plays groups of drivers, seed after seed: replicas with journals and stations, over a network that loses,
delays, repeats, reorders and falls apart, on disks that lose, tear and garble what was not made durable.
At the end of each run all is mended, and what members handed out and clients were told is checked.
Every ten seconds it prints how much was done.

  --runs N      ends after so many runs
  --seconds S   ends after so many seconds, whatever was done
  --seed FIRST  the seed of the first run; each takes the seed after the last (0)

With neither, 1,000 runs. The status is 0 where all was right, 1 at the first run that was not, of which the
seed is printed, 2 for other arguments.";

/// Between two lines of progress.
const PAUSE: Duration = Duration::from_secs(10);

/// What was asked for.
struct Options {
    runs: Option<u64>,
    seconds: Option<u64>,
    seed: u64,
}

fn options(mut arguments: impl Iterator<Item = String>) -> Result<Options, String> {
    let mut options = Options {
        runs: None,
        seconds: None,
        seed: 0,
    };
    while let Some(name) = arguments.next() {
        if !["--runs", "--seconds", "--seed"].contains(&name.as_str()) {
            return Err(format!(
                "there is no option {name:?}; --help says which there are"
            ));
        }
        let number = arguments.next().ok_or(format!("{name} wants a number"))?;
        let number = number.replace(',', "").parse();
        let number = number.map_err(|_| format!("{name} wants a number"))?;
        match name.as_str() {
            "--runs" => options.runs = Some(number),
            "--seconds" => options.seconds = Some(number),
            _ => options.seed = number,
        }
    }
    if options.runs.is_none() && options.seconds.is_none() {
        options.runs = Some(1_000);
    }
    Ok(options)
}

fn main() -> ExitCode {
    let arguments: Vec<String> = env::args().skip(1).collect();
    if arguments.iter().any(|argument| argument == "--help") {
        println!("{HELP}");
        return ExitCode::SUCCESS;
    }
    match options(arguments.into_iter()) {
        Ok(options) => play(&options),
        Err(words) => {
            eprintln!("kit: {words}");
            ExitCode::from(2)
        }
    }
}

fn play(options: &Options) -> ExitCode {
    let begun = Instant::now();
    let (mut seen, mut said) = (Seen::default(), begun);
    let more = |seen: &Seen| {
        let runs = options.runs.is_none_or(|runs| seen.runs < runs);
        let seconds = options.seconds.map(Duration::from_secs);
        runs && seconds.is_none_or(|seconds| begun.elapsed() < seconds)
    };
    while more(&seen) {
        let seed = options.seed.wrapping_add(seen.runs);
        match run(seed) {
            Ok(of) => seen.add(&of),
            Err(complaint) => {
                say(&seen, begun);
                eprintln!("kit: {complaint}");
                eprintln!("kit: --seed {seed} --runs 1 plays this run again");
                return ExitCode::FAILURE;
            }
        }
        if said.elapsed() >= PAUSE {
            said = Instant::now();
            say(&seen, begun);
        }
    }
    say(&seen, begun);
    let _ = writeln!(io::stdout(), "kit: 0 complaints");
    ExitCode::SUCCESS
}

/// A line of progress. Where it cannot be printed, the runs go on all the same: the status counts.
fn say(seen: &Seen, begun: Instant) {
    let _ = writeln!(io::stdout(), "kit: {seen}; {} s", begun.elapsed().as_secs());
}
