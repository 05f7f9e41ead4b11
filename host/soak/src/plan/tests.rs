use super::*;

fn plan(words: &str) -> Result<Plan, String> {
    Plan::of(words.split_whitespace().map(str::to_string))
}

/// Takes steps in words; each run has 100 calls of which one commits. One step is wrong.
#[derive(Default)]
struct Noted {
    steps: Vec<Step>,
    wrong: Option<usize>,
}

impl Noted {
    fn note(&mut self, step: Step) {
        assert_ne!(self.wrong, Some(self.steps.len()), "the wrong step");
        self.steps.push(step);
    }
}

impl Steps for Noted {
    fn run(&mut self, seed: u64) -> Seen {
        self.note(Step::Run(seed));
        Seen {
            calls: 100,
            commits: 1,
            ..Seen::default()
        }
    }
    fn kill(&mut self, new: Option<u64>) {
        self.note(Step::Kill(new));
    }
    fn rest(&mut self) -> Met {
        self.note(Step::Rest);
        Met {
            blocks: 7,
            ..Met::default()
        }
    }
}

/// What is done by these words, with the steps, of which one may be wrong.
fn gone(words: &str, wrong: Option<usize>) -> (Done, Vec<Step>) {
    let mut noted = Noted {
        wrong,
        ..Noted::default()
    };
    let done = plan(words).unwrap().go(&mut noted, |_| ());
    (done, noted.steps)
}

#[test]
fn words_of_the_command() {
    let given = plan("--calls 100,000,000 --kills 1000 --seed 7 --minutes 60");
    let due = Plan {
        calls: 100_000_000,
        kills: 1_000,
        seed: 7,
        minutes: Some(60),
    };
    assert_eq!(given, Ok(due));
    let numbers = |words| plan(words).map(|plan| (plan.calls, plan.kills));
    assert_eq!(numbers(""), Ok((1_000_000, 40)));
    assert_eq!(numbers("--calls 5"), Ok((5, 0)));
    assert_eq!(numbers("--kills 5 --minutes 1"), Ok((0, 5)));
    assert_eq!(numbers("--minutes 1").unwrap().0, u64::MAX);
    for (bad, words) in [
        ("--calls", "--calls needs a number"),
        ("--calls many", "--calls many: not a whole number"),
        ("--kills -1", "--kills -1: not a whole number"),
        ("--kil 1", "--kil: not an option; --help names them"),
        ("7", "7: not an option; --help names them"),
    ] {
        assert_eq!(plan(bad), Err(words.to_string()));
    }
}

/// Runs and kills by turns, each group checked after 40 kills and at the end.
#[test]
fn both_numbers_are_reached() {
    let (done, steps) = gone("--calls 950 --kills 100 --seed 5", None);
    assert_eq!(
        (done.seen.calls, done.kills, done.difference),
        (1_000, 100, None)
    );
    let runs: Vec<Step> = (5..15).map(Step::Run).collect();
    let of = |kind: fn(&Step) -> bool| steps.iter().copied().filter(kind).collect::<Vec<_>>();
    assert_eq!(of(|step| matches!(step, Step::Run(_))), runs);
    let new = of(|step| matches!(step, Step::Kill(Some(_))));
    assert_eq!(new, [5, 45, 85].map(|seed| Step::Kill(Some(seed))));
    assert_eq!(of(|step| *step == Step::Rest).len(), 3);
    assert_eq!((steps.last(), done.met.blocks), (Some(&Step::Rest), 21));
    // Neither is left for the end.
    let half = &steps[..steps.len() / 2];
    let kills = half.iter().filter(|step| matches!(step, Step::Kill(_)));
    assert!((45..=55).contains(&kills.count()), "{steps:?}");
    let said = done.to_string();
    assert!(
        said.starts_with("1,000 calls, 10 commits, 100 kills, 0 differences; "),
        "{said}"
    );
}

#[test]
fn one_number_alone() {
    assert_eq!(gone("--calls 1 --seed 9", None).1, [Step::Run(9)]);
    let (done, steps) = gone("--kills 1", None);
    assert_eq!(steps, [Step::Kill(Some(0)), Step::Rest]);
    assert_eq!((done.seen.calls, done.kills), (0, 1));
    assert_eq!(gone("--calls 0", None).1, []);
}

/// The first wrong step ends it, is named, and counts for nothing.
#[test]
fn a_difference_ends_it() {
    let (all, steps) = gone("--calls 300 --kills 2", None);
    assert_eq!(all.difference, None);
    for (at, &step) in steps.iter().enumerate() {
        let (done, before) = gone("--calls 300 --kills 2", Some(at));
        assert_eq!(done.difference, Some(step));
        assert_eq!(before, steps[..at]);
        assert!(done.to_string().contains(" 1 difference; "), "{done}");
        let runs = before.iter().filter(|step| matches!(step, Step::Run(_)));
        assert_eq!(done.seen.calls, 100 * runs.count() as u64);
    }
}

/// Where the time is over the killed group is still checked.
#[test]
fn the_time_is_over() {
    let (done, steps) = gone("--minutes 0", None);
    assert_eq!((done.seen.calls, steps), (0, vec![]));
    let plan = plan("--minutes 3").unwrap();
    let mut done = Done {
        kills: 1,
        unchecked: 1,
        time: Duration::from_secs(179),
        ..Done::default()
    };
    assert_eq!(plan.next(&done), Some(Step::Run(0)));
    done.time = Duration::from_secs(180);
    assert_eq!(plan.next(&done), Some(Step::Rest));
    done.unchecked = 0;
    assert_eq!(plan.next(&done), None);
}
