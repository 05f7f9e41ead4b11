//! Which random runs a test plays. `STEMLINE_SEED` is the seed of the first one and `STEMLINE_RUNS`
//! their number; each takes the seed after the last. All that a run does follows from its seed.

use std::env;

pub struct Seeds {
    first: u64,
    pub runs: u64,
}

/// Names the seed of a run that fails.
struct Named(u64);

impl Drop for Named {
    fn drop(&mut self) {
        if std::thread::panicking() {
            let seed = self.0;
            eprintln!("seed {seed}: STEMLINE_SEED={seed} STEMLINE_RUNS=1 plays this run again");
        }
    }
}

impl Seeds {
    /// As the environment says, else so many from seed 0 on.
    pub fn new(runs: u64) -> Seeds {
        let said = |name, least, usual| match env::var_os(name) {
            None => usual,
            Some(value) => number(name, &value.to_string_lossy(), least).unwrap_or_else(|bad| {
                panic!("{bad}");
            }),
        };
        Seeds {
            first: said("STEMLINE_SEED", 0, 0),
            runs: said("STEMLINE_RUNS", 1, runs),
        }
    }

    pub fn each(&self, mut run: impl FnMut(u64)) {
        for at in 0..self.runs {
            let seed = self.first.wrapping_add(at);
            let _named = Named(seed);
            run(seed);
        }
    }
}

fn number(name: &str, value: &str, least: u64) -> Result<u64, String> {
    let number = value.parse().ok().filter(|&number| number >= least);
    number.ok_or(format!(
        "{name} is {value:?}: not a whole number from {least} to {}",
        u64::MAX
    ))
}

#[test]
fn numbers_of_the_environment() {
    assert_eq!(number("STEMLINE_SEED", "0", 0), Ok(0));
    let last = u64::MAX.to_string();
    assert_eq!(number("STEMLINE_SEED", &last, 0), Ok(u64::MAX));
    assert_eq!(number("STEMLINE_RUNS", "1", 1), Ok(1));
    let said = "STEMLINE_RUNS is \"0\": not a whole number from 1 to 18446744073709551615";
    assert_eq!(number("STEMLINE_RUNS", "0", 1), Err(said.to_string()));
    for bad in [
        "",
        " 1",
        "-1",
        "1e3",
        "0x10",
        "18446744073709551616",
        "many",
    ] {
        assert!(number("STEMLINE_SEED", bad, 0).is_err(), "{bad}");
    }
}

/// Behind the last seed comes the first.
#[test]
fn seeds_follow_each_other() {
    let mut seen = Vec::new();
    let first = u64::MAX - 1;
    Seeds { first, runs: 4 }.each(|seed| seen.push(seed));
    assert_eq!(seen, [first, u64::MAX, 0, 1]);
}
