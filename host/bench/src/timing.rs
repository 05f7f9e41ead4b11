//! Several sides that do the same, timed by turns.

use std::hint::black_box;
use std::time::{Duration, Instant};

/// One comparison: the same work done by each side, the library's first.
pub struct Case<'a> {
    name: &'static str,
    sides: Vec<Side<'a>>,
}

/// One side of a comparison.
pub struct Side<'a> {
    /// Does the work and gives the time it took; what is prepared for it is not counted.
    run: Box<dyn FnMut() -> Duration + 'a>,
    /// How often one run does what is named.
    count: usize,
    times: Vec<f64>,
}

impl<'a> Case<'a> {
    /// A comparison of these sides.
    pub fn new(name: &'static str, sides: Vec<Side<'a>>) -> Self {
        Case { name, sides }
    }

    fn median(&self, side: usize) -> f64 {
        let mut times = self.sides[side].times.clone();
        times.sort_by(f64::total_cmp);
        times[times.len() / 2]
    }
}

impl<'a> Side<'a> {
    /// `count` calls with the inputs 0 to `inputs` − 1 in turn.
    pub fn calls<T>(count: usize, inputs: usize, mut call: impl FnMut(usize) -> T + 'a) -> Self {
        Side::timed(
            count,
            || (),
            move |()| {
                for i in 0..count {
                    black_box(call(i % inputs));
                }
            },
        )
    }

    /// Runs that do what is named `count` times each, on what is prepared before each.
    pub fn timed<T>(
        count: usize,
        mut prepare: impl FnMut() -> T + 'a,
        mut run: impl FnMut(&mut T) + 'a,
    ) -> Self {
        let run = move || {
            let mut prepared = prepare();
            let start = Instant::now();
            run(black_box(&mut prepared));
            start.elapsed()
        };
        Side {
            run: Box::new(run),
            count,
            times: Vec::new(),
        }
    }

    fn measure(&mut self) {
        let time = (self.run)().as_nanos() as f64;
        self.times.push(time / self.count as f64);
    }
}

/// Times all cases, so many rounds. In each every side of every case runs once, and the side that begins
/// changes from round to round, so that a change of the machine's speed meets all alike.
pub fn run(cases: &mut [Case], rounds: usize) {
    for round in 0..rounds {
        for case in &mut *cases {
            let sides = case.sides.len();
            for at in 0..sides {
                case.sides[(round + at) % sides].measure();
            }
        }
    }
}

/// Medians in nanoseconds, and the first side's by each other's.
pub fn print(names: &[&str], cases: &[Case]) {
    print!("{:36}", "");
    for name in names {
        print!("{name:>10}");
    }
    for name in &names[1..] {
        print!("{:>16}", format!("{}/{name}", names[0]));
    }
    println!();
    for case in cases {
        print!("{:36}", case.name);
        for side in 0..names.len() {
            print!("{:>10.1}", case.median(side));
        }
        for side in 1..names.len() {
            print!("{:>16.2}", case.median(0) / case.median(side));
        }
        println!();
    }
}
