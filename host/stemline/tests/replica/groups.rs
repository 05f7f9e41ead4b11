//! Random lists of calls at whole groups with stations, and at single replicas and stations among forged
//! peers: library and model give the same answers and hold the same memory after every call.

use model::drive::Seen;
use soak::runs;

use crate::c::say;
use crate::seeds::Seeds;

const RUNS: u64 = 400;

/// A million calls and more, of which every refusal number of the table comes back.
#[test]
fn library_and_model_give_the_same() {
    let mut seen = Seen::default();
    let seeds = Seeds::new(RUNS);
    seeds.each(|seed| seen.add(&runs::run(seed)));
    // The gate is to show them.
    say(&format!(
        "library beside model: {} calls, {} commits, {} aborts; calls refused, by number: {}",
        seen.calls,
        seen.commits,
        seen.aborted + seen.stale,
        runs::refused(&seen)
    ));
    // Fewer runs may meet less.
    if seeds.runs >= RUNS {
        assert!(seen.calls >= 1_000_000, "{} calls", seen.calls);
        assert_eq!(seen.numbers(20), runs::NUMBERS, "{seen:?}");
        assert!(seen.far_at_stations > 500, "{seen:?}");
        assert!(seen.offered_again > 100, "{seen:?}");
        assert!(seen.commits > 50_000 && seen.aborted > 10_000, "{seen:?}");
        assert!(seen.stale > 5_000 && seen.read_only > 5_000, "{seen:?}");
        assert!(seen.stale_and_held > 100, "{seen:?}");
        assert!(seen.sent.iter().all(|&blocks| blocks > 200), "{seen:?}");
    }
}
