//! A hundred kills: nothing is lost, nothing differs, and every outcome that was told is true.

use std::fs;
use std::time::{Duration, Instant};

use trial::storm::{Calm, Storm};

use super::{able, folder, group, number};

/// A group lives so long; then another begins, with journals that are short again.
const GROUP: Duration = Duration::from_secs(300);

#[test]
fn a_hundred_kills() {
    if !able() {
        return;
    }
    let kills = number("STEMLINE_KILLS", 100) as usize;
    let long = Duration::from_secs(60 * number("STEMLINE_MINUTES", 0));
    let (began, mut seed, mut all) = (Instant::now(), number("STEMLINE_SEED", 1), 0);
    while all < kills || began.elapsed() < long {
        let calm = storm(seed, kills, long.min(GROUP));
        println!(
            "storm: seed {seed}: {calm}; {} s",
            began.elapsed().as_secs()
        );
        all += calm.kills;
        seed += 1;
    }
}

/// One group: until it has seen so many kills and so much time.
fn storm(seed: u64, kills: usize, long: Duration) -> Calm {
    let name = format!("storm{seed}");
    let began = Instant::now();
    let mut storm = Storm::new(group(&name, 1), seed).unwrap();
    while storm.kills < kills || began.elapsed() < long {
        storm
            .step()
            .unwrap_or_else(|words| panic!("seed {seed}, {} kills: {words}", storm.kills));
    }
    let calm = storm
        .end()
        .unwrap_or_else(|words| panic!("seed {seed}: {words}"));
    assert!(calm.count.committed > 0 && calm.count.not > 0, "{calm}");
    // What failed is kept, to be looked at.
    fs::remove_dir_all(folder(&name)).unwrap();
    calm
}
