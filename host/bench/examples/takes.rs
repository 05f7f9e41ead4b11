//! The takes of a group of three in Rust, for callgrind to count:
//!
//!     cargo build --offline --release -p bench --example takes
//!     valgrind --tool=callgrind --toggle-collect=counted_take target/release/examples/takes empty
//!
//! `empty`, `light` (one transaction of two writes) or `full` (six of eight) says what each of the 300 slots
//! has; "Collected" over 300 is what the three takes of a slot need.

use std::hint::black_box;

use stemline::{Refusal, Replica, Taken, ITEMS};

fn main() -> Result<(), Refusal> {
    let (count, writes) = match std::env::args().nth(1).as_deref() {
        Some("light") => (1, 2),
        Some("full") => (6, 8),
        _ => (0, 0),
    };
    let mut group = [0, 1, 2].map(|own| Replica::new(3, own, &[0; ITEMS]).unwrap());
    let mut steps = 0;
    for slot in 0..300 {
        let replica = &mut group[slot % 3];
        for t in 0..count {
            let ticket = replica.begin()?;
            for i in 0..writes {
                let item = (t + 6 * (i * 5 % 8)) * 37 % 128;
                replica.write(ticket, item, slot as i32)?;
            }
            replica.ask(ticket)?;
        }
        let block = replica.send()?;
        for replica in &mut group {
            steps += counted_take(replica, &block)?.steps.len();
        }
    }
    println!("{steps} steps");
    Ok(())
}

/// A name that callgrind knows.
#[no_mangle]
#[inline(never)]
fn counted_take(replica: &mut Replica, block: &[u8]) -> Result<Taken, Refusal> {
    black_box(replica.take(block))
}
