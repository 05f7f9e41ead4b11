//! The proved library beside plain Rust, in one run.

mod replicas;
mod restarts;

fn main() {
    replicas::run();
    restarts::run();
}
