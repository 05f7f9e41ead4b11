//! A kit for who writes hosts: a group of drivers with a network, disks and a clock that are simulated.
//!
//! A [`Simulation`] has real [`crate::driver::Driver`]s with real journals. Its network loses, delays, repeats and
//! reorders frames and falls apart, its [`Disk`]s lose, tear and garble what was not made durable and fail, the
//! power goes at any step at a disk, a service says who is out and back, and blocks come over links that are not
//! their senders'. At the end all is mended, and an observer, who has seen only what members handed out and what
//! clients asked for and were told, says what is wrong. The same seed gives the same run.
//!
//! [`run`] plays one seed; the program `kit` plays as many as asked.

mod disk;
mod faults;
mod plan;
mod random;
mod run;
mod sessions;
mod sheet;
mod simulation;

pub(crate) use self::disk::Handle;
pub use self::disk::{Disk, Fault, Syncs};
pub use self::plan::{Plan, Weights};
pub use self::random::Random;
pub use self::run::{play, run, Complaint, Right, Seen, Tamper};
pub use self::simulation::Simulation;

#[cfg(test)]
mod tests;
