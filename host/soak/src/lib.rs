//! The library beside the model for as long as asked, and what the tests of `stemline` share with it: pairs
//! of replicas that are compared call by call, random runs of them by seed, and a program over journals in
//! files that is killed again and again.

#![warn(missing_docs)]

pub mod both;
pub mod crash;
pub mod lines;
pub mod plan;
pub mod runs;
pub mod studio;
