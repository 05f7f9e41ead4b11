//! The second model: what document 01 says, and of document 02 Req 01, 02, 04, 05 and 07 to 11, in plain Rust.
//!
//! It is written from the documents alone, so that it can check the proved library from outside.
//! The benchmark takes it as its baseline.

#![warn(missing_docs)]

pub mod block;
pub mod drive;
pub mod giving;
pub mod journal;
pub mod notice;
pub mod observer;
pub mod refusal;
pub mod replay;
pub mod replica;
pub mod samples;
pub mod scenes;
pub mod trace;
pub mod week;
pub mod window;
pub mod workload;
