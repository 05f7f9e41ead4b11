//! A node that a studio runs: one replica of a group, or a station, with links to the others.
//!
//! `host/node/README.md` says how it is set up and run.

#![deny(missing_docs)]

pub mod config;
pub mod engine;
pub mod init;
pub mod links;
pub mod lists;
pub mod node;
pub mod page;
pub mod pins;
pub mod protocol;
pub mod setters;
pub mod socket;
pub mod state;
