//! Nodes as processes on loopback, with certificates that the test makes.

mod browser;
mod failures;
mod group;
mod links;
mod page;
mod studios;
