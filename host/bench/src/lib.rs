//! What the benchmark's tests need too.

#![warn(missing_docs)]

pub mod plain;
pub mod plain_c;
pub mod timing;
