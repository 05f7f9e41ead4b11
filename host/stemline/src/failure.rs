//! Why a call at a replica with a journal gives nothing.

use std::{error, fmt};

use crate::{DiskError, Refusal};

/// Why a call at a [`crate::Durable`] gives nothing. Both `{}` and `{:?}` write the words.
pub enum Failure {
    /// The replica refuses the call, as [`crate::Replica`]'s calls say.
    Refused(Refusal),
    /// The disk failed.
    Disk(DiskError),
}

impl Failure {
    /// The refusal, if it is one.
    pub fn refusal(&self) -> Option<Refusal> {
        match *self {
            Failure::Refused(refusal) => Some(refusal),
            Failure::Disk(_) => None,
        }
    }
}

impl From<Refusal> for Failure {
    fn from(refusal: Refusal) -> Failure {
        Failure::Refused(refusal)
    }
}

impl From<DiskError> for Failure {
    fn from(error: DiskError) -> Failure {
        Failure::Disk(error)
    }
}

impl fmt::Display for Failure {
    fn fmt(&self, f: &mut fmt::Formatter) -> fmt::Result {
        match self {
            Failure::Refused(refusal) => refusal.fmt(f),
            Failure::Disk(error) => error.fmt(f),
        }
    }
}

impl fmt::Debug for Failure {
    fn fmt(&self, f: &mut fmt::Formatter) -> fmt::Result {
        fmt::Display::fmt(self, f)
    }
}

impl error::Error for Failure {}
