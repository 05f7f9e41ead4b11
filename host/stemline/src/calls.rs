//! What a [`crate::Durable`] keeps the journal of.

use std::io::Write;

use crate::{Asked, Given, Recorder, Refusal, Replica, Taken, Window, Work, BLOCK};

/// A replica whose journal a [`crate::Durable`] keeps: a [`Replica`], or a [`Recorder`]. The calls are those
/// of [`Replica`]; nobody else can implement it.
pub trait Calls: sealed::Sealed {
    /// The replica, to look at.
    fn replica(&self) -> &Replica;
    /// As [`Replica::begin`].
    fn begin(&mut self) -> Result<u32, Refusal>;
    /// As [`Replica::write`].
    fn write(&mut self, ticket: u32, item: u32, value: i32) -> Result<(), Refusal>;
    /// As [`Replica::ask`].
    fn ask(&mut self, ticket: u32) -> Result<Asked, Refusal>;
    /// As [`Replica::withdraw`].
    fn withdraw(&mut self, ticket: u32) -> Result<(), Refusal>;
    /// As [`Replica::send`].
    fn send(&mut self) -> Result<[u8; BLOCK], Refusal>;
    /// As [`Replica::deliver`].
    fn deliver(&mut self, bytes: &[u8]) -> Result<(), Refusal>;
    /// As [`Replica::work`].
    fn work(&mut self) -> Result<Work, Refusal>;
    /// As [`Replica::load`].
    fn load(&mut self, classes: &[u8]) -> Result<(), Refusal>;
    /// As [`Replica::out`].
    fn out(&mut self, replica: u32, slot: u32) -> Result<(), Refusal>;
    /// As [`Replica::back`].
    fn back(&mut self, replica: u32, slot: u32) -> Result<(), Refusal>;
    /// As [`Replica::take`].
    fn take(&mut self, bytes: &[u8]) -> Result<Taken, Refusal>;
    /// As [`Replica::take_slot`].
    fn take_slot(&mut self, bytes: &[u8]) -> Result<Taken, Refusal>;
    /// As [`Replica::give`].
    fn give(&mut self, turns: &[u32], window: &Window) -> Result<Given, Refusal>;
}

mod sealed {
    use super::*;

    pub trait Sealed {}
    impl Sealed for Replica {}
    impl<C: Write, A: Write> Sealed for Recorder<C, A> {}
}

/// Each call as the type has it.
macro_rules! calls {
    ($type:ident $(<$($parameter:ident),+>)?, $replica:expr) => {
        impl $(<$($parameter: Write),+>)? Calls for $type $(<$($parameter),+>)? {
            fn replica(&self) -> &Replica {
                $replica(self)
            }

            fn begin(&mut self) -> Result<u32, Refusal> {
                $type::begin(self)
            }

            fn write(&mut self, ticket: u32, item: u32, value: i32) -> Result<(), Refusal> {
                $type::write(self, ticket, item, value)
            }

            fn ask(&mut self, ticket: u32) -> Result<Asked, Refusal> {
                $type::ask(self, ticket)
            }

            fn withdraw(&mut self, ticket: u32) -> Result<(), Refusal> {
                $type::withdraw(self, ticket)
            }

            fn send(&mut self) -> Result<[u8; BLOCK], Refusal> {
                $type::send(self)
            }

            fn deliver(&mut self, bytes: &[u8]) -> Result<(), Refusal> {
                $type::deliver(self, bytes)
            }

            fn work(&mut self) -> Result<Work, Refusal> {
                $type::work(self)
            }

            fn load(&mut self, classes: &[u8]) -> Result<(), Refusal> {
                $type::load(self, classes)
            }

            fn out(&mut self, replica: u32, slot: u32) -> Result<(), Refusal> {
                $type::out(self, replica, slot)
            }

            fn back(&mut self, replica: u32, slot: u32) -> Result<(), Refusal> {
                $type::back(self, replica, slot)
            }

            fn take(&mut self, bytes: &[u8]) -> Result<Taken, Refusal> {
                $type::take(self, bytes)
            }

            fn take_slot(&mut self, bytes: &[u8]) -> Result<Taken, Refusal> {
                $type::take_slot(self, bytes)
            }

            fn give(&mut self, turns: &[u32], window: &Window) -> Result<Given, Refusal> {
                $type::give(self, turns, window)
            }
        }
    };
}

calls!(Replica, |replica| replica);
calls!(Recorder<C, A>, Recorder::replica);
