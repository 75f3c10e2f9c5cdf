//! What the shared kernel wants of this one beside its calls.

use super::Clay;
use super::answers::{ParkedCall, Result};
use super::shared;
use super::values::{Fd, Limits, PollEntry};
use std::io;

impl Clay {
    /// The kernel that a shared one has.
    pub(super) fn of_shared(limits: &shared::Limits) -> io::Result<Clay> {
        let shared::Limits {
            memory,
            names,
            waiting_calls,
            waiting_of_each,
            capacity,
            file_max,
            descriptors_max,
            descriptions_max,
            processes_max,
            spare_max,
        } = *limits;
        let limits = Limits {
            memory,
            names,
            waiting_calls,
            waiting_of_each,
            capacity,
            file_max,
            descriptors_max,
            descriptions_max,
            processes_max,
            spare_max,
            ..Limits::default()
        };
        Clay::open_within(&limits).ok_or_else(|| io::ErrorKind::OutOfMemory.into())
    }

    /// Ends the call of a number, and tells what it had taken.
    pub(super) fn interrupt_number(&mut self, number: u64) -> Result<usize> {
        Ok(self.interrupt(ParkedCall::from_number(number))?.count())
    }

    /// An entry of a poll that asks events.
    pub(super) fn entry(fd: Fd, events: i16) -> PollEntry {
        PollEntry::new(fd, events)
    }

    /// What a poll found of an entry.
    pub(super) fn found(entry: &PollEntry) -> i16 {
        entry.revents
    }
}
