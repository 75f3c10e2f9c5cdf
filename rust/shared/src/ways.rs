//! Which waiting calls a read or a write can have helped.

use super::super::Clay;

/// What a call moves bytes to or from.
#[derive(Clone, Copy, Debug, PartialEq, Eq)]
pub(super) enum Way {
    Read,
    Write,
}

/// A read or a write: which one, and the group of its pipe. Each pipe is in one.
#[derive(Clone, Copy, Debug)]
pub(super) struct Place {
    way: Way,
    group: usize,
}

const GROUPS: usize = 256;

impl Place {
    pub(super) fn of(clay: &Clay, pid: u32, fd: i32, way: Way) -> Place {
        let key = clay.fd_facts(pid, fd).map_or(0, |facts| facts.key);
        Place {
            way,
            group: (key % GROUPS as u64) as usize,
        }
    }
}

/// How many reads and how many writes wait.
#[derive(Debug)]
pub(super) struct Counts {
    all: [usize; 2],
    at: [[usize; GROUPS]; 2],
}

impl Counts {
    pub(super) fn new() -> Counts {
        Counts {
            all: [0; 2],
            at: [[0; GROUPS]; 2],
        }
    }

    /// Counts one more. Returns how many wait at its place.
    pub(super) fn add(&mut self, Place { way, group }: Place) -> usize {
        self.all[way as usize] += 1;
        self.at[way as usize][group] += 1;
        self.at[way as usize][group]
    }

    pub(super) fn remove(&mut self, Place { way, group }: Place) {
        self.all[way as usize] -= 1;
        self.at[way as usize][group] -= 1;
    }

    /// Whether a read or a write may have helped one of so many calls that wait. A read makes room, so it helps the writes of its pipe, and a
    /// write helps the reads of its pipe. Of other calls nobody knows.
    #[inline]
    pub(super) fn may_help(&self, waiting: usize, way: Way, place: impl FnOnce() -> Place) -> bool {
        let opposite = if way == Way::Read {
            Way::Write
        } else {
            Way::Read
        };
        let [alike, against] = [way, opposite].map(|way| self.all[way as usize]);
        match waiting - alike {
            0 => false,
            others if others > against => true,
            _ => self.at[opposite as usize][place().group] > 0,
        }
    }
}
