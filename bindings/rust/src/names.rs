//! The names of processes, locks, modes, queues and domains.

/// The ID of a process.
#[derive(Clone, Copy, Debug, PartialEq, Eq, PartialOrd, Ord, Hash)]
pub struct ProcessId(pub u32);

/// The ID of a lock.
#[derive(Clone, Copy, Debug, PartialEq, Eq, PartialOrd, Ord, Hash)]
pub struct LockId(pub u32);

/// The ID of a resource. They are numbered from 1, in the order of making.
#[derive(Clone, Copy, Debug, PartialEq, Eq, PartialOrd, Ord, Hash)]
pub struct ResourceId(pub u32);

/// The mode of a lock ($ENQ, lkmode).
#[derive(Clone, Copy, Debug, PartialEq, Eq, PartialOrd, Ord, Hash)]
pub enum Mode {
    /// Null.
    Nl,
    /// Concurrent read.
    Cr,
    /// Concurrent write.
    Cw,
    /// Protected read.
    Pr,
    /// Protected write.
    Pw,
    /// Exclusive.
    Ex,
}

impl Mode {
    /// Whether a conversion to a mode returns the value block with VALBLK. Others write it, or do neither.
    pub(crate) fn is_read_by(self, mode: Mode) -> bool {
        let is_writer = self >= Mode::Pw;
        (mode >= self && !is_writer) || (self, mode) == (Mode::Pw, Mode::Ex)
    }
}

/// The mode of a number; none for 255.
pub(crate) fn mode_of(number: u32) -> Option<Mode> {
    [Mode::Nl, Mode::Cr, Mode::Cw, Mode::Pr, Mode::Pw, Mode::Ex]
        .get(number as usize)
        .copied()
}

/// A queue of a resource.
#[derive(Clone, Copy, Debug, PartialEq, Eq, Hash)]
pub enum Queue {
    /// Locks that hold a mode and want no other.
    Granted,
    /// Locks that hold a mode and wait for another.
    Conversion,
    /// Locks that hold nothing yet.
    Waiting,
}

/// A lock that a process names: by its ID, or by the number of a status block in which it stands.
#[derive(Clone, Copy, Debug, PartialEq, Eq, Hash)]
pub enum Which {
    /// The lock of this ID.
    Lock(LockId),
    /// The lock in the status block of this number of the caller. Block 0 does not exist, and is refused by ACCVIO.
    Block(u8),
}

impl From<LockId> for Which {
    fn from(lock: LockId) -> Which {
        Which::Lock(lock)
    }
}

/// The two words by which the library names a lock.
pub(crate) fn lock_named(lock: Option<Which>) -> (u32, u32) {
    match lock {
        None => (0, 0),
        Some(Which::Lock(lock)) => (lock.0, 0),
        Some(Which::Block(number)) => (u32::from(number), 1),
    }
}

/// The lock that these two words name.
pub(crate) fn which_of(lock: u32, lock_kind: u32) -> Option<Which> {
    match (lock_kind, lock) {
        (0, 0) => None,
        (0, lkid) => Some(Which::Lock(LockId(lkid))),
        _ => Some(Which::Block(lock as u8)),
    }
}

/// The space of names that a root resource is in.
#[derive(Clone, Copy, Debug, PartialEq, Eq, Hash)]
pub enum Domain {
    /// The names of one UIC group.
    Group(u16),
    /// The names of the whole system.
    System,
}

impl Domain {
    /// The two words by which the library names a domain: 1 for the system, and the group.
    pub(crate) fn words(self) -> (u32, u32) {
        match self {
            Domain::System => (1, 0),
            Domain::Group(group) => (0, u32::from(group)),
        }
    }
}
