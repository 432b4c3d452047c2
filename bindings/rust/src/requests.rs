//! What a program gives to a step, and the answer of a request.

use crate::condition::Condition;
use crate::flags::{DeqFlags, EnqFlags};
use crate::names::{lock_named, mode_of, which_of, LockId, Mode, ProcessId, Which};
use crate::raw;

/// What a process is declared with.
#[derive(Clone, Copy, Debug, Default, PartialEq, Eq)]
pub struct Declaration {
    /// Its node, 1 to 8.
    pub node: u8,
    /// Its UIC group.
    pub group: u16,
    /// Whether it has the privilege SYSLCK.
    pub syslck: bool,
    /// How many locks it may have.
    pub quota: u16,
    /// How many status blocks it has, numbered from 1.
    pub blocks: u8,
}

impl Declaration {
    pub(crate) fn words(&self) -> raw::Declaration {
        raw::Declaration {
            node: u32::from(self.node),
            group: u32::from(self.group),
            syslck: bit(self.syslck),
            quota: u32::from(self.quota),
            blocks: u32::from(self.blocks),
            ..raw::Declaration::new()
        }
    }

    pub(crate) fn of(words: &raw::Declaration) -> Declaration {
        Declaration {
            node: words.node as u8,
            group: words.group as u16,
            syslck: words.syslck == 1,
            quota: words.quota as u16,
            blocks: words.blocks as u8,
        }
    }
}

/// What the value part of a status block is set to.
#[derive(Clone, Copy, Debug, PartialEq, Eq)]
pub struct Setting {
    /// The caller.
    pub process: ProcessId,
    /// The number of its status block.
    pub block: u8,
    /// The value part.
    pub value: [u8; 16],
    /// The tail, or it stays as it is.
    pub tail: Option<[u8; 48]>,
}

impl Setting {
    pub(crate) fn words(&self) -> raw::Setting {
        raw::Setting {
            pid: self.process.0,
            block: u32::from(self.block),
            has_tail: bit(self.tail.is_some()),
            value: self.value,
            tail: self.tail.unwrap_or([0; 48]),
            ..raw::Setting::new()
        }
    }

    pub(crate) fn of(words: &raw::Setting) -> Setting {
        Setting {
            process: ProcessId(words.pid),
            block: words.block as u8,
            value: words.value,
            tail: (words.has_tail == 1).then_some(words.tail),
        }
    }
}

/// A new request or a conversion.
#[derive(Clone, Copy, Debug, PartialEq, Eq)]
pub struct Request {
    /// The caller.
    pub process: ProcessId,
    /// The mode that is asked for.
    pub mode: Mode,
    /// The number of the caller's status block.
    pub block: u8,
    /// How it is asked for.
    pub flags: EnqFlags,
    /// The parent lock of a new request; a conversion is told its lock on its own.
    pub parent: Option<Which>,
    /// The completion routine.
    pub completion: Option<u32>,
    /// The blocking routine.
    pub blocking: Option<u32>,
    /// The parameter of both.
    pub param: u32,
}

impl Request {
    /// A request for a mode without flags, parent or routines.
    pub fn new(process: ProcessId, mode: Mode, block: u8) -> Request {
        Request {
            process,
            mode,
            block,
            flags: EnqFlags::default(),
            parent: None,
            completion: None,
            blocking: None,
            param: 0,
        }
    }

    /// The words of the request, which names this lock.
    pub(crate) fn words(&self, lock: Option<Which>) -> raw::Request {
        let (lock, lock_kind) = lock_named(lock);
        raw::Request {
            pid: self.process.0,
            mode: self.mode as u32,
            flags: u32::from(self.flags.0),
            block: u32::from(self.block),
            lock,
            lock_kind,
            has_ast: bit(self.completion.is_some()),
            ast: self.completion.unwrap_or(0),
            has_bast: bit(self.blocking.is_some()),
            bast: self.blocking.unwrap_or(0),
            param: self.param,
            ..raw::Request::new()
        }
    }

    /// The request of these words, with the lock that they name as its parent. None if there is no such mode.
    pub(crate) fn of(words: &raw::Request) -> Option<Request> {
        Some(Request {
            process: ProcessId(words.pid),
            mode: mode_of(words.mode)?,
            block: words.block as u8,
            flags: EnqFlags(words.flags as u16),
            parent: which_of(words.lock, words.lock_kind),
            completion: (words.has_ast == 1).then_some(words.ast),
            blocking: (words.has_bast == 1).then_some(words.bast),
            param: words.param,
        })
    }
}

/// A request that was accepted.
#[derive(Clone, Copy, Debug, PartialEq, Eq)]
#[non_exhaustive]
pub struct Accepted {
    /// Its lock.
    pub lock: LockId,
    /// Whether it was answered by SYNCH: it was granted at once, and asked for that with SYNCSTS.
    pub at_once: bool,
}

impl Accepted {
    /// The request of this lock, which was accepted by NORMAL or SYNCH.
    pub(crate) fn of(condition: Condition, lkid: u32) -> Accepted {
        Accepted {
            lock: LockId(lkid),
            at_once: condition == Condition::Synch,
        }
    }
}

/// What is to be given up, or cancelled.
#[derive(Clone, Copy, Debug, PartialEq, Eq)]
pub struct Dequeue {
    /// The caller.
    pub process: ProcessId,
    /// The lock; with DEQALL none is all of the caller's.
    pub lock: Option<Which>,
    /// How.
    pub flags: DeqFlags,
    /// What is written to the value block.
    pub value: Option<[u8; 16]>,
    /// What is written to its tail.
    pub tail: Option<[u8; 48]>,
}

impl Dequeue {
    /// A dequeue without flags and without a value.
    pub fn new(process: ProcessId, lock: Option<Which>) -> Dequeue {
        Dequeue {
            process,
            lock,
            flags: DeqFlags::default(),
            value: None,
            tail: None,
        }
    }

    pub(crate) fn words(&self) -> raw::Dequeue {
        let (lock, lock_kind) = lock_named(self.lock);
        raw::Dequeue {
            pid: self.process.0,
            flags: u32::from(self.flags.0),
            lock,
            lock_kind,
            has_value: bit(self.value.is_some()),
            has_tail: bit(self.tail.is_some()),
            value: self.value.unwrap_or([0; 16]),
            tail: self.tail.unwrap_or([0; 48]),
            ..raw::Dequeue::new()
        }
    }

    pub(crate) fn of(words: &raw::Dequeue) -> Dequeue {
        Dequeue {
            process: ProcessId(words.pid),
            lock: which_of(words.lock, words.lock_kind),
            flags: DeqFlags(words.flags as u16),
            value: (words.has_value == 1).then_some(words.value),
            tail: (words.has_tail == 1).then_some(words.tail),
        }
    }
}

/// 1 for yes and 0 for no.
fn bit(so: bool) -> u32 {
    u32::from(so)
}
