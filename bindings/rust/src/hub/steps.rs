//! The steps of a journal.

use std::fmt;

use super::raw;
use crate::names::{LockId, ProcessId, Which};
use crate::requests::{Declaration, Dequeue, Request, Setting};

/// A step that a hub made.
#[derive(Clone, Copy, Debug, PartialEq, Eq)]
#[non_exhaustive]
pub enum Step {
    /// A process is declared.
    Declare(Declaration),
    /// The value part of a status block is set.
    SetValue(Setting),
    /// A new lock is asked for.
    Enq {
        /// The request.
        request: Request,
        /// The name of the resource.
        name: Name,
    },
    /// Another mode of a lock is asked for.
    Convert {
        /// The request.
        request: Request,
        /// The lock.
        lock: Which,
    },
    /// Locks are given up, or a request is cancelled.
    Deq(Dequeue),
    /// A process ends.
    Rundown(ProcessId),
    /// A node departs.
    Leave(u8),
    /// A node searches for a deadlock.
    Search(u8),
    /// The oldest AST of a process is taken.
    Take(ProcessId),
    /// A kind of step that this version does not know.
    Other(u32),
}

impl Step {
    /// The step of these words.
    pub(super) fn of(words: &raw::Entry) -> Step {
        Step::known(words).unwrap_or(Step::Other(words.step))
    }

    fn known(words: &raw::Entry) -> Option<Step> {
        let (process, node) = (ProcessId(words.pid), words.node as u8);
        Some(match words.step {
            1 => Step::Declare(Declaration::of(&words.declaration)),
            2 => Step::SetValue(Setting::of(&words.setting)),
            3 => Step::Enq {
                request: Request::of(&words.request)?,
                name: Name::of(words),
            },
            4 => Step::conversion(Request::of(&words.request)?),
            5 => Step::Deq(Dequeue::of(&words.dequeue)),
            6 => Step::Rundown(process),
            7 => Step::Leave(node),
            8 => Step::Search(node),
            9 => Step::Take(process),
            _ => return None,
        })
    }

    /// The words of a conversion name its lock where those of a new request name a parent.
    fn conversion(named: Request) -> Step {
        let request = Request {
            parent: None,
            ..named
        };
        let lock = named.parent.unwrap_or(Which::Lock(LockId(0)));
        Step::Convert { request, lock }
    }

    /// Writes the step into the words of an entry.
    pub(super) fn write(&self, words: &mut raw::Entry) {
        words.step = self.kind();
        match self {
            Step::Declare(declaration) => words.declaration = declaration.words(),
            Step::SetValue(setting) => words.setting = setting.words(),
            Step::Enq { request, name } => {
                words.request = request.words(request.parent);
                (words.name, words.name_len) = (name.bytes, u32::from(name.len));
            }
            Step::Convert { request, lock } => words.request = request.words(Some(*lock)),
            Step::Deq(dequeue) => words.dequeue = dequeue.words(),
            Step::Rundown(process) | Step::Take(process) => words.pid = process.0,
            Step::Leave(node) | Step::Search(node) => words.node = u32::from(*node),
            Step::Other(_) => {}
        }
    }

    fn kind(&self) -> u32 {
        match self {
            Step::Declare(_) => 1,
            Step::SetValue(_) => 2,
            Step::Enq { .. } => 3,
            Step::Convert { .. } => 4,
            Step::Deq(_) => 5,
            Step::Rundown(_) => 6,
            Step::Leave(_) => 7,
            Step::Search(_) => 8,
            Step::Take(_) => 9,
            Step::Other(kind) => *kind,
        }
    }
}

/// The name in a new request: 1 to 31 bytes, or 0 of a name whose length is not allowed. Such a request is refused by
/// IVBUFLEN. An entry from elsewhere may have up to 32.
#[derive(Clone, Copy, PartialEq, Eq, Hash)]
pub struct Name {
    // (with zeros after the name)
    bytes: [u8; 32],
    len: u8,
}

impl Name {
    fn of(words: &raw::Entry) -> Name {
        Name {
            bytes: words.name,
            len: words.name_len.min(32) as u8,
        }
    }

    /// Its bytes.
    pub fn as_bytes(&self) -> &[u8] {
        &self.bytes[..usize::from(self.len)]
    }
}

impl fmt::Debug for Name {
    fn fmt(&self, f: &mut fmt::Formatter<'_>) -> fmt::Result {
        write!(f, "b\"{}\"", self.as_bytes().escape_ascii())
    }
}
