//! What a lock manager shows.

use crate::condition::Condition;
use crate::names::{mode_of, Domain, LockId, Mode, ProcessId, Queue, ResourceId};
use crate::raw;

/// A kind of AST.
#[derive(Clone, Copy, Debug, PartialEq, Eq, Hash)]
#[non_exhaustive]
pub enum AstKind {
    /// A request has ended.
    Completion,
    /// A granted lock is in the way of a queued request.
    Blocking,
}

/// An AST that was taken: the program calls the routine.
#[derive(Clone, Copy, Debug, PartialEq, Eq)]
#[non_exhaustive]
pub struct Ast {
    /// Why.
    pub kind: AstKind,
    /// The routine that the request named.
    pub routine: u32,
    /// The parameter that the request gave for it.
    pub param: u32,
    /// The lock that it is about.
    pub lock: LockId,
}

/// A lock status block.
#[derive(Clone, Copy, Debug, PartialEq, Eq)]
#[non_exhaustive]
pub struct StatusBlock {
    /// How its last request ended; none while it is pending.
    pub status: Option<Condition>,
    /// The lock of that request, if there was one.
    pub lock: Option<LockId>,
    /// The value block.
    pub value: [u8; 16],
    /// The tail of a wide value block.
    pub tail: [u8; 48],
}

/// A living process.
#[derive(Clone, Copy, Debug, PartialEq, Eq)]
#[non_exhaustive]
pub struct Process {
    /// Its ID.
    pub id: ProcessId,
    /// Its node, 1 to 8.
    pub node: u8,
    /// Its UIC group.
    pub group: u16,
    /// Whether it has the privilege SYSLCK.
    pub syslck: bool,
    /// How many locks it may have.
    pub quota: u16,
    /// How many status blocks it has.
    pub blocks: u8,
    /// How many ASTs are pending for it.
    pub pending: usize,
    /// How many locks it has, waiting ones included.
    pub locks: usize,
}

/// A resource without its queues.
#[derive(Clone, Debug, PartialEq, Eq)]
#[non_exhaustive]
pub struct Resource {
    /// Its ID.
    pub id: ResourceId,
    /// Its parent resource; a root has none.
    pub parent: Option<ResourceId>,
    /// Its domain; a resource below another has its root's.
    pub domain: Domain,
    /// Its name.
    pub name: Vec<u8>,
    /// Its value block.
    pub value: [u8; 16],
    /// Whether that is valid.
    pub value_valid: bool,
    /// The tail of its value block.
    pub tail: [u8; 48],
    /// Whether that is valid.
    pub tail_valid: bool,
}

/// A lock with its place, as the system service $GETLKI tells of it.
#[derive(Clone, Copy, Debug, PartialEq, Eq)]
#[non_exhaustive]
pub struct Lock {
    /// Its ID.
    pub id: LockId,
    /// Its process.
    pub process: ProcessId,
    /// The mode that it holds, if it holds one.
    pub held: Option<Mode>,
    /// The mode that it waits for, if it waits.
    pub want: Option<Mode>,
    /// The queue in which it is.
    pub queue: Queue,
    /// Its resource.
    pub resource: ResourceId,
    /// Its parent lock; a lock on a root has none.
    pub parent: Option<LockId>,
    /// The status block of its last accepted request.
    pub block: u8,
}

impl Ast {
    /// The AST of these words. None where no AST was pending.
    pub(crate) fn of(words: &raw::Ast) -> Option<Ast> {
        let kind = match words.kind {
            1 => AstKind::Completion,
            2 => AstKind::Blocking,
            _ => return None,
        };
        Some(Ast {
            kind,
            routine: words.routine,
            param: words.param,
            lock: LockId(words.lkid),
        })
    }

    pub(crate) fn words(&self) -> raw::Ast {
        raw::Ast {
            kind: match self.kind {
                AstKind::Completion => 1,
                AstKind::Blocking => 2,
            },
            routine: self.routine,
            param: self.param,
            lkid: self.lock.0,
            ..raw::Ast::new()
        }
    }
}

impl StatusBlock {
    pub(crate) fn of(words: &raw::Lksb) -> StatusBlock {
        StatusBlock {
            status: (words.status != 0).then(|| Condition::of(words.status)),
            lock: (words.lkid != 0).then_some(LockId(words.lkid)),
            value: words.value,
            tail: words.tail,
        }
    }
}

impl Process {
    pub(crate) fn of(words: &raw::Process) -> Process {
        Process {
            id: ProcessId(words.pid),
            node: words.node as u8,
            group: words.group as u16,
            syslck: words.syslck == 1,
            quota: words.quota as u16,
            blocks: words.blocks as u8,
            pending: words.pending as usize,
            locks: words.locks as usize,
        }
    }
}

impl Resource {
    pub(crate) fn of(words: &raw::Resource) -> Resource {
        let name = words.name.iter().take(words.name_len as usize);
        Resource {
            id: ResourceId(words.serial),
            parent: (words.parent != 0).then_some(ResourceId(words.parent)),
            domain: match words.is_system {
                1 => Domain::System,
                _ => Domain::Group(words.group as u16),
            },
            name: name.copied().collect(),
            value: words.value,
            value_valid: words.value_valid == 1,
            tail: words.tail,
            tail_valid: words.tail_valid == 1,
        }
    }
}

impl Resource {
    /// The words that name it. None where its name does not fit.
    pub(crate) fn key(&self) -> Option<raw::Resource> {
        let (is_system, group) = self.domain.words();
        raw::Resource::named(
            self.parent.map_or(0, |it| it.0),
            is_system,
            group,
            &self.name,
        )
    }
}

impl Lock {
    pub(crate) fn of(words: &raw::Lock) -> Lock {
        Lock {
            id: LockId(words.lkid),
            process: ProcessId(words.pid),
            held: mode_of(words.held),
            want: mode_of(words.want),
            queue: match words.queue {
                1 => Queue::Conversion,
                2 => Queue::Waiting,
                _ => Queue::Granted,
            },
            resource: ResourceId(words.resource),
            parent: (words.parent != 0).then_some(LockId(words.parent)),
            block: words.block as u8,
        }
    }
}
