//! Closures of requests, and what they are told.

use std::sync::{Arc, Mutex, PoisonError};

use super::raw;
use crate::condition::Condition;
use crate::names::{mode_of, LockId, Mode, ProcessId};
use crate::views::AstKind;

/// What a routine is told.
#[derive(Clone, Copy, Debug, PartialEq, Eq)]
#[non_exhaustive]
pub struct Event {
    /// Why: a request has ended, or a lock is in the way.
    pub kind: AstKind,
    /// The process of the lock.
    pub process: ProcessId,
    /// The lock. It may have gone since.
    pub lock: LockId,
    /// Of a completion: how the request ended. NORMAL, VALNOTVALID and WIDENOTVALID are grants.
    pub status: Option<Condition>,
    /// Of a completion: the value block as it was at the grant.
    pub value: Option<[u8; 16]>,
    /// Of a completion with the flag WIDE: its tail.
    pub tail: Option<[u8; 48]>,
    /// Of a warning: the mode that the first request wants that the lock is in the way of, if there still is one.
    pub wanted: Option<Mode>,
}

impl Event {
    pub(crate) fn of(words: &raw::Event) -> Event {
        let is_completion = words.kind == 1;
        Event {
            kind: match is_completion {
                true => AstKind::Completion,
                false => AstKind::Blocking,
            },
            process: ProcessId(words.pid),
            lock: LockId(words.lkid),
            status: is_completion.then(|| Condition::of(words.status)),
            value: (words.value_len >= 16).then(|| part(&words.value, 0)),
            tail: (words.value_len == 64).then(|| part(&words.value, 16)),
            wanted: mode_of(words.wanted),
        }
    }
}

/// Some bytes of a value block.
pub(super) fn part<const N: usize>(value: &[u8; 64], first: usize) -> [u8; N] {
    std::array::from_fn(|place| value[first + place])
}

/// A blocking routine. The conversions of its lock share it. Its mutex is free except during a call.
pub(crate) type Blocking = Arc<Mutex<dyn FnMut(Event) + Send>>;

/// A completion routine.
pub(super) type Completion = Box<dyn FnOnce(Event) + Send>;

/// The closures of a request.
#[derive(Default)]
pub struct Routines {
    pub(super) completion: Option<Mutex<Option<Completion>>>,
    pub(super) blocking: Option<Blocking>,
}

impl Routines {
    pub(super) fn has_completion(&self) -> bool {
        self.completion.is_some()
    }

    pub(super) fn has_blocking(&self) -> bool {
        self.blocking.is_some()
    }

    pub(super) fn complete(&self, event: &raw::Event) {
        let held = self.completion.as_ref();
        let routine = held.and_then(|it| it.lock().unwrap_or_else(PoisonError::into_inner).take());
        if let Some(routine) = routine {
            routine(Event::of(event));
        }
    }

    pub(super) fn block(&self, event: &raw::Event) {
        if let Some(routine) = &self.blocking {
            let mut routine = routine.lock().unwrap_or_else(PoisonError::into_inner);
            routine(Event::of(event));
        }
    }
}
