//! How a process is declared, and how a lock is asked for.

use std::sync::{Arc, Mutex};
use std::time::Duration;

use super::guard::{Guard, Held};
use super::raw;
use super::routines::{Blocking, Event};
use crate::condition::Error;
use crate::flags::EnqFlags;
use crate::names::LockId;

/// What a process of a [`Shared`](super::Shared) is declared with.
///
/// ```
/// use vlm::{Client, Shared};
///
/// # fn main() -> Result<(), vlm::Error> {
/// let shared = Shared::new()?;
/// let p = shared.declare(&Client { label: "reader", ..Client::default() })?;
/// # shared.rundown(p)
/// # }
/// ```
#[derive(Clone, Copy, Debug, PartialEq, Eq)]
pub struct Client<'a> {
    /// Its node, 1 to 8.
    pub node: u8,
    /// Its UIC group.
    pub group: u16,
    /// Whether it has the privilege SYSLCK.
    pub syslck: bool,
    /// How many locks it may have.
    pub quota: u16,
    /// How many of its requests may be under way at once, from 1.
    pub requests: u8,
    /// Whether it ends when the calling thread ends.
    pub tied: bool,
    /// Whether its events wait in a queue of its own, for [`Shared::deliver_of`](super::Shared::deliver_of).
    pub own_queue: bool,
    /// A text for people, of at most 31 bytes.
    pub label: &'a str,
}

impl Default for Client<'_> {
    fn default() -> Self {
        Client {
            node: 1,
            group: 0,
            syslck: false,
            quota: u16::MAX,
            requests: 16,
            tied: false,
            own_queue: false,
            label: "",
        }
    }
}

impl Client<'_> {
    /// The words of the declaration. BADPARAM if the label is too long.
    pub(super) fn words(&self) -> Result<raw::Declaration, Error> {
        let mut words = raw::Declaration {
            node: self.node.into(),
            group: self.group.into(),
            syslck: self.syslck.into(),
            quota: self.quota.into(),
            requests: self.requests.into(),
            tied: self.tied.into(),
            own_queue: self.own_queue.into(),
            ..raw::Declaration::new()
        };
        let place = words.label.get_mut(..self.label.len());
        place
            .ok_or(Error::Badparam)?
            .copy_from_slice(self.label.as_bytes());
        Ok(words)
    }
}

/// The terms of a request. Without any, it has no flags and no parent, waits without an end and names no routine.
///
/// ```
/// use std::time::Duration;
/// use vlm::{EnqFlags, Terms};
///
/// let terms = Terms::new()
///     .flags(EnqFlags::NOQUEUE)
///     .within(Duration::from_secs(1))
///     .blocking(|event| println!("{:?} is in the way", event.lock));
/// ```
#[derive(Default)]
pub struct Terms {
    pub(crate) flags: EnqFlags,
    /// The parent lock, or 0.
    pub(super) parent: u32,
    pub(super) kept: Option<Arc<Held>>,
    /// The longest wait in milliseconds, or 0.
    pub(crate) longest: u32,
    pub(crate) blocking: Option<Blocking>,
}

impl Terms {
    /// No terms.
    pub fn new() -> Terms {
        Terms::default()
    }

    /// Asks with these flags too. With VALBLK the guard of a new lock reads the value block, at this grant and at those
    /// of its conversions that return it; with WIDE it reads the tail too. SYNCSTS does nothing.
    #[must_use]
    pub fn flags(mut self, flags: EnqFlags) -> Terms {
        self.flags = self.flags | flags;
        self
    }

    /// The parent lock of a new lock. The guard of the new lock keeps the parent's lock until it is dropped itself, in
    /// whatever order the two are dropped. A conversion ignores it. A request to another lock manager, or to the lock
    /// service, is refused by BADPARAM.
    #[must_use]
    pub fn below(mut self, parent: &Guard) -> Terms {
        (self.parent, self.kept) = (parent.lock().0, Some(parent.held()));
        self
    }

    /// The same for a parent lock that this guard of no other keeps.
    #[must_use]
    pub fn below_lock(mut self, parent: LockId) -> Terms {
        (self.parent, self.kept) = (parent.0, None);
        self
    }

    /// The parent lock at the lock service, which has no lock of a [`Guard`].
    pub(crate) fn served_parent(&self) -> Result<u32, Error> {
        match self.kept {
            Some(_) => Err(Error::Badparam),
            None => Ok(self.parent),
        }
    }

    /// Waits at most this long, rounded up to milliseconds. A start ignores it.
    #[must_use]
    pub fn within(mut self, longest: Duration) -> Terms {
        self.longest = milliseconds(longest);
        self
    }

    /// The blocking routine: it is told once that the lock, once granted, is in the way of another request. It lives
    /// until the lock is given up or a conversion brings another.
    ///
    /// It runs outside the mutex, so it may make any call. If it holds a `Shared` or a guard of the same lock manager,
    /// that stays alive as long as the routine.
    #[must_use]
    pub fn blocking(mut self, routine: impl FnMut(Event) + Send + 'static) -> Terms {
        self.blocking = Some(Arc::new(Mutex::new(routine)));
        self
    }
}

/// A time in milliseconds, rounded up.
pub(super) fn rounded(time: Duration) -> u128 {
    (time.as_nanos() + 999_999) / 1_000_000
}

/// The same, from 1. A time that is too long for the library has no end: 0.
pub(super) fn milliseconds(time: Duration) -> u32 {
    u32::try_from(rounded(time).max(1)).unwrap_or(0)
}
