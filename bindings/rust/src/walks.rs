//! Walks over what a lock manager has. While a walk lasts it borrows the lock manager, so nothing changes.

use std::iter::FusedIterator;

use crate::condition::answered;
use crate::manager::LockManager;
use crate::names::{LockId, ProcessId, Queue};
use crate::raw;
use crate::views::{Lock, Process, Resource};

/// The living processes, in order of making: see [`LockManager::processes`].
pub struct Processes<'a> {
    manager: &'a LockManager,
    // The process that was read last, or 0 at the start; none after the last one.
    last: Option<u32>,
}

impl Iterator for Processes<'_> {
    type Item = Process;

    fn next(&mut self) -> Option<Process> {
        let mut words = raw::Process::new();
        let last = self.last.take()?;
        answered(self.manager.handle.next_process(last, &mut words)).ok()?;
        self.last = Some(words.pid).filter(|pid| *pid != 0);
        self.last.map(|_| Process::of(&words))
    }
}

impl FusedIterator for Processes<'_> {}

/// The resources, by rising serial: see [`LockManager::resources`].
pub struct Resources<'a> {
    manager: &'a LockManager,
    // The resource that was read last, or one with serial 0 at the start; none after the last one.
    last: Option<raw::Resource>,
}

impl Iterator for Resources<'_> {
    type Item = Resource;

    fn next(&mut self) -> Option<Resource> {
        let mut words = self.last.take()?;
        answered(self.manager.handle.next_resource(&mut words)).ok()?;
        self.last = Some(words).filter(|words| words.serial != 0);
        self.last.as_ref().map(Resource::of)
    }
}

impl FusedIterator for Resources<'_> {}

/// Locks, one after another: see [`LockManager::rows`], [`LockManager::locks_of`], [`LockManager::sublocks`],
/// [`LockManager::blockers`] and [`LockManager::blocked`].
pub struct Locks<'a> {
    manager: &'a LockManager,
    walk: LockWalk,
    // The lock that comes next, if there is one.
    next: Option<raw::Lock>,
}

/// Which lock comes after another one.
#[derive(Clone, Copy)]
enum LockWalk {
    Queue,
    Process,
    Sublocks,
    // The blockers of this lock.
    Blockers(u32),
    // The locks that this one blocks.
    Blocked(u32),
}

impl<'a> Locks<'a> {
    /// A walk that begins with the lock that `first` reads, if there is one.
    fn from(
        manager: &'a LockManager,
        walk: LockWalk,
        first: impl FnOnce(&raw::Handle, &mut raw::Lock) -> u32,
    ) -> Locks<'a> {
        let mut words = raw::Lock::new();
        let status = first(&manager.handle, &mut words);
        if answered(status).is_err() || words.lkid == 0 {
            return Locks::none(manager, walk);
        }
        Locks {
            manager,
            walk,
            next: Some(words),
        }
    }

    fn none(manager: &'a LockManager, walk: LockWalk) -> Locks<'a> {
        Locks {
            manager,
            walk,
            next: None,
        }
    }
}

impl Iterator for Locks<'_> {
    type Item = Lock;

    fn next(&mut self) -> Option<Lock> {
        let given = self.next.take()?;
        *self = Locks::from(self.manager, self.walk, |handle, after| match self.walk {
            LockWalk::Queue => handle.next_row(given.lkid, after),
            LockWalk::Process => handle.next_own(given.lkid, after),
            LockWalk::Sublocks => handle.next_sublock(given.lkid, after),
            LockWalk::Blockers(lkid) => handle.next_blocker(lkid, given.lkid, after),
            LockWalk::Blocked(lkid) => handle.next_blocked(lkid, given.lkid, after),
        });
        Some(Lock::of(&given))
    }
}

impl FusedIterator for Locks<'_> {}

impl LockManager {
    /// The living processes, in order of making. Each step takes constant time.
    ///
    /// ```
    /// use vlm::{Declaration, LockManager};
    ///
    /// # fn main() -> Result<(), vlm::Error> {
    /// let mut manager = LockManager::new()?;
    /// let p = manager.declare(&Declaration { node: 1, quota: 9, blocks: 1, ..Declaration::default() })?;
    /// assert!(manager.processes().any(|process| process.id == p));
    /// # Ok(())
    /// # }
    /// ```
    pub fn processes(&self) -> Processes<'_> {
        Processes {
            manager: self,
            last: Some(0),
        }
    }

    /// The resources, by rising serial. Each step takes constant time.
    pub fn resources(&self) -> Resources<'_> {
        Resources {
            manager: self,
            last: Some(raw::Resource::new()),
        }
    }

    /// The locks in a queue of a resource, from its head. A resource that is gone has none. Each step takes constant
    /// time.
    ///
    /// ```
    /// use vlm::{Declaration, LockManager, Mode, Queue, Request};
    ///
    /// # fn main() -> Result<(), vlm::Error> {
    /// let mut manager = LockManager::new()?;
    /// let p = manager.declare(&Declaration { node: 1, quota: 9, blocks: 1, ..Declaration::default() })?;
    /// manager.enq(&Request::new(p, Mode::Ex, 1), b"A")?;
    /// for resource in manager.resources() {
    ///     for lock in manager.rows(&resource, Queue::Granted) {
    ///         println!("{:?} holds {:?}", lock.process, lock.held);
    ///     }
    /// }
    /// # Ok(())
    /// # }
    /// ```
    pub fn rows(&self, resource: &Resource, queue: Queue) -> Locks<'_> {
        let Some(key) = resource.key() else {
            return Locks::none(self, LockWalk::Queue);
        };
        Locks::from(self, LockWalk::Queue, |handle, first| {
            handle.first_row(&key, queue as u32, first)
        })
    }

    /// The locks of a process, in order of making. Each step takes constant time.
    pub fn locks_of(&self, process: ProcessId) -> Locks<'_> {
        Locks::from(self, LockWalk::Process, |handle, first| {
            handle.first_own(process.0, first)
        })
    }

    /// The sublocks of a lock, in order of making. Each step takes constant time.
    pub fn sublocks(&self, parent: LockId) -> Locks<'_> {
        Locks::from(self, LockWalk::Sublocks, |handle, first| {
            handle.first_sublock(parent.0, first)
        })
    }

    /// The locks for which the queued request of a lock waits, as a search for a deadlock follows them: granted ones
    /// first, then converting, then waiting ones. A granted lock waits for none. A step takes time for each lock of the
    /// resource that it passes over.
    ///
    /// ```
    /// use vlm::{Declaration, LockManager, Mode, Request};
    ///
    /// # fn main() -> Result<(), vlm::Error> {
    /// let mut manager = LockManager::new()?;
    /// let p = manager.declare(&Declaration { node: 1, quota: 9, blocks: 2, ..Declaration::default() })?;
    /// let held = manager.enq(&Request::new(p, Mode::Ex, 1), b"A")?.lock;
    /// let waiting = manager.enq(&Request::new(p, Mode::Ex, 2), b"A")?.lock;
    /// assert!(manager.blockers(waiting).map(|lock| lock.id).eq([held]));
    /// # Ok(())
    /// # }
    /// ```
    pub fn blockers(&self, lock: LockId) -> Locks<'_> {
        Locks::from(self, LockWalk::Blockers(lock.0), |handle, first| {
            handle.first_blocker(lock.0, first)
        })
    }

    /// The locks whose queued requests wait for a lock: those that have it among their [`LockManager::blockers`],
    /// converting ones first, then waiting ones. A step takes time for each lock of the resource that it passes over.
    ///
    /// ```
    /// use vlm::{Declaration, LockManager, Mode, Request};
    ///
    /// # fn main() -> Result<(), vlm::Error> {
    /// let mut manager = LockManager::new()?;
    /// let p = manager.declare(&Declaration { node: 1, quota: 9, blocks: 2, ..Declaration::default() })?;
    /// let held = manager.enq(&Request::new(p, Mode::Ex, 1), b"A")?.lock;
    /// let waiting = manager.enq(&Request::new(p, Mode::Ex, 2), b"A")?.lock;
    /// assert!(manager.blocked(held).map(|lock| lock.id).eq([waiting]));
    /// # Ok(())
    /// # }
    /// ```
    pub fn blocked(&self, lock: LockId) -> Locks<'_> {
        Locks::from(self, LockWalk::Blocked(lock.0), |handle, first| {
            handle.first_blocked(lock.0, first)
        })
    }
}
