//! The readings of a lock manager. They change nothing.

use crate::condition::answered;
use crate::manager::LockManager;
use crate::names::{Domain, LockId, ProcessId, ResourceId};
use crate::raw;
use crate::views::{Lock, Resource, StatusBlock};

impl LockManager {
    /// The status block of this number, from 1, of a process. None where there is none.
    pub fn block(&self, process: ProcessId, number: u8) -> Option<StatusBlock> {
        let mut words = raw::Lksb::new();
        answered(self.handle.block(process.0, u32::from(number), &mut words)).ok()?;
        Some(StatusBlock::of(&words))
    }

    /// How many ASTs are pending for a process. None where no living process has the ID.
    pub fn pending(&self, process: ProcessId) -> Option<usize> {
        let mut count = 0;
        answered(self.handle.pending(process.0, &mut count)).ok()?;
        Some(count)
    }

    /// How many processes live.
    pub fn process_count(&self) -> usize {
        self.handle.process_count()
    }

    /// How many resources have locks.
    pub fn resource_count(&self) -> usize {
        self.handle.resource_count()
    }

    /// The resource of a root's name in a domain. None where there is none. It takes constant time.
    ///
    /// ```
    /// use vlm::{Declaration, Domain, LockManager, Mode, Request};
    ///
    /// # fn main() -> Result<(), vlm::Error> {
    /// let mut manager = LockManager::new()?;
    /// let p = manager.declare(&Declaration { node: 1, group: 7, quota: 9, blocks: 1, ..Declaration::default() })?;
    /// manager.enq(&Request::new(p, Mode::Ex, 1), b"A")?;
    /// assert!(manager.find(Domain::Group(7), b"A").is_some());
    /// assert!(manager.find(Domain::System, b"A").is_none());
    /// # Ok(())
    /// # }
    /// ```
    pub fn find(&self, domain: Domain, name: &[u8]) -> Option<Resource> {
        let (is_system, group) = domain.words();
        self.found(0, is_system, group, name)
    }

    /// The resource of this name below another resource. None where there is none. It takes constant time.
    pub fn find_below(&self, parent: ResourceId, name: &[u8]) -> Option<Resource> {
        if parent.0 == 0 {
            return None;
        }
        self.found(parent.0, 0, 0, name)
    }

    fn found(&self, parent: u32, is_system: u32, group: u32, name: &[u8]) -> Option<Resource> {
        let mut words = raw::Resource::named(parent, is_system, group, name)?;
        answered(self.handle.find(&mut words)).ok()?;
        Some(Resource::of(&words))
    }

    /// How many locks there are, waiting ones included.
    pub fn lock_count(&self) -> usize {
        self.handle.lock_count()
    }

    /// How many requests are queued: conversions and waiting locks.
    pub fn queued_count(&self) -> usize {
        self.handle.queued_count()
    }

    /// The lock of this ID. None where there is none. It takes constant time.
    pub fn lock(&self, lock: LockId) -> Option<Lock> {
        let mut words = raw::Lock::new();
        answered(self.handle.find_lock(lock.0, &mut words)).ok()?;
        Some(Lock::of(&words))
    }

    /// The resource of a lock. None where there is no such lock. It takes constant time.
    pub fn resource_of(&self, lock: LockId) -> Option<Resource> {
        let mut words = raw::Resource::new();
        answered(self.handle.lock_resource(lock.0, &mut words)).ok()?;
        Some(Resource::of(&words))
    }
}
