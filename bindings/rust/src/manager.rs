//! A lock manager and its steps.

use std::collections::hash_map::RandomState;
use std::hash::{BuildHasher, Hasher};

use crate::condition::{answered, Error};
use crate::names::{LockId, ProcessId, Which};
use crate::raw;
use crate::requests::{Accepted, Declaration, Dequeue, Request, Setting};
use crate::views::Ast;

/// A lock manager of its own: two of them share nothing. No call waits. It may go to another thread; threads that share
/// one do so by [`Shared`](crate::Shared), which also waits for grants, or by a lock of the program's own.
///
/// ```compile_fail
/// fn shared<T: Sync>(_: T) {}
/// shared(vlm::LockManager::new());
/// ```
#[repr(transparent)]
pub struct LockManager {
    pub(crate) handle: raw::Handle,
}

/// Keys of the standard library's own.
pub(crate) fn random_keys() -> [u8; 16] {
    let mut keys = [0; 16];
    for half in keys.chunks_mut(8) {
        half.copy_from_slice(&RandomState::new().build_hasher().finish().to_le_bytes());
    }
    keys
}

impl LockManager {
    /// A lock manager with nothing in it. Its index of names hashes by keys of the standard library's own, which nobody
    /// can foresee. INSFMEM where memory is refused.
    pub fn new() -> Result<LockManager, Error> {
        LockManager::with_keys(random_keys())
    }

    /// A lock manager whose index of names hashes by these keys. INSFMEM where memory is refused.
    pub fn with_keys(keys: [u8; 16]) -> Result<LockManager, Error> {
        let handle = raw::Handle::open(keys)?;
        Ok(LockManager { handle })
    }

    /// Declares a process. BADPARAM, DEPARTED, INSFMEM.
    pub fn declare(&mut self, declaration: &Declaration) -> Result<ProcessId, Error> {
        let mut pid = 0;
        answered(self.handle.declare(&declaration.words(), &mut pid))?;
        Ok(ProcessId(pid))
    }

    /// Sets the value part of a status block of the process, and its tail where one is given. DEPARTED, NONEXPR,
    /// ACCVIO.
    pub fn set_value(&mut self, setting: &Setting) -> Result<(), Error> {
        answered(self.handle.set_value(&setting.words()))?;
        Ok(())
    }

    /// Asks for a new lock ($ENQ) on the resource of a name, below the lock that the request names, if it names one. A
    /// request that waits is accepted too: its status block is pending. DEPARTED, NONEXPR, BADPARAM, ACCVIO, IVBUFLEN,
    /// UNSUPPORTED, IVLOCKID, PARNOTGRANT, EXDEPTH, NOSYSLCK, EXENQLM, NOLOCKID, NOTQUEUED, INSFMEM.
    pub fn enq(&mut self, request: &Request, name: &[u8]) -> Result<Accepted, Error> {
        let mut lkid = 0;
        let status = self
            .handle
            .enq(&request.words(request.parent), name, &mut lkid);
        Ok(Accepted::of(answered(status)?, lkid))
    }

    /// Asks for another mode of a granted lock ($ENQ with CONVERT). DEPARTED, NONEXPR, BADPARAM, ACCVIO, IVLOCKID,
    /// CVTUNGRANT, NOLOCKID, NOTQUEUED, INSFMEM.
    pub fn convert(
        &mut self,
        request: &Request,
        lock: impl Into<Which>,
    ) -> Result<Accepted, Error> {
        let mut lkid = 0;
        let status = self
            .handle
            .convert(&request.words(Some(lock.into())), &mut lkid);
        Ok(Accepted::of(answered(status)?, lkid))
    }

    /// Gives a lock up ($DEQ): what [`LockManager::dequeue`] does without flags and without a value.
    pub fn deq(&mut self, process: ProcessId, lock: impl Into<Which>) -> Result<(), Error> {
        self.dequeue(&Dequeue::new(process, Some(lock.into())))
    }

    /// Gives locks up, or cancels a request ($DEQ). DEPARTED, NONEXPR, BADPARAM, ACCVIO, IVLOCKID, CANCELGRANT,
    /// SUBLOCKS.
    pub fn dequeue(&mut self, dequeue: &Dequeue) -> Result<(), Error> {
        answered(self.handle.deq(&dequeue.words()))?;
        Ok(())
    }

    /// Takes the oldest AST that is pending for a process, if there is one. DEPARTED, NONEXPR.
    pub fn take(&mut self, process: ProcessId) -> Result<Option<Ast>, Error> {
        let mut words = raw::Ast::new();
        answered(self.handle.take(process.0, &mut words))?;
        Ok(Ast::of(&words))
    }

    /// Takes the oldest AST of the first process that has one: of the first node with such a process, the first in
    /// order of making. It takes constant time, so one loop of it delivers everything. It is never refused.
    ///
    /// ```
    /// # fn main() -> Result<(), vlm::Error> {
    /// # let mut manager = vlm::LockManager::new()?;
    /// while let Some((process, ast)) = manager.take_any()? {
    ///     println!("{process:?}: routine {} for lock {:?}", ast.routine, ast.lock);
    /// }
    /// # Ok(())
    /// # }
    /// ```
    pub fn take_any(&mut self) -> Result<Option<(ProcessId, Ast)>, Error> {
        let (mut pid, mut words) = (0, raw::Ast::new());
        answered(self.handle.take_any(&mut pid, &mut words))?;
        Ok(Ast::of(&words).map(|ast| (ProcessId(pid), ast)))
    }

    /// Ends a process, with all that it has. DEPARTED, NONEXPR.
    pub fn rundown(&mut self, process: ProcessId) -> Result<(), Error> {
        answered(self.handle.rundown(process.0))?;
        Ok(())
    }

    /// A node departs, with all its processes. BADPARAM, DEPARTED.
    pub fn leave(&mut self, node: u8) -> Result<(), Error> {
        answered(self.handle.leave(u32::from(node)))?;
        Ok(())
    }

    /// Searches for a deadlock, and ends the request of its victim, whose lock it tells. BADPARAM, DEPARTED.
    pub fn search(&mut self, node: u8) -> Result<Option<LockId>, Error> {
        let mut victim = 0;
        answered(self.handle.search(u32::from(node), &mut victim))?;
        Ok(victim_of(victim))
    }

    /// The lock whose request a search would end now. None without a deadlock. Nothing changes. It takes as long as a
    /// search that finds a victim.
    pub fn find_victim(&self) -> Option<LockId> {
        let mut victim = 0;
        answered(self.handle.find_victim(&mut victim)).ok()?;
        victim_of(victim)
    }
}

/// The lock of a victim. 0 is no victim.
fn victim_of(number: u32) -> Option<LockId> {
    Some(LockId(number)).filter(|lock| lock.0 != 0)
}
