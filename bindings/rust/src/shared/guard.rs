//! A lock that is given up on drop.

use std::fmt;
use std::sync::atomic::{AtomicBool, Ordering::Relaxed};
use std::sync::{Arc, Mutex, MutexGuard, PoisonError};
use std::thread;
use std::time::Duration;

use super::routines::{part, Blocking};
use super::terms::Terms;
use super::{Asked, Shared};
use crate::condition::{Condition, Error};
use crate::flags::{DeqFlags, EnqFlags};
use crate::names::{LockId, Mode, ProcessId};

/// What a value block is set to: 16 bytes, or with a tail 64.
pub(super) type Value = ([u8; 16], Option<[u8; 48]>);

/// A lock that its guard holds, and the guards of its sublocks keep.
pub(super) struct Held {
    shared: Shared,
    process: ProcessId,
    lock: LockId,
    is_held: AtomicBool,
    /// What is to be written to the value block. (Few locks write one, so it is in a box.)
    written: Mutex<Option<Box<Value>>>,
    /// (it is dropped after the lock is given up)
    _parent: Option<Arc<Held>>,
}

impl Held {
    fn written(&self) -> MutexGuard<'_, Option<Box<Value>>> {
        self.written.lock().unwrap_or_else(PoisonError::into_inner)
    }

    pub(super) fn is_of(&self, shared: &Shared) -> bool {
        Arc::ptr_eq(&self.shared.layer, &shared.layer)
    }

    fn give_up(&self, written: Option<Value>) -> Result<(), Error> {
        let lock = self.lock.0;
        self.shared
            .give_up(self.process, lock, DeqFlags::default(), written)
    }

    fn release(&self) -> Result<(), Error> {
        if !self.is_held.load(Relaxed) {
            return Ok(());
        }
        let written = self.written().as_deref().copied();
        self.give_up(written)?;
        self.is_held.store(false, Relaxed);
        Ok(())
    }
}

impl Drop for Held {
    fn drop(&mut self) {
        if *self.is_held.get_mut() {
            let written = self.written.get_mut();
            let written = written.unwrap_or_else(PoisonError::into_inner);
            // A refusal has nobody to tell.
            let written = written.as_deref().copied();
            let _ = self.give_up(written);
        }
    }
}

/// The value block that a grant returned, with the flags of its request and how that ended.
pub(super) struct Granted {
    pub(super) value: [u8; 64],
    pub(super) flags: EnqFlags,
    pub(super) status: Condition,
}

impl Granted {
    /// Where a request with these flags returns the value block, if it does.
    pub(super) fn asked_by(flags: EnqFlags) -> Option<Box<Granted>> {
        let is_asked = flags.contains(EnqFlags::VALBLK);
        is_asked.then(|| Granted::of([0; 64], flags))
    }

    fn of(value: [u8; 64], flags: EnqFlags) -> Box<Granted> {
        Box::new(Granted {
            value,
            flags,
            status: Condition::Normal,
        })
    }
}

/// A conversion of a guard's lock: what it asks, and what its grant does with the value block.
pub(super) struct Conversion {
    pub(super) asked: Asked<'static>,
    pub(super) granted: Box<Granted>,
    is_read: bool,
    is_written: bool,
}

/// A lock that is held. Dropping it gives the lock up, and writes the value that [`Guard::write`] named. It may go to
/// another thread.
///
/// A guard that is dropped by a panic writes nothing. A lock that went with its process is no error. A lock stays as
/// long as the guard of a sublock that was asked for by [`Terms::below`].
///
/// ```
/// use vlm::{Client, EnqFlags, Mode, Shared, Terms};
///
/// # fn main() -> Result<(), vlm::Error> {
/// let shared = Shared::new()?;
/// let p = shared.declare(&Client::default())?;
/// let with_value = Terms::new().flags(EnqFlags::VALBLK);
/// let mut reader = shared.lock_with(p, b"A", Mode::Nl, with_value)?; // keeps the resource and its value block
/// let mut writer = shared.lock(p, b"A", Mode::Ex)?;
/// writer.write(*b"sixteen bytes ..");
/// drop(writer);
/// reader.convert(Mode::Pr)?;
/// assert_eq!(reader.value(), Some(*b"sixteen bytes .."));
/// # Ok(())
/// # }
/// ```
#[must_use = "a guard that is dropped gives its lock up"]
pub struct Guard {
    held: Arc<Held>,
    mode: Mode,
    // The last grant that returned the value block, if the lock was asked for with VALBLK.
    granted: Option<Box<Granted>>,
    blocking: Option<Blocking>,
    was_panicking: bool,
}

impl Guard {
    #[inline]
    pub(super) fn new(
        shared: &Shared,
        asked: Asked<'_>,
        lock: LockId,
        granted: Option<Box<Granted>>,
    ) -> Guard {
        Guard {
            held: Arc::new(Held {
                shared: shared.clone(),
                process: asked.process,
                lock,
                is_held: AtomicBool::new(true),
                written: Mutex::new(None),
                _parent: asked.kept,
            }),
            mode: asked.mode,
            granted,
            blocking: asked.blocking,
            was_panicking: thread::panicking(),
        }
    }

    pub(super) fn held(&self) -> Arc<Held> {
        Arc::clone(&self.held)
    }

    /// The ID of the lock.
    pub fn lock(&self) -> LockId {
        self.held.lock
    }

    /// Its process.
    pub fn process(&self) -> ProcessId {
        self.held.process
    }

    /// The mode that it holds.
    pub fn mode(&self) -> Mode {
        self.mode
    }

    /// The 16 bytes of the value block at the last grant that returned it. None if the lock was asked for without
    /// VALBLK.
    pub fn value(&self) -> Option<[u8; 16]> {
        Some(part(&self.granted.as_ref()?.value, 0))
    }

    /// The other 48 bytes, if that request had the flag WIDE.
    pub fn tail(&self) -> Option<[u8; 48]> {
        let granted = self.granted.as_ref()?;
        let is_wide = granted.flags.contains(EnqFlags::WIDE);
        is_wide.then(|| part(&granted.value, 16))
    }

    /// Whether there is a value, and it was valid. It is not after its last writer ended without giving its lock up.
    pub fn is_valid(&self) -> bool {
        let granted = self.granted.as_ref();
        granted.is_some_and(|granted| granted.status != Condition::Valnotvalid)
    }

    /// Whether there is a tail, and it was valid.
    pub fn is_tail_valid(&self) -> bool {
        let granted = self.granted.as_ref();
        self.tail().is_some() && granted.is_some_and(|granted| granted.status == Condition::Normal)
    }

    /// Names what is written to the value block when the lock is given up or goes to a weaker mode. At modes below PW
    /// nothing is written. A tail becomes invalid.
    pub fn write(&mut self, value: [u8; 16]) {
        *self.held.written() = Some(Box::new((value, None)));
    }

    /// The same, with the tail.
    pub fn write_wide(&mut self, value: [u8; 16], tail: [u8; 48]) {
        *self.held.written() = Some(Box::new((value, Some(tail))));
    }

    /// Asks for another mode and waits for the grant. If it fails, the lock holds what it held. The blocking routine
    /// stays: the grant arms it again.
    ///
    /// Refused as [`LockManager::convert`](crate::LockManager::convert); EXENQLM if as many requests of the process are
    /// under way as it declared. The wait ends without a grant by DEADLOCK, CANCEL, ABORT, NONEXPR or DEPARTED.
    pub fn convert(&mut self, mode: Mode) -> Result<(), Error> {
        self.convert_with(mode, Terms::new())
    }

    /// The same, and waits at most this long: see [`Shared::lock_timeout`].
    pub fn convert_timeout(&mut self, mode: Mode, longest: Duration) -> Result<(), Error> {
        self.convert_with(mode, Terms::new().within(longest))
    }

    /// The same, on these terms. A blocking routine among them takes the place of the old one with the grant.
    pub fn convert_with(&mut self, mode: Mode, terms: Terms) -> Result<(), Error> {
        let mut conversion = self.conversion(mode, terms);
        let routines = conversion.asked.routines(None);
        let granted = &mut conversion.granted;
        let value = Some(&mut granted.value);
        (_, granted.status) = self.held.shared.ask(&conversion.asked, routines, value)?;
        self.converted(conversion);
        Ok(())
    }

    /// A conversion to a mode, not asked for yet.
    pub(super) fn conversion(&self, mode: Mode, terms: Terms) -> Conversion {
        let written = self.held.written().as_deref().copied();
        let written = written.filter(|_| self.mode >= Mode::Pw);
        let (is_read, has_value) = (self.mode.is_read_by(mode), self.granted.is_some());
        let mut asked = Asked::convert(self.process(), self.lock(), mode, terms);
        asked.flags = match is_read {
            true if has_value => asked.flags | EnqFlags::VALBLK,
            true => asked.flags,
            false => asked.flags.writing(written.map(|(_, tail)| tail.is_some())),
        };
        asked.blocking = asked.blocking.or_else(|| self.blocking.clone());
        Conversion {
            granted: Granted::of(bytes_of(written), asked.flags),
            asked,
            is_read,
            is_written: written.is_some() && !is_read,
        }
    }

    /// Notes a conversion that was granted.
    pub(super) fn converted(&mut self, conversion: Conversion) {
        if conversion.is_read {
            let has_value = self.granted.is_some();
            self.granted = has_value.then_some(conversion.granted);
        } else if conversion.is_written {
            *self.held.written() = None;
        }
        let asked = conversion.asked;
        (self.mode, self.blocking) = (asked.mode, asked.blocking);
    }

    /// Notes a conversion that has ended, if it was granted: the lock holds its mode. What it read is not known.
    pub(super) fn read_conversion(&mut self, mut conversion: Conversion) {
        let lock = self.lock();
        let held = self.shared().look(|manager| manager.lock(lock)?.held);
        if held == Some(conversion.asked.mode) {
            conversion.is_read = false;
            self.converted(conversion);
        }
    }

    pub(super) fn shared(&self) -> &Shared {
        &self.held.shared
    }

    /// Gives the lock up, and writes the value that was named. A second call does nothing. If it is refused, the guard
    /// has the lock still. SUBLOCKS; IVLOCKID: another call gave it up; NONEXPR, DEPARTED: its process has ended.
    pub fn release(&mut self) -> Result<(), Error> {
        self.held.release()
    }

    /// Lets the guard go and leaves the lock held, and with it the parents' locks whose guards are gone:
    /// [`Lock::parent`](crate::Lock::parent) tells their IDs. [`Shared::deq`] gives each of them up.
    pub fn keep(self) -> LockId {
        self.held.is_held.store(false, Relaxed);
        self.lock()
    }
}

/// The 64 bytes of what is written.
pub(super) fn bytes_of(written: Option<Value>) -> [u8; 64] {
    let (value, tail) = written.unwrap_or(([0; 16], None));
    let mut bytes = [0; 64];
    bytes[..16].copy_from_slice(&value);
    bytes[16..].copy_from_slice(&tail.unwrap_or([0; 48]));
    bytes
}

impl Drop for Guard {
    fn drop(&mut self) {
        if thread::panicking() && !self.was_panicking {
            *self.held.written() = None;
        }
    }
}

impl fmt::Debug for Guard {
    fn fmt(&self, f: &mut fmt::Formatter<'_>) -> fmt::Result {
        f.debug_struct("Guard")
            .field("process", &self.process())
            .field("lock", &self.lock())
            .field("mode", &self.mode)
            .finish_non_exhaustive()
    }
}
