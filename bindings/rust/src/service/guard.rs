//! A lock of the service that is given up on drop.

use std::fmt;
use std::mem;
use std::thread;

use super::raw::{self, Answered, Wanted};
use super::{checked, Connection};
use crate::{Condition, EnqFlags, Error, LockId, Mode, ProcessId, Terms};

/// A lock of the lock service that is held. Dropping it gives the lock up, and writes the value that
/// [`ServedGuard::write`] named; a guard that a panic drops writes nothing.
///
/// A drop can't tell that the lock was lost meanwhile: [`ServedGuard::release`] does. A lock that has sublocks stays
/// held: drop the guards of its sublocks first.
#[must_use = "a guard that is dropped gives its lock up"]
pub struct ServedGuard {
    connection: Connection,
    process: ProcessId,
    lock: LockId,
    mode: Mode,
    // The value block at the last grant that returned it, the status of that grant and the flags of its request.
    value: [u8; 64],
    status: u32,
    flags: EnqFlags,
    // What is to be written to the value block, and whether with its tail.
    written: Option<([u8; 64], bool)>,
    // The number of the blocking routine, or 0.
    blocking: usize,
    is_held: bool,
    was_panicking: bool,
}

impl ServedGuard {
    pub(super) fn new(
        connection: Connection,
        process: ProcessId,
        mode: Mode,
        flags: EnqFlags,
        found: Answered,
        blocking: usize,
    ) -> ServedGuard {
        ServedGuard {
            connection,
            process,
            lock: LockId(found.lock),
            mode,
            value: found.value,
            status: found.status,
            flags,
            written: None,
            blocking,
            is_held: true,
            was_panicking: thread::panicking(),
        }
    }

    /// The ID of the lock.
    pub fn lock(&self) -> LockId {
        self.lock
    }

    /// The mode that it holds.
    pub fn mode(&self) -> Mode {
        self.mode
    }

    /// The fencing token of the lock: see [`Connection::token`]. A conversion takes another one.
    pub fn token(&self) -> Result<u64, Error> {
        self.connection.token(self.lock)
    }

    /// The 16 bytes of the value block at the last grant that returned it, and the other 48 if its request had the flag
    /// WIDE.
    pub fn value(&self) -> &[u8] {
        let is_wide = self.flags.contains(EnqFlags::WIDE);
        &self.value[..if is_wide { 64 } else { 16 }]
    }

    /// Whether the value was valid. It is not after its last writer ended without giving its lock up.
    pub fn is_valid(&self) -> bool {
        Condition::of(self.status) != Condition::Valnotvalid
    }

    /// Names what is written to the value block when the lock is given up or goes to a weaker mode. At modes below PW
    /// nothing is written. The tail becomes invalid.
    pub fn write(&mut self, value: [u8; 16]) {
        let mut whole = [0; 64];
        whole[..16].copy_from_slice(&value);
        self.written = Some((whole, false));
    }

    /// The same, with the tail.
    pub fn write_wide(&mut self, value: [u8; 64]) {
        self.written = Some((value, true));
    }

    /// Asks for another mode and waits for the grant. If it fails, the lock holds what it held, unless it is lost. A
    /// blocking routine among the terms takes the place of the old one; without one the lock has none.
    pub fn convert(&mut self, mode: Mode, terms: Terms) -> Result<(), Error> {
        let is_read = self.mode.is_read_by(mode);
        let written = self.written.filter(|_| self.mode >= Mode::Pw && !is_read);
        let flags = match is_read {
            true => terms.flags.waiting() | EnqFlags::VALBLK,
            false => terms.flags.waiting().writing(written.map(|it| it.1)),
        };
        let blocking = self.connection.blocking_of(self.process, terms.blocking);
        let wanted = Wanted {
            process: self.process.0,
            mode: mode as u32,
            flags: flags.0.into(),
            lock: self.lock.0,
            milliseconds: terms.longest,
            completion: 0,
            blocking,
        };
        let value = written.map_or([0; 64], |(value, _)| value);
        let found = self.connection.asked(&wanted, None, value)?;
        let old = mem::replace(&mut self.blocking, blocking);
        self.mode = mode;
        if is_read {
            (self.value, self.status, self.flags) = (found.value, found.status, flags);
        } else if written.is_some() {
            self.written = None;
        }
        raw::forget(old);
        Ok(())
    }

    /// Gives the lock up, and writes the value that was named. A second call does nothing. Lost: the lock was lost
    /// before, so what was done under it may not have been done alone. If it is refused otherwise, the guard has the
    /// lock still.
    pub fn release(&mut self) -> Result<(), Error> {
        if !self.is_held {
            return Ok(());
        }
        let value = self
            .written
            .as_ref()
            .map(|(value, is_wide)| (value, *is_wide));
        let answer = self
            .connection
            .client()
            .deq(self.process.0, 0, self.lock.0, value);
        self.is_held = checked(answer).is_err_and(|error| error != Error::Lost);
        checked(answer)
    }

    /// Lets the guard go and leaves the lock held. [`Connection::deq`] gives it up. The blocking routine lives until
    /// the process is run down or the connection ends.
    pub fn keep(mut self) -> LockId {
        self.is_held = false;
        self.blocking = 0;
        self.lock
    }
}

impl Drop for ServedGuard {
    fn drop(&mut self) {
        if thread::panicking() && !self.was_panicking {
            self.written = None;
        }
        // A refusal has nobody to tell.
        let _ = self.release();
        raw::forget(self.blocking);
    }
}

impl fmt::Debug for ServedGuard {
    fn fmt(&self, f: &mut fmt::Formatter<'_>) -> fmt::Result {
        f.debug_struct("ServedGuard")
            .field("process", &self.process)
            .field("lock", &self.lock)
            .field("mode", &self.mode)
            .finish_non_exhaustive()
    }
}
