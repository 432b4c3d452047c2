//! Connections to vlmd, the lock service for the processes of a machine.
//!
//! docs/SERVICE.md of the repository teaches the service.
//!
//! ```no_run
//! use std::time::Duration;
//! use vlm::service::Connection;
//! use vlm::{Mode, Terms};
//!
//! # fn main() -> Result<(), vlm::Error> {
//! let connection = Connection::open()?;
//! let p = connection.declare(9, 1)?;
//! let mut guard = connection.lock_with(p, b"backup", Mode::Ex, Terms::new().within(Duration::from_secs(5)))?;
//! guard.write(*b"the next version");
//! guard.release()?; // tells whether the lock was held to the end
//! # Ok(())
//! # }
//! ```

mod guard;
#[allow(unsafe_code)]
mod raw;

use std::ffi::CString;
use std::fmt;
use std::os::unix::ffi::OsStrExt;
use std::path::{Path, PathBuf};
use std::sync::{Arc, Mutex};
use std::time::Duration;

use crate::condition::answered;
use crate::shared::Blocking;
use crate::{DeqFlags, EnqFlags, Error, Event, LockId, Mode, ProcessId, Terms};
pub use guard::ServedGuard;
use raw::{Answered, Connected, Known, LostRun, Opening, Wanted};

/// Files in PEM's form, for addresses as in `tls:HOST:PORT`.
#[derive(Clone, Debug, PartialEq, Eq)]
pub struct TlsFiles {
    /// The certificate that the client shows.
    pub certificate: PathBuf,
    /// Its key.
    pub key: PathBuf,
    /// The authority that has signed the certificates of the replicas.
    pub authority: PathBuf,
}

/// A session of the lock service. A clone is the same session, and threads may share it. It ends, with all its locks,
/// when its last clone and guard are dropped.
///
/// Once the service or the session has ended, each call answers [`Error::Lost`]: the locks are gone. A forked child
/// may not use it: BADPARAM.
#[derive(Clone)]
pub struct Connection {
    client: Arc<Connected>,
}

/// What an answer of the library is to a caller.
fn checked(answer: u32) -> Result<(), Error> {
    answered(answer).map(|_success| ())
}

/// The seconds of a time without a fraction.
fn whole_seconds(time: Duration) -> Option<u32> {
    (time.subsec_nanos() == 0)
        .then(|| time.as_secs().try_into().ok())
        .flatten()
}

impl Connection {
    /// Connects to the socket that VLM_SOCKET names, or to /run/vlm/lock.sock. Lost: there is no service.
    pub fn open() -> Result<Connection, Error> {
        Connection::opened(&Opening::default(), None)
    }

    /// Connects to a socket, or to the replicas at `tcp:HOST:PORT,HOST:PORT..` or, by TLS, `tls:HOST:PORT,HOST:PORT..`.
    /// `on_lost` is told once by [`Connection::deliver`] that the locks are lost. BADPARAM: the path has a byte 0.
    pub fn open_at(
        socket: impl AsRef<Path>,
        on_lost: impl FnMut() + Send + 'static,
    ) -> Result<Connection, Error> {
        Connection::open_leased(socket, Duration::ZERO, on_lost)
    }

    /// The same, with a lease of 2 to 600 seconds at addresses of TCP: the locks are lost when no replica was heard for
    /// so long. Zero means the usual 10 seconds. BADPARAM: the lease is another one.
    pub fn open_leased(
        socket: impl AsRef<Path>,
        lease: Duration,
        on_lost: impl FnMut() + Send + 'static,
    ) -> Result<Connection, Error> {
        Connection::open_told(socket.as_ref(), lease, Default::default(), on_lost)
    }

    /// The same, with files for TLS. Without them they are those of VLM_TLS_CERTIFICATE, VLM_TLS_KEY and
    /// VLM_TLS_AUTHORITY. Lost also: a file is wrong, or the replica refuses the certificate.
    pub fn open_secured(
        socket: impl AsRef<Path>,
        lease: Duration,
        files: &TlsFiles,
        on_lost: impl FnMut() + Send + 'static,
    ) -> Result<Connection, Error> {
        let named = [&files.certificate, &files.key, &files.authority];
        Connection::open_told(
            socket.as_ref(),
            lease,
            named.map(|it| Some(it.as_path())),
            on_lost,
        )
    }

    fn open_told(
        socket: &Path,
        lease: Duration,
        files: [Option<&Path>; 3],
        on_lost: impl FnMut() + Send + 'static,
    ) -> Result<Connection, Error> {
        let text =
            |path: &Path| CString::new(path.as_os_str().as_bytes()).map_err(|_| Error::Badparam);
        let [certificate, key, authority] = files.map(|it| it.map(text).transpose());
        let how = Opening {
            socket: Some(text(socket)?),
            lease_seconds: whole_seconds(lease).ok_or(Error::Badparam)?,
            files: [certificate?, key?, authority?],
        };
        Connection::opened(&how, Some(Arc::new(Mutex::new(on_lost))))
    }

    fn opened(how: &Opening, loss: Option<LostRun>) -> Result<Connection, Error> {
        let client = Arc::new(Connected::open(how, loss)?);
        Ok(Connection { client })
    }

    fn client(&self) -> &Connected {
        &self.client
    }

    /// The number of a blocking routine, or 0.
    fn blocking_of(&self, process: ProcessId, routine: Option<Blocking>) -> usize {
        routine.map_or(0, |it| {
            self.client().number_of(process.0, Known::Blocking(it))
        })
    }

    /// Begins a new session after a loss, without processes. Wait for no call of another thread meanwhile.
    pub fn reopen(&self) -> Result<(), Error> {
        checked(self.client().reopen())
    }

    /// Gives the session a process: how many locks it may have, and how many requests may be under way at once.
    pub fn declare(&self, quota: u16, requests: u8) -> Result<ProcessId, Error> {
        let mut pid = 0;
        checked(
            self.client()
                .declare(quota.into(), requests.into(), &mut pid),
        )?;
        Ok(ProcessId(pid))
    }

    /// Ends a process with all its locks and routines.
    pub fn rundown(&self, process: ProcessId) -> Result<(), Error> {
        checked(self.client().rundown(process.0))
    }

    /// Asks for a lock and waits for the grant, without an end.
    pub fn lock(&self, process: ProcessId, name: &[u8], mode: Mode) -> Result<ServedGuard, Error> {
        self.lock_with(process, name, mode, Terms::new())
    }

    /// The same, on these terms: see [`Shared::lock_with`](crate::Shared::lock_with).
    pub fn lock_with(
        &self,
        process: ProcessId,
        name: &[u8],
        mode: Mode,
        terms: Terms,
    ) -> Result<ServedGuard, Error> {
        let flags = terms.flags.waiting() | EnqFlags::VALBLK;
        let lock = terms.served_parent()?;
        let blocking = self.blocking_of(process, terms.blocking);
        let wanted = Wanted {
            process: process.0,
            mode: mode as u32,
            flags: flags.0.into(),
            lock,
            milliseconds: terms.longest,
            completion: 0,
            blocking,
        };
        let found = self.asked(&wanted, Some(name), [0; 64])?;
        Ok(ServedGuard::new(
            self.clone(),
            process,
            mode,
            flags,
            found,
            blocking,
        ))
    }

    /// Asks for a lock and does not wait. The completion routine is told once how the request ended; not if its process
    /// is run down first. A blocking routine and a longest wait among the terms are ignored. [`Connection::deq`] gives
    /// the lock up.
    pub fn start(
        &self,
        process: ProcessId,
        name: &[u8],
        mode: Mode,
        terms: Terms,
        completion: impl FnMut(Event) + Send + 'static,
    ) -> Result<LockId, Error> {
        let lock = terms.served_parent()?;
        let routine = Known::Completion(Arc::new(Mutex::new(completion)));
        let number = self.client().number_of(process.0, routine);
        let flags = terms.flags.waiting() | EnqFlags::VALBLK;
        let wanted = Wanted {
            process: process.0,
            mode: mode as u32,
            flags: flags.0.into(),
            lock,
            milliseconds: 0,
            completion: number,
            blocking: 0,
        };
        let found = self.client().ask(&wanted, Some(name), [0; 64]);
        if let Err(refused) = checked(found.answer) {
            raw::forget(number);
            return Err(refused);
        }
        Ok(LockId(found.lock))
    }

    /// Makes a request that waits. Its blocking routine is forgotten if it has no grant.
    fn asked(
        &self,
        wanted: &Wanted,
        name: Option<&[u8]>,
        value: [u8; 64],
    ) -> Result<Answered, Error> {
        let found = self.client().ask(wanted, name, value);
        if let Err(refused) = checked(found.answer) {
            raw::forget(wanted.blocking);
            return Err(refused);
        }
        Ok(found)
    }

    /// Gives a lock up, or several with DEQALL, or cancels its request; without a lock and with DEQALL all locks of the
    /// process.
    pub fn deq(
        &self,
        process: ProcessId,
        lock: Option<LockId>,
        flags: DeqFlags,
    ) -> Result<(), Error> {
        checked(
            self.client()
                .deq(process.0, flags.0.into(), lock.map_or(0, |it| it.0), None),
        )
    }

    /// The fencing token of a lock: of its last request that was granted. A later grant has a greater one, so storage
    /// that refuses a smaller token than it has seen keeps out a client that has lost its lock and does not know yet.
    /// Ivlockid: there is no such lock, or it waits for its first grant.
    pub fn token(&self, lock: LockId) -> Result<u64, Error> {
        let mut token = 0;
        checked(self.client().token(lock.0, &mut token))?;
        Ok(token)
    }

    /// Calls the routines whose requests have ended or whose locks are in the way, oldest first. Returns how many it
    /// called. A routine may make any call. If one panics, the others run, and the panic goes on from here.
    pub fn deliver(&self) -> u32 {
        self.client().dispatch()
    }
}

impl fmt::Debug for Connection {
    fn fmt(&self, f: &mut fmt::Formatter<'_>) -> fmt::Result {
        f.debug_struct("Connection").finish_non_exhaustive()
    }
}
