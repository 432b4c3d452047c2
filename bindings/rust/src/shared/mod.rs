//! A lock manager that threads share: the library's layer for threads, with guards and closures.
//!
//! | Module | Role |
//! |---|---|
//! | `raw` | the calls of the layer, and the functions that it calls |
//! | `hooks` | what a lock manager is opened with, and what it tells of deadlocks and long waits |
//! | `terms` | how a process is declared, and how a lock is asked for |
//! | `routines` | closures of requests |
//! | `guard` | a lock that is given up on drop |
//! | `future` | waits without a thread |

mod future;
mod guard;
mod hooks;
#[allow(unsafe_code)]
mod raw;
mod routines;
mod terms;

use std::os::fd::RawFd;
use std::sync::{Arc, Mutex};
use std::time::Duration;

pub use future::{ConvertFuture, LockFuture};
pub use guard::Guard;
pub use hooks::{Deadlock, Options, Wait};
pub use raw::Counters;
pub(crate) use routines::Blocking;
pub use routines::Event;
pub use terms::{Client, Terms};

use crate::condition::{answered, Condition, Error};
use crate::flags::{DeqFlags, EnqFlags};
use crate::manager::LockManager;
use crate::names::{LockId, Mode, ProcessId, Which};
use crate::requests::Dequeue;
use guard::{Granted, Held, Value};
use routines::{Completion, Routines};

/// A lock manager that threads share: its calls wait for grants, wake each other and call routines. A clone is another
/// name of the same lock manager. The last one that goes, guards included, closes it.
///
/// Each call takes a mutex, and gives it up while it waits. The thread that makes a step wakes each thread whose
/// request ended by it. Routines run one at a time, in a thread of the lock manager, or in one that calls
/// [`Shared::deliver`]: [`Options`] say which. If a routine of such a thread panics, the others run all the same.
///
/// ```
/// use vlm::{Client, Mode, Shared};
///
/// # fn main() -> Result<(), vlm::Error> {
/// let shared = Shared::new()?;
/// let threads: Vec<_> = (0..4)
///     .map(|_| {
///         let shared = shared.clone();
///         std::thread::spawn(move || {
///             let process = shared.declare(&Client::default())?;
///             let guard = shared.lock(process, b"A", Mode::Ex)?;
///             // .. this thread holds A alone ..
///             drop(guard);
///             shared.rundown(process)
///         })
///     })
///     .collect();
/// for thread in threads {
///     thread.join().expect("a thread")?;
/// }
/// assert_eq!(shared.look(|manager| manager.resource_count()), 0);
/// # Ok(())
/// # }
/// ```
#[derive(Clone)]
pub struct Shared {
    layer: Arc<raw::Layer>,
}

/// A request: for a new lock if it has a name, or for another mode of a lock.
struct Asked<'a> {
    process: ProcessId,
    name: Option<&'a [u8]>,
    /// The parent or 0, or the lock.
    lock: u32,
    mode: Mode,
    flags: EnqFlags,
    longest: u32,
    blocking: Option<Blocking>,
    kept: Option<Arc<Held>>,
}

impl<'a> Asked<'a> {
    fn new(process: ProcessId, name: &'a [u8], mode: Mode, terms: Terms) -> Asked<'a> {
        Asked {
            process,
            name: Some(name),
            lock: terms.parent,
            mode,
            flags: terms.flags.waiting(),
            longest: terms.longest,
            blocking: terms.blocking,
            kept: terms.kept,
        }
    }

    fn convert(process: ProcessId, lock: LockId, mode: Mode, terms: Terms) -> Asked<'a> {
        Asked {
            name: None,
            lock: lock.0,
            kept: None,
            ..Asked::new(process, b"", mode, terms)
        }
    }

    /// The closures of the request, if it has any.
    fn routines(&self, completion: Option<Completion>) -> Option<Routines> {
        let is_any = completion.is_some() || self.blocking.is_some();
        is_any.then(|| Routines {
            completion: completion.map(|it| Mutex::new(Some(it))),
            blocking: self.blocking.clone(),
        })
    }
}

impl Shared {
    /// A lock manager with nothing in it. A thread of its own runs routines, and nothing searches for deadlocks:
    /// [`Options`] say more. INSFMEM.
    pub fn new() -> Result<Shared, Error> {
        Options::new().open()
    }

    fn of(layer: raw::Layer) -> Shared {
        Shared {
            layer: Arc::new(layer),
        }
    }

    /// Declares a process. Threads may share it. BADPARAM, DEPARTED, INSFMEM.
    pub fn declare(&self, client: &Client<'_>) -> Result<ProcessId, Error> {
        let mut pid = 0;
        answered(self.layer.declare(&client.words()?, &mut pid))?;
        Ok(ProcessId(pid))
    }

    /// Ends a process, with all its locks, routines and events. A call that waits for it fails by NONEXPR. DEPARTED,
    /// NONEXPR.
    pub fn rundown(&self, process: ProcessId) -> Result<(), Error> {
        answered(self.layer.rundown(process.0)).map(drop)
    }

    /// A node departs, with all its processes. A call that waits for one of them fails by DEPARTED. BADPARAM, DEPARTED.
    pub fn leave(&self, node: u8) -> Result<(), Error> {
        answered(self.layer.leave(node.into())).map(drop)
    }

    /// Ends all processes: calls that wait fail by DEPARTED, and so do later ones.
    pub fn stop(&self) {
        self.layer.stop();
    }

    /// Searches until no request is deadlocked, and returns how many ended by DEADLOCK. [`Options::search_every`] does
    /// so at intervals. DEPARTED.
    pub fn search(&self) -> Result<u32, Error> {
        let mut victims = 0;
        answered(self.layer.search(&mut victims))?;
        Ok(victims)
    }

    /// Asks for a lock on the resource of a name, and waits for the grant.
    ///
    /// Refused as [`LockManager::enq`]; EXENQLM also if as many requests of the process are under way as it declared.
    /// The wait ends without a grant by DEADLOCK, by ABORT (another thread gave the lock up or cancelled its request),
    /// and by NONEXPR or DEPARTED (the process has ended).
    pub fn lock(&self, process: ProcessId, name: &[u8], mode: Mode) -> Result<Guard, Error> {
        self.lock_with(process, name, mode, Terms::new())
    }

    /// The same, and waits at most this long, rounded up to milliseconds. If the time is over the request is cancelled:
    /// `Timeout`. A grant that came too late counts as granted.
    ///
    /// ```
    /// use std::time::Duration;
    /// use vlm::{Client, Error, Mode, Shared};
    ///
    /// # fn main() -> Result<(), Error> {
    /// let shared = Shared::new()?;
    /// let p = shared.declare(&Client::default())?;
    /// let held = shared.lock(p, b"A", Mode::Ex)?;
    /// let refused = shared.lock_timeout(p, b"A", Mode::Ex, Duration::from_millis(1));
    /// assert_eq!(refused.err(), Some(Error::Timeout));
    /// drop(held);
    /// # Ok(())
    /// # }
    /// ```
    pub fn lock_timeout(
        &self,
        process: ProcessId,
        name: &[u8],
        mode: Mode,
        longest: Duration,
    ) -> Result<Guard, Error> {
        self.lock_with(process, name, mode, Terms::new().within(longest))
    }

    /// The same, on these terms: flags, a parent lock, the longest wait, a blocking routine.
    pub fn lock_with(
        &self,
        process: ProcessId,
        name: &[u8],
        mode: Mode,
        terms: Terms,
    ) -> Result<Guard, Error> {
        let asked = Asked::new(process, name, mode, terms);
        let mut granted = Granted::asked_by(asked.flags);
        let value = granted.as_mut().map(|granted| &mut granted.value);
        let (lock, status) = self.ask(&asked, asked.routines(None), value)?;
        if let Some(granted) = &mut granted {
            granted.status = status;
        }
        Ok(Guard::new(self, asked, lock, granted))
    }

    /// Asks, and without a completion routine waits. The status is NORMAL, too, while the request has not ended.
    fn ask(
        &self,
        asked: &Asked<'_>,
        routines: Option<Routines>,
        value: Option<&mut [u8; 64]>,
    ) -> Result<(LockId, Condition), Error> {
        if !asked.kept.iter().all(|parent| parent.is_of(self)) {
            return Err(Error::Badparam);
        }
        let mut words = raw::Request {
            pid: asked.process.0,
            mode: asked.mode as u32,
            flags: asked.flags.0.into(),
            lock: asked.lock,
            milliseconds: asked.longest,
            ..raw::Request::new()
        };
        let status = self.layer.ask(&mut words, value, asked.name, routines);
        answered(status)?;
        // (a started request has no status yet)
        let ended = match words.status {
            0 | 1 => Condition::Normal,
            status => Condition::of(status),
        };
        Ok((LockId(words.lkid), ended))
    }

    /// Asks for a lock and does not wait. The completion routine is told once how the request ended, also if it was
    /// granted at once; not if its process ends first. A longest wait among the terms is ignored. [`Shared::deq`] gives
    /// the lock up. Refused as [`Shared::lock`].
    ///
    /// ```
    /// use std::sync::mpsc::channel;
    /// use vlm::{Client, Condition, Mode, Shared, Terms};
    ///
    /// # fn main() -> Result<(), vlm::Error> {
    /// let shared = Shared::new()?;
    /// let p = shared.declare(&Client::default())?;
    /// let (ended, ends) = channel();
    /// let lock = shared.start(p, b"A", Mode::Ex, Terms::new(), move |event| {
    ///     let _ = ended.send(event.status);
    /// })?;
    /// assert_eq!(ends.recv(), Ok(Some(Condition::Normal)));
    /// shared.deq(p, lock)?;
    /// # Ok(())
    /// # }
    /// ```
    pub fn start(
        &self,
        process: ProcessId,
        name: &[u8],
        mode: Mode,
        terms: Terms,
        completion: impl FnOnce(Event) + Send + 'static,
    ) -> Result<LockId, Error> {
        let asked = Asked::new(process, name, mode, terms);
        self.start_asked(&asked, [0; 64], completion)
    }

    /// The same for another mode of a lock. Without a blocking routine among the terms the lock has none after the
    /// grant. With VALBLK, a conversion that writes the value block writes zeros. Refused as [`Guard::convert`].
    pub fn start_convert(
        &self,
        process: ProcessId,
        lock: LockId,
        mode: Mode,
        terms: Terms,
        completion: impl FnOnce(Event) + Send + 'static,
    ) -> Result<(), Error> {
        let asked = Asked::convert(process, lock, mode, terms);
        self.start_asked(&asked, [0; 64], completion).map(drop)
    }

    /// With VALBLK, a conversion that writes the value block writes this value.
    fn start_asked(
        &self,
        asked: &Asked<'_>,
        mut value: [u8; 64],
        completion: impl FnOnce(Event) + Send + 'static,
    ) -> Result<LockId, Error> {
        let routines = asked.routines(Some(Box::new(completion)));
        Ok(self.ask(asked, routines, Some(&mut value))?.0)
    }

    /// Gives a lock up, also one with a guard or a request that waits. DEPARTED, NONEXPR, IVLOCKID, SUBLOCKS.
    pub fn deq(&self, process: ProcessId, lock: LockId) -> Result<(), Error> {
        self.dequeue(&Dequeue::new(process, Some(lock.into())))
    }

    /// Gives a lock up, or all, or cancels a request, as [`LockManager::dequeue`]; BADPARAM also for a lock that is
    /// named by a status block. DEPARTED, NONEXPR, BADPARAM, IVLOCKID, CANCELGRANT, SUBLOCKS.
    pub fn dequeue(&self, dequeue: &Dequeue) -> Result<(), Error> {
        let lock = match dequeue.lock {
            None => 0,
            Some(Which::Lock(lock)) => lock.0,
            Some(Which::Block(_)) => return Err(Error::Badparam),
        };
        if dequeue.tail.is_some() && dequeue.value.is_none() {
            return Err(Error::Badparam);
        }
        let value = dequeue.value.map(|value| (value, dequeue.tail));
        self.give_up(dequeue.process, lock, dequeue.flags, value)
    }

    fn give_up(
        &self,
        process: ProcessId,
        lock: u32,
        flags: DeqFlags,
        value: Option<Value>,
    ) -> Result<(), Error> {
        let mut words = raw::Dequeue {
            pid: process.0,
            flags: flags.0.into(),
            lock,
            wide: value.is_some_and(|it| it.1.is_some()).into(),
            ..raw::Dequeue::new()
        };
        let value = value.map(|value| guard::bytes_of(Some(value)));
        answered(self.layer.deq(&mut words, value.as_ref())).map(drop)
    }

    /// How a process has ended: NONEXPR, or DEPARTED.
    fn end_of(&self, process: ProcessId) -> Error {
        // (any call for the process tells it, and this one changes nothing)
        self.descriptor_of(process).err().unwrap_or(Error::Nonexpr)
    }

    /// Cancels the queued request of a lock, whose wait fails by ABORT or, for a conversion, by CANCEL. DEPARTED,
    /// NONEXPR, IVLOCKID, CANCELGRANT.
    pub fn cancel(&self, process: ProcessId, lock: LockId) -> Result<(), Error> {
        self.dequeue(&Dequeue {
            flags: DeqFlags::CANCEL,
            ..Dequeue::new(process, Some(lock.into()))
        })
    }

    /// Cancels all queued requests of a process, and returns how many there were. DEPARTED, NONEXPR.
    pub fn cancel_all(&self, process: ProcessId) -> Result<u32, Error> {
        let mut cancelled = 0;
        answered(self.layer.cancel(process.0, &mut cancelled))?;
        Ok(cancelled)
    }

    /// Lets a closure read the lock manager, under the mutex: it must make no call of this `Shared`, and drop no guard.
    pub fn look<T>(&self, reader: impl FnOnce(&LockManager) -> T) -> T {
        self.layer.look(reader)
    }

    /// Calls the routines of the events that are pending, oldest first; not of those that come meanwhile. Returns how
    /// many it called: 0 if another delivery runs, in this thread or another. If one panics, the others run, and the
    /// panic goes on from here. BADPARAM without [`Options::by_program`].
    ///
    /// A completion comes before the warning that its grant is in the way. A warning is dropped if its grant is over:
    /// its lock has gone, or a conversion was granted.
    pub fn deliver(&self) -> Result<u32, Error> {
        let mut delivered = 0;
        answered(self.layer.dispatch(None, &mut delivered))?;
        Ok(delivered)
    }

    /// The same for a process with [`Client::own_queue`]. BADPARAM: it has none; NONEXPR, DEPARTED.
    pub fn deliver_of(&self, process: ProcessId) -> Result<u32, Error> {
        let mut delivered = 0;
        answered(self.layer.dispatch(Some(process.0), &mut delivered))?;
        Ok(delivered)
    }

    /// The descriptor that is readable while [`Shared::deliver`] has something to do, for poll and epoll. It lives as
    /// long as the lock manager, which alone reads, writes and closes it. BADPARAM without [`Options::by_program`].
    pub fn descriptor(&self) -> Result<RawFd, Error> {
        let mut descriptor = -1;
        answered(self.layer.fd(&mut descriptor))?;
        Ok(descriptor)
    }

    /// The same for [`Shared::deliver_of`]. It is closed when the process ends. BADPARAM, NONEXPR, DEPARTED.
    pub fn descriptor_of(&self, process: ProcessId) -> Result<RawFd, Error> {
        let mut descriptor = -1;
        answered(self.layer.process_fd(process.0, &mut descriptor))?;
        Ok(descriptor)
    }

    /// Waits until each routine and hook that runs has returned. BADPARAM: one of them calls it.
    pub fn settle(&self) -> Result<(), Error> {
        answered(self.layer.settle()).map(drop)
    }

    /// Reads all counters at one moment: `vlm_threads.h` says what each counts.
    pub fn counters(&self) -> Counters {
        let mut counters = Counters::new();
        self.layer.read_counters(&mut counters);
        counters
    }

    /// The counters as lines of text.
    pub fn counters_text(&self) -> String {
        raw::counters_text(&self.counters())
    }

    /// The counters in the text format of Prometheus.
    pub fn prometheus_text(&self) -> String {
        raw::prometheus_text(&self.counters())
    }
}
