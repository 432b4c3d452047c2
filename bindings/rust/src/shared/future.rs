//! Waits without a thread.

use std::future::Future;
use std::pin::Pin;
use std::sync::{Arc, Mutex, MutexGuard, PoisonError};
use std::task::{Context, Poll, Waker};

use super::guard::{Conversion, Granted, Guard};
use super::routines::Event;
use super::terms::Terms;
use super::{Asked, Shared};
use crate::condition::{Condition, Error};
use crate::names::{LockId, Mode, ProcessId};

/// What the completion routine and the future share.
#[derive(Default)]
struct Ending {
    /// How the request ended, or no event if its process ended first.
    ended: Option<Option<Event>>,
    waker: Option<Waker>,
}

/// Tells the future of the end. The completion routine owns it, so it goes with that if the process ends first.
struct Teller(Arc<Mutex<Ending>>);

impl Teller {
    fn tell(&self, event: Option<Event>) {
        let mut ending = locked(&self.0);
        ending.ended.get_or_insert(event);
        let waker = ending.waker.take();
        drop(ending);
        waker.into_iter().for_each(Waker::wake);
    }
}

impl Drop for Teller {
    fn drop(&mut self) {
        self.tell(None);
    }
}

/// A request that waits: [`Shared::lock_async`] makes it. Dropped before its end, it cancels the request, and gives up
/// what was granted meanwhile. So it leaves nothing queued.
#[must_use = "a future that is dropped cancels its request"]
pub struct LockFuture {
    shared: Shared,
    /// None once the end was told.
    asked: Option<Asked<'static>>,
    process: ProcessId,
    /// None once the end was told.
    lock: Option<LockId>,
    ending: Arc<Mutex<Ending>>,
}

impl Shared {
    /// Asks for a lock at once, and returns a future of its guard. A longest wait among the terms is ignored: a
    /// time-out of the runtime drops the future. Refused, and ended, as [`Shared::lock`].
    ///
    /// ```
    /// # use std::{future::Future, pin::pin, task::{Context, Poll}, thread};
    /// # struct Unpark(thread::Thread);
    /// # impl std::task::Wake for Unpark {
    /// #     fn wake(self: std::sync::Arc<Self>) { self.0.unpark(); }
    /// # }
    /// # fn block_on<T>(future: impl Future<Output = T>) -> T {
    /// #     let waker = std::sync::Arc::new(Unpark(thread::current())).into();
    /// #     let mut future = pin!(future);
    /// #     loop {
    /// #         match future.as_mut().poll(&mut Context::from_waker(&waker)) {
    /// #             Poll::Ready(value) => return value,
    /// #             Poll::Pending => thread::park(),
    /// #         }
    /// #     }
    /// # }
    /// use vlm::{Client, Error, Mode, Shared, Terms};
    ///
    /// async fn hold(shared: &Shared) -> Result<(), Error> {
    ///     let p = shared.declare(&Client::default())?;
    ///     let guard = shared.lock_async(p, b"A", Mode::Ex, Terms::new())?.await?;
    ///     drop(guard);
    ///     shared.rundown(p)
    /// }
    /// # let shared = Shared::new().unwrap();
    /// # assert_eq!(block_on(hold(&shared)), Ok(()));
    /// ```
    pub fn lock_async(
        &self,
        process: ProcessId,
        name: &[u8],
        mode: Mode,
        terms: Terms,
    ) -> Result<LockFuture, Error> {
        let asked = Asked::new(process, name, mode, terms);
        let ending = Arc::new(Mutex::new(Ending::default()));
        let teller = Teller(Arc::clone(&ending));
        let lock = self.start_asked(&asked, [0; 64], move |event| teller.tell(Some(event)))?;
        Ok(LockFuture {
            shared: self.clone(),
            process,
            asked: Some(Asked {
                name: None,
                ..asked
            }),
            lock: Some(lock),
            ending,
        })
    }
}

fn locked(ending: &Mutex<Ending>) -> MutexGuard<'_, Ending> {
    ending.lock().unwrap_or_else(PoisonError::into_inner)
}

/// The end of a request, once it was told. Until then it has the task woken by the end.
fn polled(ending: &Mutex<Ending>, context: &mut Context<'_>) -> Poll<Option<Event>> {
    let mut ending = locked(ending);
    if let Some(event) = ending.ended {
        return Poll::Ready(event);
    }
    ending.waker = Some(context.waker().clone());
    Poll::Pending
}

impl LockFuture {
    /// The lock for which it waits.
    pub fn lock(&self) -> Option<LockId> {
        self.lock
    }

    /// The guard of a request that has ended by a grant.
    fn guard(&mut self, event: Option<Event>) -> Result<Guard, Error> {
        let asked = self.asked.take().ok_or(Error::Nonexpr)?;
        let event = event.ok_or_else(|| self.shared.end_of(self.process))?;
        let status = event.status.unwrap_or(Condition::Normal).success()?;
        let granted = Granted::asked_by(asked.flags).map(|mut granted| {
            returned(&mut granted, &event, status);
            granted
        });
        Ok(Guard::new(&self.shared, asked, event.lock, granted))
    }
}

/// Copies what a grant returned.
fn returned(granted: &mut Granted, event: &Event, status: Condition) {
    granted.value[..16].copy_from_slice(&event.value.unwrap_or_default());
    granted.value[16..].copy_from_slice(&event.tail.unwrap_or([0; 48]));
    granted.status = status;
}

impl Future for LockFuture {
    type Output = Result<Guard, Error>;

    fn poll(mut self: Pin<&mut Self>, context: &mut Context<'_>) -> Poll<Self::Output> {
        let Poll::Ready(event) = polled(&self.ending, context) else {
            return Poll::Pending;
        };
        self.lock = None;
        Poll::Ready(self.guard(event))
    }
}

impl Drop for LockFuture {
    fn drop(&mut self) {
        let Some(lock) = self.lock else {
            return;
        };
        // (a request that was granted can't be cancelled)
        if self.shared.cancel(self.process, lock) == Err(Error::Cancelgrant) {
            let _ = self.shared.deq(self.process, lock);
        }
    }
}

/// A conversion that waits: [`Guard::convert_async`] makes it. Dropped before its end, it cancels the conversion, and
/// the lock holds what it held. If it was granted meanwhile, the guard has the new mode, and the value that it had.
#[must_use = "a future that is dropped cancels its conversion"]
pub struct ConvertFuture<'a> {
    guard: &'a mut Guard,
    /// None once the end was told.
    conversion: Option<Conversion>,
    ending: Arc<Mutex<Ending>>,
}

impl Guard {
    /// Asks for another mode at once, and returns a future of the grant. If it fails, the lock holds what it held. A
    /// longest wait among the terms is ignored. Refused, and ended, as [`Guard::convert`].
    pub fn convert_async(&mut self, mode: Mode, terms: Terms) -> Result<ConvertFuture<'_>, Error> {
        let conversion = self.conversion(mode, terms);
        let ending = Arc::new(Mutex::new(Ending::default()));
        let teller = Teller(Arc::clone(&ending));
        let value = conversion.granted.value;
        self.shared()
            .start_asked(&conversion.asked, value, move |event| {
                teller.tell(Some(event))
            })?;
        Ok(ConvertFuture {
            guard: self,
            conversion: Some(conversion),
            ending,
        })
    }

    fn conversion_ended(
        &mut self,
        mut conversion: Conversion,
        event: Option<Event>,
    ) -> Result<(), Error> {
        let event = event.ok_or_else(|| self.shared().end_of(self.process()))?;
        let status = event.status.unwrap_or(Condition::Normal).success()?;
        returned(&mut conversion.granted, &event, status);
        self.converted(conversion);
        Ok(())
    }
}

impl Future for ConvertFuture<'_> {
    type Output = Result<(), Error>;

    fn poll(mut self: Pin<&mut Self>, context: &mut Context<'_>) -> Poll<Self::Output> {
        let Poll::Ready(event) = polled(&self.ending, context) else {
            return Poll::Pending;
        };
        let conversion = self.conversion.take().expect("polled once after its end");
        Poll::Ready(self.guard.conversion_ended(conversion, event))
    }
}

impl Drop for ConvertFuture<'_> {
    fn drop(&mut self) {
        let Some(conversion) = self.conversion.take() else {
            return;
        };
        let (process, lock) = (self.guard.process(), self.guard.lock());
        let is_over = self.guard.shared().cancel(process, lock) == Err(Error::Cancelgrant);
        let ended = locked(&self.ending).ended;
        match ended {
            Some(event) => drop(self.guard.conversion_ended(conversion, event)),
            None if is_over => self.guard.read_conversion(conversion),
            None => {}
        }
    }
}
