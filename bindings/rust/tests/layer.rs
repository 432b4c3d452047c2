//! What a `Shared` has of the library's layer: hooks, the watchdog, futures, queues, counters, and its close.

use std::future::Future;
use std::pin::pin;
use std::sync::mpsc::channel;
use std::sync::{Arc, Mutex};
use std::task::{Context, Poll, Wake, Waker};
use std::thread::{self, Thread};
use std::time::Duration;

use vlm::{
    Client, Condition, EnqFlags, Error, LockFuture, Mode, Options, ProcessId, Shared, Terms,
};

fn declared(shared: &Shared, label: &str) -> ProcessId {
    let client = Client {
        label,
        ..Client::default()
    };
    shared.declare(&client).expect("a process")
}

struct Unpark(Thread);

impl Wake for Unpark {
    fn wake(self: Arc<Self>) {
        self.0.unpark();
    }
}

fn waker() -> Waker {
    Arc::new(Unpark(thread::current())).into()
}

fn block_on<T>(future: impl Future<Output = T>) -> T {
    let (waker, mut future) = (waker(), pin!(future));
    loop {
        match future.as_mut().poll(&mut Context::from_waker(&waker)) {
            Poll::Ready(value) => return value,
            Poll::Pending => thread::park_timeout(Duration::from_secs(30)),
        }
    }
}

fn asked(shared: &Shared, process: ProcessId) -> LockFuture {
    shared
        .lock_async(
            process,
            b"A",
            Mode::Ex,
            Terms::new().flags(EnqFlags::VALBLK),
        )
        .expect("a request")
}

fn locks(shared: &Shared) -> u64 {
    shared.counters().locks
}

#[test]
fn a_future_waits_for_its_guard() {
    let shared = Shared::new().expect("memory");
    let (p, q) = (declared(&shared, "P"), declared(&shared, "Q"));
    let keep = shared.lock(q, b"A", Mode::Nl).expect("a lock");
    let mut guard = block_on(asked(&shared, p)).expect("a lock");
    guard.write([7; 16]);
    let future = asked(&shared, q);
    let giver = thread::spawn(move || drop(guard));
    let second = block_on(future).expect("a lock");
    assert_eq!((second.process(), second.value()), (q, Some([7; 16])));
    giver.join().expect("a thread");
    drop((second, keep));
    assert_eq!(locks(&shared), 0);
}

#[test]
fn a_future_that_is_dropped_leaves_nothing_queued() {
    let shared = Shared::new().expect("memory");
    let (p, q) = (declared(&shared, "P"), declared(&shared, "Q"));
    let guard = shared.lock(p, b"A", Mode::Ex).expect("a lock");
    drop(asked(&shared, q));
    assert_eq!((locks(&shared), shared.counters().waiting), (1, 0));
    // One that is granted before the drop is given up.
    let future = asked(&shared, q);
    drop(guard);
    drop(future);
    assert_eq!(locks(&shared), 0);
}

#[test]
fn a_future_ends_as_its_request_does() {
    let shared = Shared::new().expect("memory");
    let (p, q) = (declared(&shared, "P"), declared(&shared, "Q"));
    let _guard = shared.lock(p, b"A", Mode::Ex).expect("a lock");
    let future = asked(&shared, q);
    assert_eq!(shared.cancel_all(q), Ok(1));
    assert_eq!(block_on(future).err(), Some(Error::Abort));
    let future = asked(&shared, q);
    assert_eq!(shared.rundown(q), Ok(()));
    assert_eq!(block_on(future).err(), Some(Error::Nonexpr));
    let gone = shared.lock_async(q, b"A", Mode::Ex, Terms::new());
    assert_eq!(gone.err(), Some(Error::Nonexpr));
}

#[test]
fn a_conversion_waits_for_its_mode() {
    let shared = Shared::new().expect("memory");
    let (p, q) = (declared(&shared, "P"), declared(&shared, "Q"));
    let reader = shared.lock(q, b"A", Mode::Pr).expect("a lock");
    let terms = Terms::new().flags(EnqFlags::VALBLK);
    let mut guard = shared.lock_with(p, b"A", Mode::Cr, terms).expect("a lock");
    let future = guard
        .convert_async(Mode::Ex, Terms::new())
        .expect("a request");
    let giver = thread::spawn(move || drop(reader));
    assert_eq!(block_on(future), Ok(()));
    giver.join().expect("a thread");
    assert_eq!(guard.mode(), Mode::Ex);
    // A conversion to a weaker mode writes the value, and one to a stronger mode returns it.
    guard.write([7; 16]);
    let down = guard
        .convert_async(Mode::Nl, Terms::new())
        .expect("a request");
    assert_eq!(block_on(down), Ok(()));
    let up = guard
        .convert_async(Mode::Pr, Terms::new())
        .expect("a request");
    assert_eq!(block_on(up), Ok(()));
    assert_eq!((guard.mode(), guard.value()), (Mode::Pr, Some([7; 16])));
}

#[test]
fn a_conversion_that_is_dropped_leaves_nothing_queued() {
    let shared = Shared::new().expect("memory");
    let (p, q) = (declared(&shared, "P"), declared(&shared, "Q"));
    let reader = shared.lock(q, b"A", Mode::Pr).expect("a lock");
    let mut guard = shared.lock(p, b"A", Mode::Cr).expect("a lock");
    drop(guard.convert_async(Mode::Ex, Terms::new()));
    assert_eq!((shared.counters().waiting, guard.mode()), (0, Mode::Cr));
    // One that is granted before the drop stays granted.
    let future = guard.convert_async(Mode::Ex, Terms::new());
    drop(reader);
    drop(future);
    assert_eq!(guard.mode(), Mode::Ex);
    // One that ends otherwise leaves the mode that was held.
    guard.convert(Mode::Cr).expect("a weaker mode");
    let other = shared.lock(q, b"A", Mode::Pr).expect("a lock");
    let future = guard
        .convert_async(Mode::Ex, Terms::new())
        .expect("a request");
    assert_eq!(shared.cancel_all(p), Ok(1));
    assert_eq!(block_on(future), Err(Error::Cancel));
    drop(other);
    let refused = guard.convert_async(Mode::Ex, Terms::new().flags(EnqFlags::QUECVT));
    assert!(refused.is_ok());
    drop(refused);
    assert_eq!(shared.rundown(p), Ok(()));
    let gone = guard.convert_async(Mode::Nl, Terms::new());
    assert_eq!(gone.err(), Some(Error::Nonexpr));
}

#[test]
fn the_watchdog_ends_a_deadlock_and_tells_of_it() {
    let told = Arc::new(Mutex::new(Vec::new()));
    let note = Arc::clone(&told);
    let shared = Options::new()
        .search_every(Duration::from_millis(5))
        .victims_after(Duration::from_millis(20))
        .on_deadlock(move |deadlock| {
            assert_eq!((deadlock.length(), deadlock.waits().count()), (2, 2));
            let first = deadlock.waits().next().expect("a wait");
            assert_eq!(
                (first.lock().id, first.lock().process),
                (deadlock.victim(), deadlock.process())
            );
            assert_eq!(first.blocker().map(|it| it.held), Some(Some(Mode::Ex)));
            note.lock().expect("a list").push(deadlock.to_string());
        })
        .open()
        .expect("memory");
    let (p, q) = (declared(&shared, "Paul"), declared(&shared, "Rosa"));
    let a = shared.lock(p, b"A", Mode::Ex).expect("a lock");
    let b = shared.lock(q, b"B", Mode::Ex).expect("a lock");
    let ends = thread::scope(|scope| {
        let first = scope.spawn(|| (shared.lock(p, b"B", Mode::Ex).map(drop), drop(a)).0);
        let second = scope.spawn(|| (shared.lock(q, b"A", Mode::Ex).map(drop), drop(b)).0);
        [first, second].map(|asked| asked.join().expect("a thread"))
    });
    assert_eq!(
        ends.iter()
            .filter(|end| **end == Err(Error::Deadlock))
            .count(),
        1
    );
    let told = told.lock().expect("a list");
    assert_eq!(told.len(), 1);
    assert!(
        told[0].starts_with("A circle: ") && told[0].contains("Paul waits for Rosa on B"),
        "{told:?}"
    );
}

#[test]
fn a_panic_of_a_hook_goes_on_from_the_search() {
    let shared = Options::new()
        .on_deadlock(|_| std::panic::resume_unwind(Box::new(())))
        .open()
        .expect("memory");
    let p = declared(&shared, "P");
    let _guard = shared.lock(p, b"A", Mode::Ex).expect("a lock");
    let future = asked(&shared, p);
    let searching = shared.clone();
    thread::spawn(move || searching.search())
        .join()
        .expect_err("a panic");
    assert_eq!(block_on(future).err(), Some(Error::Deadlock));
    assert_eq!(shared.search(), Ok(0));
}

#[test]
fn long_waits_are_told() {
    let (tell, told) = channel();
    let shared = Options::new()
        .on_long_wait(Duration::from_millis(10), move |wait| {
            let told = (wait.name().to_vec(), wait.labels(), wait.waited());
            tell.send((told, wait.lock().id, wait.to_string()))
                .expect("a listener");
        })
        .open()
        .expect("memory");
    let (p, q) = (declared(&shared, "P"), declared(&shared, "Q"));
    let guard = shared.lock(p, b"A", Mode::Ex).expect("a lock");
    let future = asked(&shared, q);
    let ((name, labels, waited), lock, text) = told.recv().expect("a wait");
    assert_eq!(
        (name, labels),
        (b"A".to_vec(), ["Q".to_owned(), "P".to_owned()])
    );
    assert!(
        waited >= Duration::from_millis(10) && text.starts_with("Q waits for P on A"),
        "{text}"
    );
    assert_eq!(Some(lock), future.lock());
    drop(guard);
    assert!(block_on(future).is_ok());
}

#[test]
fn a_process_has_a_queue_of_its_own() {
    let shared = Shared::new().expect("memory");
    let own = Client {
        own_queue: true,
        ..Client::default()
    };
    let (p, q) = (
        shared.declare(&own).expect("a process"),
        declared(&shared, ""),
    );
    let (tell, told) = channel();
    let terms = Terms::new().blocking(move |event| tell.send(event.wanted).expect("a listener"));
    let guard = shared.lock_with(p, b"A", Mode::Ex, terms).expect("a lock");
    let future = shared
        .lock_async(q, b"A", Mode::Pr, Terms::new())
        .expect("a request");
    assert!(told.try_recv().is_err() && shared.descriptor_of(p).is_ok());
    assert_eq!(
        (shared.deliver_of(p), told.try_recv()),
        (Ok(1), Ok(Some(Mode::Pr)))
    );
    assert_eq!(
        (shared.deliver_of(q), shared.descriptor_of(q)),
        (Err(Error::Badparam), Err(Error::Badparam))
    );
    assert_eq!(
        (shared.deliver(), shared.descriptor()),
        (Err(Error::Badparam), Err(Error::Badparam))
    );
    drop(guard);
    assert!(block_on(future).is_ok());
}

#[test]
fn conversions_start_and_end() {
    let shared = Shared::new().expect("memory");
    let p = declared(&shared, "");
    let lock = shared.lock(p, b"A", Mode::Nl).expect("a lock").keep();
    let (tell, told) = channel();
    let end = move |event: vlm::Event| tell.send(event.status).expect("a listener");
    shared
        .start_convert(p, lock, Mode::Ex, Terms::new(), end)
        .expect("a conversion");
    assert_eq!(told.recv(), Ok(Some(Condition::Normal)));
    assert_eq!(shared.settle(), Ok(()));
    let counters = shared.counters();
    assert_eq!(
        (counters.requests, counters.completions, counters.locks),
        (2, 1, 1)
    );
    assert!(shared.counters_text().contains("granted_at_once  2"));
    assert!(shared.prometheus_text().contains("vlm_requests_total 2"));
}

#[test]
fn a_routine_may_have_the_last_name_of_its_lock_manager() {
    let (tell, told) = channel();
    let shared = Shared::new().expect("memory");
    let p = declared(&shared, "");
    let clone = shared.clone();
    let (begin, begun) = channel();
    shared
        .start(p, b"A", Mode::Ex, Terms::new(), move |_| {
            begun.recv().expect("a start");
            drop(clone);
            tell.send(()).expect("a listener");
        })
        .expect("a lock");
    drop(shared);
    begin.send(()).expect("a routine");
    assert_eq!(told.recv(), Ok(()));
}

#[test]
fn a_stop_ends_waits() {
    let shared = Shared::new().expect("memory");
    let (p, q) = (declared(&shared, ""), declared(&shared, ""));
    let _guard = shared.lock(p, b"A", Mode::Ex).expect("a lock");
    let future = asked(&shared, q);
    shared.stop();
    assert_eq!(block_on(future).err(), Some(Error::Departed));
    assert_eq!(shared.lock(p, b"B", Mode::Ex).err(), Some(Error::Departed));
}

#[test]
fn a_departure_ends_futures() {
    let shared = Shared::new().expect("memory");
    let (p, q) = (declared(&shared, ""), declared(&shared, ""));
    let other = Client {
        node: 2,
        ..Client::default()
    };
    let r = shared.declare(&other).expect("a process");
    let _reader = shared.lock(p, b"A", Mode::Cr).expect("a lock");
    let mut guard = shared.lock(r, b"A", Mode::Cr).expect("a lock");
    let future = asked(&shared, r);
    let conversion = guard
        .convert_async(Mode::Ex, Terms::new())
        .expect("a request");
    let waits = asked(&shared, q);
    assert_eq!(shared.leave(2), Ok(()));
    assert_eq!(block_on(future).err(), Some(Error::Departed));
    assert_eq!(block_on(conversion), Err(Error::Departed));
    assert_eq!(shared.counters().waiting, 1);
    drop(waits);
}

#[test]
fn a_conversion_that_is_granted_and_dropped_is_noted() {
    let shared = Options::new().by_program().open().expect("memory");
    let (p, q) = (declared(&shared, "P"), declared(&shared, "Q"));
    let terms = || Terms::new().flags(EnqFlags::VALBLK);
    let mut keep = shared
        .lock_with(q, b"A", Mode::Nl, terms())
        .expect("a lock");
    let (tell, told) = channel();
    let routine = |name| {
        let tell = tell.clone();
        Terms::new().blocking(move |_| tell.send(name).expect("a listener"))
    };
    let mut guard = shared
        .lock_with(p, b"A", Mode::Ex, routine("old"))
        .expect("a lock");
    guard.write([1; 16]);
    // (nothing is delivered, so the grant is not told)
    drop(guard.convert_async(Mode::Pr, routine("new")));
    assert_eq!(guard.mode(), Mode::Pr);
    guard.convert(Mode::Nl).expect("a weaker mode");
    let mut other = shared.lock(q, b"A", Mode::Ex).expect("a lock");
    other.write([2; 16]);
    drop(other);
    // The value was written once, and the new routine stays.
    guard.convert(Mode::Ex).expect("a stronger mode");
    let waits = asked(&shared, q);
    while shared.deliver() != Ok(0) {}
    assert_eq!(told.try_iter().collect::<Vec<_>>(), ["new"]);
    drop((waits, guard));
    keep.convert(Mode::Pr).expect("a stronger mode");
    assert_eq!(keep.value(), Some([2; 16]));
}

#[test]
fn a_conversion_that_writes_nothing_keeps_the_value() {
    let shared = Options::new().by_program().open().expect("memory");
    let p = declared(&shared, "P");
    let terms = Terms::new().flags(EnqFlags::VALBLK);
    let mut keep = shared.lock_with(p, b"A", Mode::Nl, terms).expect("a lock");
    let mut guard = shared.lock(p, b"A", Mode::Pw).expect("a lock");
    guard.write([1; 16]);
    drop(guard.convert_async(Mode::Ex, Terms::new()));
    assert_eq!(guard.mode(), Mode::Ex);
    drop(guard);
    keep.convert(Mode::Pr).expect("a stronger mode");
    assert_eq!(keep.value(), Some([1; 16]));
}

#[test]
fn the_longest_age_of_victims_has_no_end() {
    let days = |count: u64| Duration::from_secs(count * 86_400);
    for (age, victims) in [(Duration::ZERO, 1), (days(49), 0), (days(50), 0)] {
        let shared = Options::new().victims_after(age).open().expect("memory");
        let p = declared(&shared, "P");
        let _guard = shared.lock(p, b"A", Mode::Ex).expect("a lock");
        let _future = asked(&shared, p);
        assert_eq!(shared.search(), Ok(victims), "{age:?}");
    }
}

thread_local! {
    static OF_THREAD: Shared = Shared::new().expect("memory");
}

#[test]
fn a_lock_manager_goes_with_its_thread() {
    let looking = || OF_THREAD.with(|shared| shared.look(|manager| manager.lock_count()));
    assert_eq!(thread::spawn(looking).join().ok(), Some(0));
}
