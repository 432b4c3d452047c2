//! Closures that are told of ends and warnings.

mod two;

use std::panic::{catch_unwind, AssertUnwindSafe};
use std::sync::atomic::{AtomicUsize, Ordering::SeqCst};
use std::sync::mpsc::channel;
use std::sync::{Arc, Mutex};

use vlm::{
    AstKind, Condition, DeqFlags, Dequeue, EnqFlags, Error, LockId, LockManager, Mode, Options,
    ProcessId, Shared, Terms,
};

fn two() -> (Shared, ProcessId, ProcessId) {
    two::opened(Options::new().by_program())
}

fn await_event(shared: &Shared) {
    while shared.counters().events == 0 {
        std::thread::yield_now();
    }
}

/// Delivers all that is pending, and returns how many routines of ends and warnings were called.
fn called(shared: &Shared) -> u64 {
    let count = |counters: vlm::Counters| counters.completions + counters.blockings;
    let before = count(shared.counters());
    while shared.deliver() != Ok(0) {}
    count(shared.counters()) - before
}

fn resources(shared: &Shared) -> usize {
    shared.look(LockManager::resource_count)
}

#[test]
fn a_blocking_routine_gives_way() {
    let (shared, p, q) = two();
    let told = Arc::new(AtomicUsize::new(0));
    let (count, clone) = (Arc::clone(&told), shared.clone());
    let terms = Terms::new().blocking(move |event| {
        assert_eq!(
            (event.kind, event.process, event.status),
            (AstKind::Blocking, p, None)
        );
        count.fetch_add(1, SeqCst);
        // (a delivery in a routine runs nothing)
        assert_eq!(clone.deliver(), Ok(0));
        clone.deq(p, event.lock).expect("the lock");
    });
    shared
        .lock_with(p, b"A", Mode::Ex, terms)
        .expect("a lock")
        .keep();
    let clone = shared.clone();
    let thread = std::thread::spawn(move || clone.lock(q, b"A", Mode::Ex).map(drop));
    await_event(&shared);
    assert_eq!(called(&shared), 1);
    assert_eq!(thread.join().expect("a thread"), Ok(()));
    assert_eq!(told.load(SeqCst), 1);
    assert_eq!(Arc::strong_count(&told), 1);
}

#[test]
fn a_completion_comes_before_the_warning_of_its_grant() {
    let (shared, p, q) = two();
    let (note, noted) = channel();
    let ended = note.clone();
    let held = shared.lock(p, b"A", Mode::Ex).expect("a lock");
    let terms = Terms::new()
        .flags(EnqFlags::VALBLK)
        .blocking(move |event| note.send((event.kind, event.status)).expect("a listener"));
    let completion = move |event: vlm::Event| {
        assert_eq!((event.value, event.tail), (Some([0; 16]), None));
        ended.send((event.kind, event.status)).expect("a listener");
    };
    let first = shared
        .start(q, b"A", Mode::Ex, terms, completion)
        .expect("a lock");
    let second = shared
        .start(p, b"A", Mode::Ex, Terms::new(), |_| ())
        .expect("a lock");
    assert_eq!(called(&shared), 0);
    drop(held);
    assert_eq!(called(&shared), 2);
    let granted = (AstKind::Completion, Some(Condition::Normal));
    assert_eq!(
        noted.try_iter().collect::<Vec<_>>(),
        [granted, (AstKind::Blocking, None)]
    );
    assert_eq!(
        (shared.deq(q, first), shared.deq(p, second)),
        (Ok(()), Ok(()))
    );
    assert_eq!(called(&shared), 1);
    assert_eq!(noted.recv().ok(), None, "both routines are gone");
}

#[test]
fn warnings_of_grants_that_are_over_are_dropped() {
    let (shared, p, q) = two();
    let told = Arc::new(AtomicUsize::new(0));
    let count = Arc::clone(&told);
    let terms = Terms::new().blocking(move |_| {
        count.fetch_add(1, SeqCst);
    });
    let mut guard = shared.lock_with(p, b"A", Mode::Ex, terms).expect("a lock");
    shared
        .start(q, b"A", Mode::Pr, Terms::new(), |_| ())
        .expect("a lock");
    await_event(&shared);
    assert_eq!(guard.convert(Mode::Nl), Ok(()));
    assert_eq!(
        (called(&shared), told.load(SeqCst)),
        (1, 0),
        "the completion alone"
    );
    // The routine is armed again by the next grant.
    assert_eq!(guard.convert(Mode::Pr), Ok(()));
    let waits = shared
        .start(q, b"A", Mode::Ex, Terms::new(), |_| ())
        .expect("a lock");
    assert_eq!((called(&shared), told.load(SeqCst)), (1, 1));
    assert_eq!(shared.cancel(q, waits), Ok(()));
    drop(guard);
    assert_eq!(called(&shared), 1);
    assert_eq!(
        Arc::strong_count(&told),
        1,
        "the routine goes with its lock"
    );
}

#[test]
fn all_locks_of_a_process_go_with_their_routines() {
    let (shared, p, _) = two();
    let alive = Arc::new(());
    let keep = |parent: Option<LockId>, name: &[u8]| {
        let held = Arc::clone(&alive);
        let terms = Terms::new().blocking(move |_| drop(Arc::clone(&held)));
        let terms = parent.into_iter().fold(terms, Terms::below_lock);
        shared
            .lock_with(p, name, Mode::Nl, terms)
            .expect("a lock")
            .keep()
    };
    let root = keep(None, b"A");
    let below = keep(Some(root), b"B");
    keep(Some(below), b"C");
    let deqall = |lock: Option<LockId>| Dequeue {
        flags: DeqFlags::DEQALL,
        ..Dequeue::new(p, lock.map(Into::into))
    };
    assert_eq!(shared.dequeue(&deqall(Some(below))), Ok(()));
    assert_eq!(called(&shared), 0);
    assert_eq!(Arc::strong_count(&alive), 3);
    assert_eq!(shared.dequeue(&deqall(None)), Ok(()));
    assert_eq!(called(&shared), 0);
    assert_eq!((Arc::strong_count(&alive), resources(&shared)), (1, 0));
    keep(None, b"A");
    assert_eq!(shared.leave(1), Ok(()));
    assert_eq!(shared.leave(1), Err(Error::Departed));
    assert_eq!(called(&shared), 0);
    assert_eq!(Arc::strong_count(&alive), 1);
    assert_eq!(shared.lock(p, b"A", Mode::Ex).err(), Some(Error::Departed));
}

#[test]
fn a_routine_that_is_dropped_may_call() {
    let (shared, p, q) = two();
    let guard = shared.lock(q, b"B", Mode::Ex).expect("a lock");
    let guard = Mutex::new(Some(guard));
    let terms = Terms::new().blocking(move |_| drop(guard.lock().map(|mut it| it.take())));
    // (the guard in the routine gives its lock up, as the routine goes)
    shared
        .lock_with(p, b"A", Mode::Ex, terms)
        .expect("a lock")
        .release()
        .expect("the lock");
    assert_eq!((called(&shared), resources(&shared)), (0, 0));
}

#[test]
fn a_panic_of_a_routine_goes_on_after_the_others() {
    let (shared, p, _) = two();
    let first = shared
        .start(p, b"A", Mode::Ex, Terms::new(), |_| {
            std::panic::resume_unwind(Box::new(()))
        })
        .expect("a lock");
    let (ended, ends) = channel();
    let second = shared
        .start(p, b"B", Mode::Ex, Terms::new(), move |_| {
            ended.send(()).expect("a listener")
        })
        .expect("a lock");
    let clone = shared.clone();
    std::thread::spawn(move || clone.deliver())
        .join()
        .expect_err("a panic");
    assert_eq!(ends.recv(), Ok(()), "the other routine runs");
    assert_eq!(
        (shared.deq(p, first), shared.deq(p, second)),
        (Ok(()), Ok(()))
    );
}

/// A value that panics as it is dropped.
struct Bomb;

impl Drop for Bomb {
    fn drop(&mut self) {
        std::panic::resume_unwind(Box::new("dropped"));
    }
}

fn with_bomb() -> impl FnMut(vlm::Event) + Send {
    let bomb = Bomb;
    move |_| {
        let _bomb = &bomb;
    }
}

fn panics<T>(call: impl FnOnce() -> T) -> bool {
    catch_unwind(AssertUnwindSafe(call)).is_err()
}

#[test]
fn a_panic_of_a_drop_goes_on_from_its_call() {
    let (shared, p, q) = two();
    let held = shared.lock(p, b"A", Mode::Ex).expect("a lock");
    let noqueue = || Terms::new().flags(EnqFlags::NOQUEUE);
    let start = |process, terms| shared.start(process, b"A", Mode::Ex, terms, with_bomb());
    assert!(panics(|| start(p, noqueue())));
    assert!(!panics(|| resources(&two().0)));
    let terms = noqueue().blocking(with_bomb());
    assert!(panics(|| shared.lock_with(p, b"A", Mode::Ex, terms)));
    // Both routines of a request go with its process.
    let waits = start(q, Terms::new().blocking(with_bomb()));
    assert!(waits.is_ok() && shared.rundown(q).is_ok());
    assert!(panics(|| shared.deliver()));
    assert!(!panics(|| shared.deliver()));
    // A completion routine goes with its call, and here with its lock manager.
    let waits = start(p, Terms::new());
    assert!(waits.is_ok());
    drop(held);
    assert!(panics(|| shared.deliver()));
    assert!(start(p, Terms::new()).is_ok());
    assert!(!panics(|| drop(shared)));
}

#[test]
fn a_panic_of_a_routine_leaves_the_calls_of_others_alone() {
    let (shared, p, _) = two();
    let panic = |_| std::panic::resume_unwind(Box::new(()));
    let first = shared.start(p, b"A", Mode::Ex, Terms::new(), panic);
    first.expect("a lock");
    let (clone, (ended, ends)) = (shared.clone(), channel());
    let look = move |_| {
        let count = clone.look(|manager| manager.lock_count());
        ended.send(count).expect("a listener");
    };
    let second = shared.start(p, b"B", Mode::Ex, Terms::new(), look);
    second.expect("a lock");
    assert!(panics(|| shared.deliver()));
    assert_eq!(ends.try_recv(), Ok(2));
}
