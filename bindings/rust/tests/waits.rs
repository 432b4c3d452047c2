//! Waits for grants, among threads.

mod two;

use std::sync::atomic::{AtomicU64, Ordering::Relaxed};
use std::thread;
use std::time::Duration;

use vlm::{Client, Error, LockId, Mode, Options, ProcessId, Queue, Shared};

const RACES: u32 = 400;
const LONGEST: Duration = Duration::from_secs(30);

fn two() -> (Shared, ProcessId, ProcessId) {
    two::opened(Options::new())
}

/// Waits until a request is in the queue of the first resource, and returns its lock.
fn queued(shared: &Shared, queue: Queue) -> LockId {
    loop {
        let first = shared.look(|manager| {
            let resource = manager.resources().next()?;
            manager.rows(&resource, queue).next()
        });
        if let Some(lock) = first {
            return lock.id;
        }
        thread::yield_now();
    }
}

/// How a request for A by Q ends that waits while this is done.
fn ends_by(shared: &Shared, q: ProcessId, act: impl FnOnce(LockId)) -> Result<(), Error> {
    thread::scope(|scope| {
        let asked = scope.spawn(|| shared.lock(q, b"A", Mode::Ex).map(drop));
        act(queued(shared, Queue::Waiting));
        asked.join().expect("a thread")
    })
}

#[test]
fn a_wait_ends_with_the_grant() {
    let (shared, p, q) = two();
    let held = shared.lock(p, b"A", Mode::Ex).expect("a lock");
    assert_eq!(ends_by(&shared, q, |_| drop(held)), Ok(()));
}

#[test]
fn a_wait_ends_with_its_request() {
    let (shared, p, q) = two();
    let _held = shared.lock(p, b"A", Mode::Ex).expect("a lock");
    let aborted = Err(Error::Abort);
    assert_eq!(
        ends_by(&shared, q, |lock| shared.deq(q, lock).expect("the lock")),
        aborted
    );
    assert_eq!(
        ends_by(&shared, q, |lock| shared.cancel(q, lock).expect("the lock")),
        aborted
    );
}

#[test]
fn a_wait_ends_with_its_process() {
    let (shared, p, q) = two();
    let _held = shared.lock(p, b"A", Mode::Ex).expect("a lock");
    let rundown = |_| shared.rundown(q).expect("the process");
    assert_eq!(ends_by(&shared, q, rundown), Err(Error::Nonexpr));
    let declaration = Client {
        node: 2,
        quota: 9,
        requests: 1,
        ..Client::default()
    };
    let other = shared.declare(&declaration).expect("a process");
    let leave = |_| shared.leave(2).expect("the node");
    assert_eq!(ends_by(&shared, other, leave), Err(Error::Departed));
}

#[test]
fn a_conversion_that_waits_too_long_leaves_the_lock_as_it_was() {
    let (shared, p, q) = two();
    let _held = shared.lock(p, b"A", Mode::Pr).expect("a lock");
    let mut guard = shared.lock(q, b"A", Mode::Pr).expect("a lock");
    let longest = Duration::from_millis(2);
    assert_eq!(
        guard.convert_timeout(Mode::Ex, longest),
        Err(Error::Timeout)
    );
    assert_eq!(guard.mode(), Mode::Pr);
    let lock = guard.lock();
    let ended = thread::scope(|scope| {
        let asked = scope.spawn(|| guard.convert(Mode::Ex));
        queued(&shared, Queue::Conversion);
        shared.cancel(q, lock).expect("the conversion");
        asked.join().expect("a thread")
    });
    assert_eq!(ended, Err(Error::Cancel));
    assert_eq!(guard.convert(Mode::Cr), Ok(()));
}

#[test]
fn times_that_do_not_end_are_none() {
    let (shared, p, q) = two();
    let held = shared.lock(p, b"A", Mode::Ex).expect("a lock");
    let refused = shared.lock_timeout(q, b"A", Mode::Ex, Duration::ZERO);
    assert_eq!(refused.map(drop), Err(Error::Timeout));
    thread::scope(|scope| {
        let asked = scope.spawn(|| {
            shared
                .lock_timeout(q, b"A", Mode::Ex, Duration::MAX)
                .map(drop)
        });
        queued(&shared, Queue::Waiting);
        drop(held);
        assert_eq!(asked.join().expect("a thread"), Ok(()));
    });
}

#[test]
fn a_search_ends_a_wait() {
    let (shared, p, q) = two();
    let a = shared.lock(p, b"A", Mode::Ex).expect("a lock");
    let b = shared.lock(q, b"B", Mode::Ex).expect("a lock");
    let ends = thread::scope(|scope| {
        // Each gives its first lock up when its second request has ended.
        let first = scope.spawn(|| (shared.lock(p, b"B", Mode::Ex).map(drop), drop(a)).0);
        let second = scope.spawn(|| (shared.lock(q, b"A", Mode::Ex).map(drop), drop(b)).0);
        while shared.search() == Ok(0) {
            thread::yield_now();
        }
        [first, second].map(|asked| asked.join().expect("a thread"))
    });
    let victims = ends.iter().filter(|end| **end == Err(Error::Deadlock));
    assert_eq!(victims.count(), 1);
    assert_eq!(ends.iter().filter(|end| end.is_ok()).count(), 1);
}

#[test]
fn a_time_out_races_with_a_grant() {
    let (shared, p, q) = two();
    let (mut granted, mut timed_out) = (0, 0);
    for race in 0..RACES {
        let held = shared.lock(p, b"A", Mode::Ex).expect("a lock");
        let longest = Duration::from_millis(1);
        let ended = thread::scope(|scope| {
            let asked = scope.spawn(|| shared.lock_timeout(q, b"A", Mode::Ex, longest).map(drop));
            thread::sleep(Duration::from_micros(u64::from(race % 24) * 100));
            drop(held);
            asked.join().expect("a thread")
        });
        match ended {
            Ok(()) => granted += 1,
            Err(Error::Timeout) => timed_out += 1,
            Err(other) => panic!("{other}"),
        }
        assert_eq!(shared.look(|manager| manager.resource_count()), 0);
    }
    assert_eq!(granted + timed_out, RACES);
    assert!(
        granted > 0 && timed_out > 0,
        "{granted} granted, {timed_out} timed out"
    );
}

#[test]
fn threads_count_under_a_lock() {
    let (shared, p, _) = two();
    let counted = AtomicU64::new(0);
    thread::scope(|scope| {
        for _ in 0..4 {
            scope.spawn(|| {
                for _ in 0..500 {
                    let _held = shared
                        .lock_timeout(p, b"counter", Mode::Ex, LONGEST)
                        .expect("a lock");
                    // (no read-modify-write: only the lock keeps the count right)
                    let before = counted.load(Relaxed);
                    thread::yield_now();
                    counted.store(before + 1, Relaxed);
                }
            });
        }
    });
    assert_eq!(counted.into_inner(), 2_000);
}
