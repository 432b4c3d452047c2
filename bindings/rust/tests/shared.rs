//! Each call of `Shared` and `Guard` once, with what it refuses.

mod two;

use std::time::Duration;

use vlm::{Client, EnqFlags, Error, Guard, LockId, Mode, Options, ProcessId, Shared, Terms};

const NOBODY: ProcessId = ProcessId(12345);

fn two() -> (Shared, ProcessId, ProcessId) {
    two::opened(Options::new().keys([7; 16]))
}

fn with_value() -> Terms {
    Terms::new().flags(EnqFlags::VALBLK)
}

/// Two locks on A with the value block.
fn reader_and_writer(shared: &Shared, p: ProcessId, q: ProcessId) -> (Guard, Guard) {
    let lock = |process, mode| {
        shared
            .lock_with(process, b"A", mode, with_value())
            .expect("a lock")
    };
    (lock(p, Mode::Nl), lock(q, Mode::Ex))
}

fn resources(shared: &Shared) -> usize {
    shared.look(|manager| manager.resource_count())
}

#[test]
fn shared_and_guards_go_between_threads() {
    fn goes<T: Send + Sync>() {}
    goes::<Shared>();
    goes::<Guard>();
}

#[test]
fn a_guard_gives_its_lock_up() {
    let (shared, p, _) = two();
    let guard = shared.lock(p, b"A", Mode::Ex).expect("a lock");
    assert_eq!(
        (guard.process(), guard.lock(), guard.mode()),
        (p, LockId(1), Mode::Ex)
    );
    assert!(format!("{guard:?}").contains("Ex"));
    assert_eq!(resources(&shared), 1);
    drop(guard);
    assert_eq!(resources(&shared), 0);
    let kept = shared.lock(p, b"A", Mode::Ex).expect("a lock").keep();
    assert_eq!(resources(&shared), 1);
    assert_eq!(shared.deq(p, kept), Ok(()));
    assert_eq!(shared.deq(p, kept), Err(Error::Ivlockid));
}

#[test]
fn requests_are_refused() {
    let (shared, p, q) = two();
    let _held = shared.lock(p, b"A", Mode::Ex).expect("a lock");
    let noqueue = || Terms::new().flags(EnqFlags::NOQUEUE).blocking(|_| ());
    let refused =
        |process, name: &[u8], terms| shared.lock_with(process, name, Mode::Ex, terms).err();
    assert_eq!(refused(q, b"A", noqueue()), Some(Error::Notqueued));
    assert_eq!(refused(q, b"", noqueue()), Some(Error::Ivbuflen));
    assert_eq!(
        refused(q, b"B", noqueue().below_lock(LockId(9))),
        Some(Error::Ivlockid)
    );
    assert_eq!(refused(NOBODY, b"A", noqueue()), Some(Error::Nonexpr));
    assert_eq!(
        shared.start(NOBODY, b"A", Mode::Ex, noqueue(), |_| ()),
        Err(Error::Nonexpr)
    );
    assert_eq!(
        shared.start(q, b"A", Mode::Ex, noqueue(), |_| ()),
        Err(Error::Notqueued)
    );
    assert_eq!(shared.cancel(q, LockId(2)), Err(Error::Ivlockid));
    assert_eq!(shared.cancel(p, LockId(1)), Err(Error::Cancelgrant));
}

#[test]
fn a_process_has_as_many_requests_as_it_declared() {
    let shared = Shared::new().expect("memory");
    let process = shared
        .declare(&Client {
            requests: 1,
            ..two::declaration(1)
        })
        .expect("a process");
    for _ in 0..9 {
        drop(shared.lock(process, b"A", Mode::Ex).expect("a lock"));
        shared.lock(process, b"", Mode::Ex).expect_err("no name");
    }
    let _held = shared.lock(process, b"A", Mode::Ex).expect("a lock");
    let waits = shared
        .start(process, b"A", Mode::Ex, Terms::new(), |_| ())
        .expect("a lock");
    assert_eq!(
        shared.lock(process, b"B", Mode::Ex).err(),
        Some(Error::Exenqlm)
    );
    assert_eq!(shared.cancel(process, waits), Ok(()));
    drop(shared.lock(process, b"B", Mode::Ex).expect("a lock"));
    let none = Client {
        requests: 0,
        ..two::declaration(1)
    };
    let long = Client {
        label: "a label of two and thirty bytes.",
        ..two::declaration(1)
    };
    assert_eq!(shared.declare(&none), Err(Error::Badparam));
    assert_eq!(shared.declare(&long), Err(Error::Badparam));
}

#[test]
fn the_value_block_goes_from_lock_to_lock() {
    let (shared, p, q) = two();
    let (mut reader, mut writer) = reader_and_writer(&shared, p, q);
    assert_eq!(
        (
            writer.value(),
            writer.tail(),
            writer.is_valid(),
            writer.is_tail_valid()
        ),
        (Some([0; 16]), None, true, false)
    );
    writer.write_wide([1; 16], [2; 48]);
    assert_eq!(writer.convert(Mode::Cr), Ok(()));
    let wide = || Terms::new().flags(EnqFlags::WIDE);
    assert_eq!(reader.convert_with(Mode::Pr, wide()), Ok(()));
    assert_eq!(
        (reader.value(), reader.tail(), reader.is_tail_valid()),
        (Some([1; 16]), Some([2; 48]), true)
    );
    assert_eq!(reader.convert(Mode::Nl), Ok(()));
    assert_eq!(writer.convert_timeout(Mode::Pw, Duration::ZERO), Ok(()));
    writer.write([3; 16]);
    assert_eq!(writer.release(), Ok(()));
    assert_eq!(writer.release(), Ok(()));
    assert_eq!(reader.convert_with(Mode::Pr, wide()), Ok(()));
    assert_eq!(
        (reader.value(), reader.is_valid(), reader.is_tail_valid()),
        (Some([3; 16]), true, false)
    );
}

#[test]
fn an_ended_writer_leaves_an_invalid_value() {
    let (shared, p, q) = two();
    let (mut reader, mut writer) = reader_and_writer(&shared, p, q);
    assert_eq!(shared.rundown(q), Ok(()));
    assert_eq!(shared.rundown(q), Err(Error::Nonexpr));
    assert_eq!(writer.release(), Err(Error::Nonexpr));
    assert_eq!(writer.convert(Mode::Nl), Err(Error::Nonexpr));
    assert_eq!(reader.convert(Mode::Pr), Ok(()));
    assert!(!reader.is_valid());
}

#[test]
fn a_guard_of_a_lock_with_sublocks_is_refused() {
    let (shared, p, _) = two();
    let mut parent = shared.lock(p, b"A", Mode::Nl).expect("a lock");
    let below = Terms::new().below(&parent);
    let mut child = shared.lock_with(p, b"B", Mode::Ex, below).expect("a lock");
    assert_eq!(parent.release(), Err(Error::Sublocks));
    assert_eq!(child.release(), Ok(()));
    assert_eq!(parent.release(), Ok(()));
    assert_eq!(resources(&shared), 0);
}

/// A sublock whose parent's guard is gone.
fn orphan(shared: &Shared, process: ProcessId) -> Guard {
    let parent = shared.lock(process, b"A", Mode::Nl).expect("a lock");
    let below = Terms::new().below(&parent);
    shared
        .lock_with(process, b"B", Mode::Ex, below)
        .expect("a lock")
}

#[test]
fn a_child_guard_keeps_its_parent() {
    let (shared, p, _) = two();
    let child = orphan(&shared, p);
    assert_eq!(resources(&shared), 2);
    drop(child);
    assert_eq!(resources(&shared), 0);
    let parent = shared.lock(p, b"A", Mode::Nl).expect("a lock");
    let below = Terms::new().below_lock(parent.lock());
    let child = shared.lock_with(p, b"B", Mode::Ex, below).expect("a lock");
    drop(vec![child, parent]);
    assert_eq!(resources(&shared), 0);
}

#[test]
fn a_kept_sublock_keeps_its_parent() {
    let (shared, p, _) = two();
    let child = orphan(&shared, p);
    let kept = child.keep();
    let parent = shared.look(|manager| manager.lock(kept)?.parent);
    assert_eq!(shared.deq(p, kept), Ok(()));
    assert_eq!(shared.deq(p, parent.expect("its parent")), Ok(()));
    assert_eq!(resources(&shared), 0);
}

#[test]
fn a_parent_is_of_the_same_lock_manager() {
    let (shared, p, _) = two();
    let (other, q, _) = two();
    let here = shared.lock(p, b"A", Mode::Nl).expect("a lock");
    let there = other.lock(q, b"A", Mode::Nl).expect("a lock");
    let below = || Terms::new().below(&there);
    let refused = [
        shared.lock_with(p, b"B", Mode::Nl, below()).err(),
        shared.lock_async(p, b"B", Mode::Nl, below()).err(),
        shared.start(p, b"B", Mode::Nl, below(), |_| ()).err(),
    ];
    assert_eq!(refused, [Some(Error::Badparam); 3]);
    let below = Terms::new().below(&here);
    let clone = shared.clone();
    assert!(clone.lock_with(p, b"B", Mode::Nl, below).is_ok());
}

#[test]
fn a_guard_that_is_dropped_in_a_panic_writes_nothing() {
    let (shared, p, q) = two();
    let mut reader = shared
        .lock_with(p, b"A", Mode::Nl, with_value())
        .expect("a lock");
    let clone = shared.clone();
    let thread = std::thread::spawn(move || {
        let mut writer = clone.lock(q, b"A", Mode::Ex).expect("a lock");
        writer.write([1; 16]);
        std::panic::resume_unwind(Box::new(()));
    });
    thread.join().expect_err("a panic");
    assert_eq!(reader.convert(Mode::Pr), Ok(()));
    assert_eq!((reader.value(), reader.is_valid()), (Some([0; 16]), true));
}

#[test]
fn errors_have_texts() {
    assert_eq!(Error::Timeout.to_string(), "TIMEOUT");
    assert_eq!(Error::Abort.to_string(), "SS$_ABORT");
}
