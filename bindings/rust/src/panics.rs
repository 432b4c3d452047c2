//! Panics of closures that the C library calls or drops. A panic does not leave its closure: it is kept for the call of
//! this crate that is under way in the thread.

use std::any::Any;
use std::cell::RefCell;
use std::panic::{catch_unwind, resume_unwind, AssertUnwindSafe};
use std::thread;

type Panic = Box<dyn Any + Send>;

thread_local! {
    /// The first panic of the call that is under way.
    static PANIC: RefCell<Option<Panic>> = const { RefCell::new(None) };
}

/// Runs what the program gave, and keeps its panic.
pub fn guarded(run: impl FnOnce()) {
    if let Err(panic) = catch_unwind(AssertUnwindSafe(run)) {
        // (at the end of a thread its variables may be gone)
        let _ = PANIC.try_with(|kept| {
            kept.borrow_mut().get_or_insert(panic);
        });
    }
}

/// Makes a call. Returns its answer, and the first panic of what it ran. A call around it keeps its own.
pub fn kept<T>(call: impl FnOnce() -> T) -> (T, Option<Panic>) {
    let replaced = |panic| PANIC.try_with(|kept| kept.replace(panic)).ok().flatten();
    let before = replaced(None);
    let answer = call();
    (answer, replaced(before))
}

/// Makes a call. A panic of what it ran goes on from here, except in a thread that panics: a second one would abort.
pub fn going_on<T>(call: impl FnOnce() -> T) -> T {
    match kept(call) {
        (_, Some(panic)) if !thread::panicking() => resume_unwind(panic),
        (answer, _) => answer,
    }
}
