//! A handle that owns a lock manager. All that is unsafe stands here, for hubs in `hub/raw.rs`, and for threads in
//! `shared/raw.rs`.

use std::cell::UnsafeCell;
use std::ffi::CStr;

pub use vlm_sys::*;

use crate::condition::{answered, Error};

/// A handle that owns its lock manager. Steps take it by `&mut`. Readings take it by `&`, though C wants to write to it
/// for the length of a call: so it is no `Sync`, and one call at a time has it.
#[repr(transparent)]
pub struct Handle {
    // (neither a raw pointer nor an `UnsafeCell` is `Sync`, and the pointer is not `Send`: see below)
    raw: UnsafeCell<Vlm>,
}

// SAFETY: a handle is proved to be one that may go from thread to thread, and no two threads have it at once.
unsafe impl Send for Handle {}

impl Drop for Handle {
    fn drop(&mut self) {
        // SAFETY: the handle is as a call left it, and this is the only one that has it.
        unsafe { vlm_close(self.raw.get()) }
    }
}

/// Defines safe calls of a handle: each passes references to initialized values that don't overlap.
macro_rules! calls {
    (of $owner:ident;
     $(by $handle:ty { $($name:ident = $call:ident($($arg:ident: $kind:ty),*) -> $answer:ty;)* })*) => {
        impl $owner { $($(
            pub fn $name(self: $handle, $($arg: $kind),*) -> $answer {
                // SAFETY: the handle is as a call left it. It is no `Sync`, and no call runs code of this crate, so it
                // is in no other call. Each reference points to an initialized value of its type, and no two overlap.
                unsafe { $call(self.raw.get(), $($arg),*) }
            }
        )*)* }
    };
}
pub(crate) use calls;

calls! {
    of Handle;
    by &mut Handle {
        declare = vlm_declare(declaration: &Declaration, pid: &mut u32) -> u32;
        set_value = vlm_set_value(setting: &Setting) -> u32;
        convert = vlm_convert(request: &Request, lkid: &mut u32) -> u32;
        deq = vlm_deq(dequeue: &Dequeue) -> u32;
        take = vlm_take(pid: u32, ast: &mut Ast) -> u32;
        take_any = vlm_take_any(pid: &mut u32, ast: &mut Ast) -> u32;
        rundown = vlm_rundown(pid: u32) -> u32;
        leave = vlm_leave(node: u32) -> u32;
        search = vlm_search(node: u32, victim: &mut u32) -> u32;
    }
    by &Handle {
        find_victim = vlm_find_victim(victim: &mut u32) -> u32;
        block = vlm_block(pid: u32, block: u32, lksb: &mut Lksb) -> u32;
        pending = vlm_pending(pid: u32, count: &mut usize) -> u32;
        process_count = vlm_process_count() -> usize;
        resource_count = vlm_resource_count() -> usize;
        next_process = vlm_next_process(pid: u32, process: &mut Process) -> u32;
        next_resource = vlm_next_resource(resource: &mut Resource) -> u32;
        find = vlm_find(resource: &mut Resource) -> u32;
        lock_count = vlm_lock_count() -> usize;
        queued_count = vlm_queued_count() -> usize;
        find_lock = vlm_find_lock(lkid: u32, lock: &mut Lock) -> u32;
        lock_resource = vlm_lock_resource(lkid: u32, resource: &mut Resource) -> u32;
        first_row = vlm_first_row(resource: &Resource, queue: u32, lock: &mut Lock) -> u32;
        next_row = vlm_next_row(lkid: u32, lock: &mut Lock) -> u32;
        first_own = vlm_first_own(pid: u32, lock: &mut Lock) -> u32;
        next_own = vlm_next_own(lkid: u32, lock: &mut Lock) -> u32;
        first_sublock = vlm_first_sublock(lkid: u32, lock: &mut Lock) -> u32;
        next_sublock = vlm_next_sublock(lkid: u32, lock: &mut Lock) -> u32;
        first_blocker = vlm_first_blocker(lkid: u32, lock: &mut Lock) -> u32;
        next_blocker = vlm_next_blocker(lkid: u32, blocker: u32, lock: &mut Lock) -> u32;
        first_blocked = vlm_first_blocked(lkid: u32, lock: &mut Lock) -> u32;
        next_blocked = vlm_next_blocked(lkid: u32, blocked: u32, lock: &mut Lock) -> u32;
        print_block = vlm_print_block(pid: u32, line: &Line, text: &mut Text) -> u32;
        print_tail = vlm_print_tail(pid: u32, line: &Line, text: &mut Text) -> u32;
        print_resource = vlm_print_resource(resource: &Resource, text: &mut Text) -> u32;
        print_resource_tail = vlm_print_resource_tail(resource: &Resource, text: &mut Text) -> u32;
    }
}

impl Handle {
    /// A handle whose lock manager hashes names by these keys.
    pub fn open(keys: [u8; 16]) -> Result<Handle, Error> {
        let mut raw = Vlm::CLOSED;
        // SAFETY: a handle of zeros has no lock manager, and the references don't overlap.
        let status = unsafe { vlm_open(&mut raw, &Options::with_keys(keys)) };
        let handle = Handle {
            raw: UnsafeCell::new(raw),
        };
        answered(status).map(|_| handle)
    }

    pub fn enq(&mut self, request: &Request, name: &[u8], lkid: &mut u32) -> u32 {
        // SAFETY: as in the calls above; a slice's pointer is not null where it is empty, too.
        unsafe { vlm_enq(self.raw.get(), request, name.as_ptr(), name.len(), lkid) }
    }
}

/// Defines the calls that take no handle.
macro_rules! free_calls {
    ($($name:ident = $call:ident($($arg:ident: $kind:ty),*);)*) => { $(
        pub fn $name($($arg: $kind),*) -> u32 {
            // SAFETY: each reference points to an initialized value of its type, and no two overlap.
            unsafe { $call($($arg),*) }
        }
    )* };
}

free_calls! {
    print_answer = vlm_print_answer(line: &Line, status: u32, number: u32, text: &mut Text);
    print_ast = vlm_print_ast(line: &Line, status: u32, ast: &Ast, text: &mut Text);
    print_lock = vlm_print_lock(lock: &Lock, text: &mut Text);
}

pub fn read_line(bytes: &[u8], line: &mut Line) -> u32 {
    // SAFETY: as above; a slice's pointer is not null where it is empty, too.
    unsafe { vlm_read_line(bytes.as_ptr(), bytes.len(), line) }
}

/// The name of a condition value, if it has one.
pub fn condition_name(status: u32) -> Option<&'static str> {
    // SAFETY: every number may be asked for.
    let name = unsafe { vlm_condition_name(status) };
    if name.is_null() {
        return None;
    }
    // SAFETY: a name is a text of the library that lasts as long as the program.
    unsafe { CStr::from_ptr(name) }.to_str().ok()
}
