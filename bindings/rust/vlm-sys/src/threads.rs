//! The structs and calls of `vlm_threads.h`. An `Option` of a function is null where it is `None`.

use std::ffi::{c_char, c_int, c_void};
use std::mem::size_of;
use std::ptr::null_mut;

use crate::{structs, Lock, Vlm, VERSION};

/// A lock manager with its mutex, its processes and its threads.
#[repr(C)]
pub struct Layer {
    _hidden: [u8; 0],
}

/// How many bytes a label has.
pub const LABEL: usize = 32;
/// How many waits of a cycle a hook is told of.
pub const CYCLE: usize = 16;
/// How many entries the counters by condition and by time have.
pub const COUNTS: usize = 32;
/// The answer of a wait that has lasted as long as it may.
pub const TIMEOUT: u32 = 100;

pub type Routine = extern "C" fn(*mut c_void, *const Event);
pub type Released = extern "C" fn(*mut c_void, *mut c_void);
pub type DeadlockHook = extern "C" fn(*mut c_void, *const Deadlock);
pub type WaitHook = extern "C" fn(*mut c_void, *const Wait);
pub type Reader = extern "C" fn(*mut c_void, *mut Vlm);

const NO_LOCK: Lock = Lock::new();
const NO_WAIT: Wait = Wait::new();

structs! {
    Wait 236 {
        milliseconds: u32 = 0, waits: Lock = NO_LOCK, blocks: Lock = NO_LOCK, name_len: u32 = 0,
        name: [u8; 32] = [0; 32], waits_label: [u8; LABEL] = [0; LABEL], blocks_label: [u8; LABEL] = [0; LABEL],
    }
    Deadlock 3792 {
        victim: u32 = 0, pid: u32 = 0, length: u32 = 0, waits: [Wait; CYCLE] = [NO_WAIT; CYCLE],
    }
    Options 80 {
        version: u32 = VERSION, delivery: u32 = 0, search_milliseconds: u32 = 0, has_keys: u32 = 0,
        keys: [u8; 16] = [0; 16], victim_milliseconds: u32 = 0, long_milliseconds: u32 = 0, padding: u32 = 0,
        deadlock: Option<DeadlockHook> = None, deadlock_context: *mut c_void = null_mut(),
        long_wait: Option<WaitHook> = None, long_wait_context: *mut c_void = null_mut(),
    }
    Declaration 64 {
        node: u32 = 0, group: u32 = 0, syslck: u32 = 0, quota: u32 = 0, requests: u32 = 0, tied: u32 = 0,
        own_queue: u32 = 0, label: [u8; LABEL] = [0; LABEL],
    }
    Event 92 {
        kind: u32 = 0, pid: u32 = 0, lkid: u32 = 0, status: u32 = 0, value_len: u32 = 0, value: [u8; 64] = [0; 64],
        wanted: u32 = 0,
    }
    Request 80 {
        pid: u32 = 0, mode: u32 = 0, flags: u32 = 0, lock: u32 = 0, milliseconds: u32 = 0, value: *mut u8 = null_mut(),
        completion: Option<Routine> = None, completion_context: *mut c_void = null_mut(),
        blocking: Option<Routine> = None, blocking_context: *mut c_void = null_mut(), lkid: u32 = 0, status: u32 = 0,
        released: Option<Released> = None,
    }
    Dequeue 32 {
        pid: u32 = 0, flags: u32 = 0, lock: u32 = 0, value: *const u8 = null_mut(), wide: u32 = 0, padding: u32 = 0,
    }
    Counters 672 {
        reserved: u32 = 0, requests: u64 = 0, granted_at_once: u64 = 0, waited: u64 = 0,
        refused: [u64; COUNTS] = [0; COUNTS], granted_later: u64 = 0, timed_out: u64 = 0, cancelled: u64 = 0,
        victims: u64 = 0, run_down: u64 = 0, dequeues: u64 = 0, searches: u64 = 0, completions: u64 = 0,
        blockings: u64 = 0, dropped: u64 = 0, times: [u64; COUNTS] = [0; COUNTS], microseconds: u64 = 0,
        processes: u64 = 0, locks: u64 = 0, events: u64 = 0, waiting: u64 = 0, most_waiting: u64 = 0,
    }
}

/// A stream of the C library.
#[repr(C)]
pub struct File {
    _hidden: [u8; 0],
}

extern "C" {
    pub fn vlm_threads_open(options: *const Options, layer: *mut *mut Layer) -> u32;
    pub fn vlm_threads_stop(layer: *mut Layer) -> u32;
    pub fn vlm_threads_close(layer: *mut Layer) -> u32;
    pub fn vlm_threads_declare(
        layer: *mut Layer,
        declaration: *const Declaration,
        pid: *mut u32,
    ) -> u32;
    pub fn vlm_threads_rundown(layer: *mut Layer, pid: u32) -> u32;
    pub fn vlm_threads_leave(layer: *mut Layer, node: u32) -> u32;
    pub fn vlm_threads_label(layer: *mut Layer, pid: u32, label: *mut u8) -> u32;
    pub fn vlm_threads_enq(
        layer: *mut Layer,
        request: *mut Request,
        name: *const u8,
        name_len: usize,
    ) -> u32;
    pub fn vlm_threads_convert(layer: *mut Layer, request: *mut Request) -> u32;
    pub fn vlm_threads_start_enq(
        layer: *mut Layer,
        request: *mut Request,
        name: *const u8,
        name_len: usize,
    ) -> u32;
    pub fn vlm_threads_start_convert(layer: *mut Layer, request: *mut Request) -> u32;
    pub fn vlm_threads_lkid(layer: *mut Layer, request: *const Request, lkid: *mut u32) -> u32;
    pub fn vlm_threads_deq(layer: *mut Layer, dequeue: *const Dequeue) -> u32;
    pub fn vlm_threads_cancel(layer: *mut Layer, pid: u32, cancelled: *mut u32) -> u32;
    pub fn vlm_threads_fd(layer: *mut Layer, descriptor: *mut c_int) -> u32;
    pub fn vlm_threads_dispatch(layer: *mut Layer, delivered: *mut u32) -> u32;
    pub fn vlm_threads_process_fd(layer: *mut Layer, pid: u32, descriptor: *mut c_int) -> u32;
    pub fn vlm_threads_process_dispatch(layer: *mut Layer, pid: u32, delivered: *mut u32) -> u32;
    pub fn vlm_threads_settle(layer: *mut Layer) -> u32;
    pub fn vlm_threads_search(layer: *mut Layer, victims: *mut u32) -> u32;
    pub fn vlm_threads_look(layer: *mut Layer, reader: Reader, context: *mut c_void) -> u32;
    pub fn vlm_threads_read_counters(layer: *mut Layer, counters: *mut Counters) -> u32;
    pub fn vlm_threads_print(counters: *const Counters, file: *mut File) -> u32;
    pub fn vlm_threads_print_prometheus(counters: *const Counters, file: *mut File) -> u32;
    pub fn vlm_threads_print_wait(wait: *const Wait, file: *mut File) -> u32;
    pub fn vlm_threads_print_deadlock(deadlock: *const Deadlock, file: *mut File) -> u32;

    // What of the C library goes with these.
    pub fn open_memstream(text: *mut *mut c_char, len: *mut usize) -> *mut File;
    pub fn fclose(file: *mut File) -> c_int;
    pub fn free(block: *mut c_void);
}
