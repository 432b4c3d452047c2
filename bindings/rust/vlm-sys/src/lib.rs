//! The structs and calls of the library of the lock manager of OpenVMS ($ENQ, $DEQ), as its C headers have them. The
//! headers say what each does and what a caller owes. The crate `vlm` is safe Rust over these.

pub mod client;
pub mod hub;
pub mod threads;

use std::ffi::{c_char, c_void};
use std::mem::size_of;

/// A handle of a lock manager, or of none.
#[repr(C)]
pub struct Vlm {
    core: *mut c_void,
    is_held: bool,
}

impl Vlm {
    /// A handle of none.
    pub const CLOSED: Vlm = Vlm {
        core: std::ptr::null_mut(),
        is_held: false,
    };
}

/// The version of the header that this file follows, 0.2.0: one byte for each of its numbers.
pub const VERSION: u32 = 0x00_02_00;

// The kinds of lines of a script.
/// No word, or a comment.
pub const LINE_EMPTY: u32 = 0;
/// `declare`: a process.
pub const LINE_DECLARE: u32 = 1;
/// `set`: a status block's value part.
pub const LINE_SET: u32 = 2;
/// `enq`: a new lock.
pub const LINE_ENQ: u32 = 3;
/// `cvt`: another mode of a lock.
pub const LINE_CVT: u32 = 4;
/// `deq`: a lock is given up, or its request cancelled.
pub const LINE_DEQ: u32 = 5;
/// `end`: the end of a process.
pub const LINE_END: u32 = 6;
/// `leave`: a node departs.
pub const LINE_LEAVE: u32 = 7;
/// `search`: for a deadlock.
pub const LINE_SEARCH: u32 = 8;
/// `ast`: takes an AST.
pub const LINE_AST: u32 = 9;
/// `block`: shows a status block.
pub const LINE_BLOCK: u32 = 10;
/// `tail`: shows the tail of a status block.
pub const LINE_TAIL: u32 = 11;
/// `show`: shows all resources.
pub const LINE_SHOW: u32 = 12;
/// `tails`: shows the tails of all value blocks.
pub const LINE_TAILS: u32 = 13;

/// Defines structs of the library, each with its size as its first member and usual values after it. Pins the sizes
/// that the header asserts. There is no padding, so each member is where C has it.
macro_rules! structs {
    ($($name:ident $bytes:literal { $($field:ident: $kind:ty = $zero:expr),* $(,)? })*) => { $(
        #[repr(C)]
        pub struct $name {
            pub size: u32,
            $(pub $field: $kind,)*
        }

        impl $name {
            /// All members 0 except the size and a version.
            pub const fn new() -> $name {
                $name { size: size_of::<$name>() as u32, $($field: $zero,)* }
            }
        }

        impl Default for $name {
            fn default() -> $name {
                $name::new()
            }
        }

        const _: () = assert!(size_of::<$name>() == $bytes);
        const _: () = assert!(size_of::<u32>() $(+ size_of::<$kind>())* == $bytes);
    )* };
}
pub(crate) use structs;

structs! {
    Options 64 { version: u32 = VERSION, has_keys: u32 = 0, keys: [u8; 16] = [0; 16], reserved: [u32; 9] = [0; 9] }
    Declaration 32 {
        node: u32 = 0, group: u32 = 0, syslck: u32 = 0, quota: u32 = 0, blocks: u32 = 0, reserved: [u32; 2] = [0; 2],
    }
    Setting 96 {
        pid: u32 = 0, block: u32 = 0, has_tail: u32 = 0, value: [u8; 16] = [0; 16], tail: [u8; 48] = [0; 48],
        reserved: [u32; 4] = [0; 4],
    }
    Request 128 {
        pid: u32 = 0, mode: u32 = 0, flags: u32 = 0, block: u32 = 0, lock: u32 = 0, lock_kind: u32 = 0,
        has_ast: u32 = 0, ast: u32 = 0, has_bast: u32 = 0, bast: u32 = 0, param: u32 = 0, reserved: [u32; 20] = [0; 20],
    }
    Dequeue 128 {
        pid: u32 = 0, flags: u32 = 0, lock: u32 = 0, lock_kind: u32 = 0, has_value: u32 = 0, has_tail: u32 = 0,
        value: [u8; 16] = [0; 16], tail: [u8; 48] = [0; 48], reserved: [u32; 9] = [0; 9],
    }
    Lksb 80 { status: u32 = 0, lkid: u32 = 0, reserved: u32 = 0, value: [u8; 16] = [0; 16], tail: [u8; 48] = [0; 48] }
    Process 64 {
        pid: u32 = 0, node: u32 = 0, group: u32 = 0, syslck: u32 = 0, quota: u32 = 0, blocks: u64 = 0, pending: u64 = 0,
        locks: u64 = 0, reserved: [u32; 4] = [0; 4],
    }
    Resource 144 {
        serial: u32 = 0, parent: u32 = 0, is_system: u32 = 0, group: u32 = 0, value_valid: u32 = 0, tail_valid: u32 = 0,
        name_len: u32 = 0, name: [u8; 32] = [0; 32], value: [u8; 16] = [0; 16], tail: [u8; 48] = [0; 48],
        reserved: [u32; 4] = [0; 4],
    }
    Lock 64 {
        lkid: u32 = 0, pid: u32 = 0, held: u32 = 0, want: u32 = 0, queue: u32 = 0, resource: u32 = 0, parent: u32 = 0,
        block: u32 = 0, reserved: [u32; 7] = [0; 7],
    }
    Line 464 {
        kind: u32 = 0, fault: u32 = 0, number: u32 = 0, name_len: u32 = 0, resource_len: u32 = 0,
        name: [u8; 16] = [0; 16], resource: [u8; 32] = [0; 32], declaration: Declaration = Declaration::new(),
        setting: Setting = Setting::new(), request: Request = Request::new(), dequeue: Dequeue = Dequeue::new(),
        reserved: [u32; 2] = [0; 2],
    }
    Text 256 { len: u32 = 0, bytes: [u8; 248] = [0; 248] }
    Ast 32 { kind: u32 = 0, routine: u32 = 0, param: u32 = 0, lkid: u32 = 0, reserved: [u32; 3] = [0; 3] }
}

impl Options {
    /// The options of a lock manager that hashes names by these keys.
    pub fn with_keys(keys: [u8; 16]) -> Options {
        Options {
            has_keys: 1,
            keys,
            ..Options::new()
        }
    }
}

impl Resource {
    /// The words that name a resource. None where the name does not fit.
    pub fn named(parent: u32, is_system: u32, group: u32, name: &[u8]) -> Option<Resource> {
        let mut words = Resource {
            parent,
            is_system,
            group,
            name_len: u32::try_from(name.len()).ok()?,
            ..Resource::new()
        };
        words.name.get_mut(..name.len())?.copy_from_slice(name);
        Some(words)
    }
}

extern "C" {
    pub fn vlm_open(handle: *mut Vlm, options: *const Options) -> u32;
    pub fn vlm_close(handle: *mut Vlm);
    pub fn vlm_declare(handle: *mut Vlm, declaration: *const Declaration, pid: *mut u32) -> u32;
    pub fn vlm_set_value(handle: *mut Vlm, setting: *const Setting) -> u32;
    pub fn vlm_enq(
        handle: *mut Vlm,
        request: *const Request,
        name: *const u8,
        name_len: usize,
        lkid: *mut u32,
    ) -> u32;
    pub fn vlm_convert(handle: *mut Vlm, request: *const Request, lkid: *mut u32) -> u32;
    pub fn vlm_deq(handle: *mut Vlm, dequeue: *const Dequeue) -> u32;
    pub fn vlm_take(handle: *mut Vlm, pid: u32, ast: *mut Ast) -> u32;
    pub fn vlm_take_any(handle: *mut Vlm, pid: *mut u32, ast: *mut Ast) -> u32;
    pub fn vlm_rundown(handle: *mut Vlm, pid: u32) -> u32;
    pub fn vlm_leave(handle: *mut Vlm, node: u32) -> u32;
    pub fn vlm_search(handle: *mut Vlm, node: u32, victim: *mut u32) -> u32;
    pub fn vlm_find_victim(handle: *mut Vlm, victim: *mut u32) -> u32;
    pub fn vlm_block(handle: *mut Vlm, pid: u32, block: u32, lksb: *mut Lksb) -> u32;
    pub fn vlm_pending(handle: *mut Vlm, pid: u32, count: *mut usize) -> u32;
    pub fn vlm_process_count(handle: *mut Vlm) -> usize;
    pub fn vlm_resource_count(handle: *mut Vlm) -> usize;
    pub fn vlm_next_process(handle: *mut Vlm, pid: u32, process: *mut Process) -> u32;
    pub fn vlm_next_resource(handle: *mut Vlm, resource: *mut Resource) -> u32;
    pub fn vlm_find(handle: *mut Vlm, resource: *mut Resource) -> u32;
    pub fn vlm_lock_count(handle: *mut Vlm) -> usize;
    pub fn vlm_queued_count(handle: *mut Vlm) -> usize;
    pub fn vlm_find_lock(handle: *mut Vlm, lkid: u32, lock: *mut Lock) -> u32;
    pub fn vlm_lock_resource(handle: *mut Vlm, lkid: u32, resource: *mut Resource) -> u32;
    pub fn vlm_first_row(
        handle: *mut Vlm,
        resource: *const Resource,
        queue: u32,
        lock: *mut Lock,
    ) -> u32;
    pub fn vlm_next_row(handle: *mut Vlm, lkid: u32, lock: *mut Lock) -> u32;
    pub fn vlm_first_own(handle: *mut Vlm, pid: u32, lock: *mut Lock) -> u32;
    pub fn vlm_next_own(handle: *mut Vlm, lkid: u32, lock: *mut Lock) -> u32;
    pub fn vlm_first_sublock(handle: *mut Vlm, lkid: u32, lock: *mut Lock) -> u32;
    pub fn vlm_next_sublock(handle: *mut Vlm, lkid: u32, lock: *mut Lock) -> u32;
    pub fn vlm_first_blocker(handle: *mut Vlm, lkid: u32, lock: *mut Lock) -> u32;
    pub fn vlm_next_blocker(handle: *mut Vlm, lkid: u32, blocker: u32, lock: *mut Lock) -> u32;
    pub fn vlm_first_blocked(handle: *mut Vlm, lkid: u32, lock: *mut Lock) -> u32;
    pub fn vlm_next_blocked(handle: *mut Vlm, lkid: u32, blocked: u32, lock: *mut Lock) -> u32;
    pub fn vlm_read_line(bytes: *const u8, len: usize, line: *mut Line) -> u32;
    pub fn vlm_print_answer(line: *const Line, status: u32, number: u32, text: *mut Text) -> u32;
    pub fn vlm_print_ast(line: *const Line, status: u32, ast: *const Ast, text: *mut Text) -> u32;
    pub fn vlm_print_block(handle: *mut Vlm, pid: u32, line: *const Line, text: *mut Text) -> u32;
    pub fn vlm_print_tail(handle: *mut Vlm, pid: u32, line: *const Line, text: *mut Text) -> u32;
    pub fn vlm_print_resource(handle: *mut Vlm, resource: *const Resource, text: *mut Text) -> u32;
    pub fn vlm_print_resource_tail(
        handle: *mut Vlm,
        resource: *const Resource,
        text: *mut Text,
    ) -> u32;
    pub fn vlm_print_lock(lock: *const Lock, text: *mut Text) -> u32;
    pub fn vlm_condition_name(status: u32) -> *const c_char;
}
