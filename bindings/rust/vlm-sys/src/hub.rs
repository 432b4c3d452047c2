//! The structs and calls of `vlm_hub.h`.

use std::ffi::c_void;
use std::mem::{size_of, transmute};

use crate::{structs, Ast, Declaration, Dequeue, Lksb, Options, Request, Setting};

/// The answer of a post that found no free place.
pub const FULL: u32 = 256;

structs! {
    Item 64 {
        kind: u32 = 0, status: u32 = 0, number: u32 = 0, pid: u32 = 0, reserved: [u32; 3] = [0; 3],
        ast: Ast = Ast::new(),
    }
    // The AST always has its size, also where it is none. A member of another step is all 0, its size too.
    Entry 512 {
        sender: u32 = 0, step: u32 = 0, pid: u32 = 0, node: u32 = 0, status: u32 = 0, number: u32 = 0,
        name_len: u32 = 0, ast: Ast = Ast::new(), name: [u8; 32] = [0; 32],
        declaration: Declaration = Declaration { size: 0, ..Declaration::new() },
        setting: Setting = Setting { size: 0, ..Setting::new() },
        request: Request = Request { size: 0, ..Request::new() },
        dequeue: Dequeue = Dequeue { size: 0, ..Dequeue::new() }, reserved: [u32; 8] = [0; 8],
    }
    Cut 32 {
        entry_size: u32 = size_of::<Entry>() as u32, base: u64 = 0, count: u64 = 0, reserved: [u32; 2] = [0; 2],
    }
}

impl Entry {
    /// Its bytes as C has them.
    pub fn into_bytes(self) -> [u8; 512] {
        // SAFETY: its members are integers, and `structs` has asserted that it has no padding.
        unsafe { transmute(self) }
    }

    /// The entry of these bytes.
    pub fn from_bytes(bytes: [u8; 512]) -> Entry {
        // SAFETY: its members are integers, so any bytes are an entry.
        unsafe { transmute(bytes) }
    }
}

/// A handle of a hub, or of nothing.
#[repr(C)]
pub struct VlmHub {
    held: *mut c_void,
    is_held: bool,
}

impl VlmHub {
    /// A handle of nothing.
    pub const CLOSED: VlmHub = VlmHub {
        held: std::ptr::null_mut(),
        is_held: false,
    };
}

/// A handle of a port, or of nothing.
#[repr(C)]
pub struct VlmPort {
    held: *mut c_void,
    is_held: bool,
}

impl VlmPort {
    /// A handle of nothing.
    pub const CLOSED: VlmPort = VlmPort {
        held: std::ptr::null_mut(),
        is_held: false,
    };
}

extern "C" {
    pub fn vlm_hub_open(hub: *mut VlmHub, nodes: u32, options: *const Options) -> u32;
    pub fn vlm_hub_port(hub: *mut VlmHub, node: u32, port: *mut VlmPort) -> u32;
    pub fn vlm_hub_turn(hub: *mut VlmHub, made: *mut usize) -> u32;
    pub fn vlm_hub_lost(hub: *mut VlmHub, node: u32) -> u32;
    pub fn vlm_hub_waiting(hub: *mut VlmHub, node: u32, posts: *mut usize) -> u32;
    pub fn vlm_hub_block(hub: *mut VlmHub, pid: u32, block: u32, lksb: *mut Lksb) -> u32;
    pub fn vlm_hub_nodes(hub: *mut VlmHub) -> usize;
    pub fn vlm_hub_entries(hub: *mut VlmHub) -> usize;
    pub fn vlm_hub_entry(hub: *mut VlmHub, place: usize, entry: *mut Entry) -> u32;
    pub fn vlm_hub_cut(
        hub: *mut VlmHub,
        entries: *mut Entry,
        capacity: usize,
        cut: *mut Cut,
    ) -> u32;
    pub fn vlm_hub_close(hub: *mut VlmHub);
    pub fn vlm_port_node(port: *mut VlmPort) -> u32;
    pub fn vlm_port_declare(port: *mut VlmPort, declaration: *const Declaration) -> u32;
    pub fn vlm_port_set_value(port: *mut VlmPort, setting: *const Setting) -> u32;
    pub fn vlm_port_enq(
        port: *mut VlmPort,
        request: *const Request,
        name: *const u8,
        name_len: usize,
    ) -> u32;
    pub fn vlm_port_convert(port: *mut VlmPort, request: *const Request) -> u32;
    pub fn vlm_port_deq(port: *mut VlmPort, dequeue: *const Dequeue) -> u32;
    pub fn vlm_port_rundown(port: *mut VlmPort, pid: u32) -> u32;
    pub fn vlm_port_search(port: *mut VlmPort) -> u32;
    pub fn vlm_port_bye(port: *mut VlmPort) -> u32;
    pub fn vlm_port_take(port: *mut VlmPort, item: *mut Item) -> u32;
    pub fn vlm_port_waiting(port: *mut VlmPort, items: *mut usize) -> u32;
    pub fn vlm_port_close(port: *mut VlmPort);
}
