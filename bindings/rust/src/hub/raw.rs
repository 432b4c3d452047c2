//! Handles that own a hub and its ports. All that is unsafe of hubs stands here.

use std::cell::UnsafeCell;

pub use vlm_sys::hub::*;

use crate::condition::{answered, Error};
use crate::raw::{calls, Declaration, Dequeue, Lksb, Options, Request, Setting};

/// A handle that owns its hub. As a handle of a lock manager it is no `Sync`: one call at a time has it.
pub struct Hub {
    raw: UnsafeCell<VlmHub>,
}

/// A handle that owns its port. It is no `Sync`: one call at a time has it. Its hub may be in a call meanwhile.
pub struct Port {
    raw: UnsafeCell<VlmPort>,
}

// SAFETY: a hub is proved to be one that may go from thread to thread, and no two threads have it at once.
unsafe impl Send for Hub {}

// SAFETY: so is a port, whatever its hub does meanwhile.
unsafe impl Send for Port {}

impl Drop for Hub {
    fn drop(&mut self) {
        // SAFETY: the handle is as a call left it, and this is the only one that has it.
        unsafe { vlm_hub_close(self.raw.get()) }
    }
}

impl Drop for Port {
    fn drop(&mut self) {
        // SAFETY: the handle is as a call left it, and this is the only one that has it.
        unsafe { vlm_port_close(self.raw.get()) }
    }
}

calls! {
    of Hub;
    by &mut Hub {
        turn = vlm_hub_turn(made: &mut usize) -> u32;
        lost = vlm_hub_lost(node: u32) -> u32;
    }
    by &Hub {
        waiting = vlm_hub_waiting(node: u32, posts: &mut usize) -> u32;
        block = vlm_hub_block(pid: u32, block: u32, lksb: &mut Lksb) -> u32;
        nodes = vlm_hub_nodes() -> usize;
        entries = vlm_hub_entries() -> usize;
        entry = vlm_hub_entry(place: usize, entry: &mut Entry) -> u32;
    }
}

calls! {
    of Port;
    by &mut Port {
        declare = vlm_port_declare(declaration: &Declaration) -> u32;
        set_value = vlm_port_set_value(setting: &Setting) -> u32;
        convert = vlm_port_convert(request: &Request) -> u32;
        deq = vlm_port_deq(dequeue: &Dequeue) -> u32;
        rundown = vlm_port_rundown(pid: u32) -> u32;
        search = vlm_port_search() -> u32;
        bye = vlm_port_bye() -> u32;
        take = vlm_port_take(item: &mut Item) -> u32;
    }
    by &Port {
        waiting = vlm_port_waiting(items: &mut usize) -> u32;
        node = vlm_port_node() -> u32;
    }
}

impl Hub {
    /// A handle of a new hub whose lock manager hashes names by these keys.
    pub fn open(nodes: u32, keys: [u8; 16]) -> Result<Hub, Error> {
        let mut raw = VlmHub::CLOSED;
        // SAFETY: a handle of zeros has no hub, and the references don't overlap.
        let status = unsafe { vlm_hub_open(&mut raw, nodes, &Options::with_keys(keys)) };
        let hub = Hub {
            raw: UnsafeCell::new(raw),
        };
        answered(status).map(|_| hub)
    }

    /// A handle of the port of a node.
    pub fn port(&mut self, node: u32) -> Result<Port, Error> {
        let mut raw = VlmPort::CLOSED;
        // SAFETY: as in the calls above; a handle of zeros has no port.
        let status = unsafe { vlm_hub_port(self.raw.get(), node, &mut raw) };
        let port = Port {
            raw: UnsafeCell::new(raw),
        };
        answered(status).map(|_| port)
    }

    pub fn cut(&mut self, entries: &mut [Entry], cut: &mut Cut) -> u32 {
        // SAFETY: as in the calls above; a slice's pointer is not null where it is empty, too.
        unsafe { vlm_hub_cut(self.raw.get(), entries.as_mut_ptr(), entries.len(), cut) }
    }
}

impl Port {
    pub fn enq(&mut self, request: &Request, name: &[u8]) -> u32 {
        // SAFETY: as in the calls above; a slice's pointer is not null where it is empty, too.
        unsafe { vlm_port_enq(self.raw.get(), request, name.as_ptr(), name.len()) }
    }
}
