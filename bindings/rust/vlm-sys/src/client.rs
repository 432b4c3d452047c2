//! The structs and calls of `vlm_client.h`, beside those of `vlm_threads.h`.

use std::ffi::{c_char, c_int, c_void};
use std::mem::size_of;
use std::ptr::{null, null_mut};

use crate::threads::{Declaration, Dequeue, Request};
use crate::{structs, VERSION};

/// A connection with its session, its processes and its threads.
#[repr(C)]
pub struct Client {
    _hidden: [u8; 0],
}

/// The answer once the service or the session has ended.
pub const LOST: u32 = 101;

pub type Loss = extern "C" fn(*mut c_void);

structs! {
    ClientOptions 80 {
        version: u32 = VERSION, delivery: u32 = 0, lease_seconds: u32 = 0, socket: *const c_char = null(),
        on_lost: Option<Loss> = None, lost_context: *mut c_void = null_mut(),
        certificate: *const c_char = null(), key: *const c_char = null(), authority: *const c_char = null(),
        reason: *mut c_char = null_mut(), reason_len: u64 = 0,
    }
}

extern "C" {
    pub fn vlm_client_open(options: *const ClientOptions, client: *mut *mut Client) -> u32;
    pub fn vlm_client_reopen(client: *mut Client) -> u32;
    pub fn vlm_client_close(client: *mut Client) -> u32;
    pub fn vlm_client_declare(
        client: *mut Client,
        declaration: *const Declaration,
        pid: *mut u32,
    ) -> u32;
    pub fn vlm_client_rundown(client: *mut Client, pid: u32) -> u32;
    pub fn vlm_client_enq(
        client: *mut Client,
        request: *mut Request,
        name: *const u8,
        name_len: usize,
    ) -> u32;
    pub fn vlm_client_convert(client: *mut Client, request: *mut Request) -> u32;
    pub fn vlm_client_start_enq(
        client: *mut Client,
        request: *mut Request,
        name: *const u8,
        name_len: usize,
    ) -> u32;
    pub fn vlm_client_start_convert(client: *mut Client, request: *mut Request) -> u32;
    pub fn vlm_client_deq(client: *mut Client, dequeue: *const Dequeue) -> u32;
    pub fn vlm_client_token(client: *mut Client, lkid: u32, token: *mut u64) -> u32;
    pub fn vlm_client_fd(client: *mut Client, descriptor: *mut c_int) -> u32;
    pub fn vlm_client_dispatch(client: *mut Client, delivered: *mut u32) -> u32;
    pub fn vlm_client_settle(client: *mut Client) -> u32;
}
