//! The structs and calls of include/vlm_client.h. All that is unsafe about connections stands here.

use std::cell::RefCell;
use std::collections::{BTreeMap, BTreeSet};
use std::ffi::{c_char, c_int, c_void, CStr, CString};
use std::ptr;
use std::sync::{Arc, Mutex, MutexGuard, Once, PoisonError};

use vlm_sys::client::*;
use vlm_sys::threads::{Declaration, Dequeue, Event as RawEvent, Request};

use crate::condition::{answered, Error};
use crate::panics::{going_on, guarded};
use crate::shared::Blocking;
use crate::Event;

const NORMAL: u32 = 1;
const BY_PROGRAM: u32 = 1;

/// A closure for a loss.
pub type LostRun = Arc<Mutex<dyn FnMut() + Send>>;

/// A closure that C knows by its number, which it passes as the context.
#[derive(Clone)]
pub enum Known {
    /// A blocking routine.
    Blocking(Blocking),
    /// A completion routine, which is called once.
    Completion(Blocking),
    /// For the loss of the session.
    Loss(LostRun),
}

/// A closure, and what it belongs to: a connection, and a process of it or 0.
struct Owned {
    connection: usize,
    process: u32,
    closure: Known,
}

/// The closures by their numbers, and these by connections and processes. Connections have numbers too.
struct Table {
    last_number: usize,
    closures: BTreeMap<usize, Owned>,
    numbers: BTreeSet<(usize, u32, usize)>,
}

impl Table {
    fn remove(&mut self, number: usize) -> Option<Owned> {
        let owned = self.closures.remove(&number)?;
        self.numbers
            .remove(&(owned.connection, owned.process, number));
        Some(owned)
    }
}

static KNOWN: Mutex<Table> = Mutex::new(Table {
    last_number: 0,
    closures: BTreeMap::new(),
    numbers: BTreeSet::new(),
});

fn locked<T: ?Sized>(mutex: &Mutex<T>) -> MutexGuard<'_, T> {
    mutex.lock().unwrap_or_else(PoisonError::into_inner)
}

thread_local! {
    /// The table during a fork by this thread. Without it a child could find the table locked by a thread that it does
    /// not have.
    static FORKING: RefCell<Option<MutexGuard<'static, Table>>> = const { RefCell::new(None) };
}

/// A function that a fork calls.
type AtFork = Option<extern "C" fn()>;

extern "C" {
    fn pthread_atfork(before: AtFork, in_parent: AtFork, in_child: AtFork) -> c_int;
}

// (at the end of a thread its variables may be gone)
extern "C" fn before_fork() {
    let _ = FORKING.try_with(|table| *table.borrow_mut() = Some(locked(&KNOWN)));
}

extern "C" fn after_fork() {
    let _ = FORKING.try_with(|table| drop(table.borrow_mut().take()));
}

fn watch_forks() {
    static WATCHED: Once = Once::new();
    // SAFETY: the functions may be called by any thread. Without memory they are not called.
    WATCHED.call_once(|| unsafe {
        pthread_atfork(Some(before_fork), Some(after_fork), Some(after_fork));
    });
}

/// A number that no closure and no connection has had, from 1.
fn new_number() -> usize {
    let mut table = locked(&KNOWN);
    table.last_number += 1;
    table.last_number
}

fn closure_of(context: *mut c_void) -> Option<Known> {
    let table = locked(&KNOWN);
    let owned = table.closures.get(&(context as usize))?;
    Some(owned.closure.clone())
}

/// Forgets the closure of a number; 0 is none.
pub fn forget(number: usize) {
    // (it is dropped after the table is free again)
    let owned = locked(&KNOWN).remove(number);
    going_on(|| guarded(|| drop(owned)));
}

/// Forgets the closures of a connection, or those of a process of it.
fn forget_all(connection: usize, process: Option<u32>) {
    let (first, last) = process.map_or((0, u32::MAX), |pid| (pid, pid));
    let range = (connection, first, 0)..=(connection, last, usize::MAX);
    let mut table = locked(&KNOWN);
    let numbers: Vec<_> = table.numbers.range(range).map(|it| it.2).collect();
    let gone: Vec<_> = numbers.into_iter().map(|it| table.remove(it)).collect();
    drop(table);
    // (one by one: a second panic during the first would abort)
    gone.into_iter().for_each(|it| guarded(|| drop(it)));
}

extern "C" fn run(context: *mut c_void, event: *const RawEvent) {
    // SAFETY: the library passes an event that lives as long as this call.
    let event = Event::of(unsafe { &*event });
    let routine = match closure_of(context) {
        Some(Known::Blocking(routine)) => routine,
        Some(Known::Completion(routine)) => {
            forget(context as usize);
            routine
        }
        _ => return,
    };
    guarded(|| locked(&routine)(event));
    guarded(|| drop(routine));
}

extern "C" fn tell_loss(context: *mut c_void) {
    if let Some(Known::Loss(routine)) = closure_of(context) {
        guarded(|| locked(&routine)());
        guarded(|| drop(routine));
    }
}

/// What a request asks for.
pub struct Wanted {
    pub process: u32,
    pub mode: u32,
    pub flags: u32,
    pub lock: u32,
    pub milliseconds: u32,
    /// The numbers of its routines, or 0.
    pub completion: usize,
    pub blocking: usize,
}

/// What a request was answered.
pub struct Answered {
    pub answer: u32,
    pub lock: u32,
    pub status: u32,
    pub value: [u8; 64],
}

/// A client of the library. Its closures go with it.
pub struct Connected {
    client: *mut Client,
    number: usize,
}

// SAFETY: any thread may make any call of a client.
unsafe impl Send for Connected {}
// SAFETY: the same.
unsafe impl Sync for Connected {}

/// Where a client connects to, for how long a lease, and the files of TLS: certificate, key and authority.
#[derive(Default)]
pub struct Opening {
    pub socket: Option<CString>,
    pub lease_seconds: u32,
    pub files: [Option<CString>; 3],
}

fn pointer_of(text: &Option<CString>) -> *const c_char {
    text.as_deref().map_or(ptr::null(), CStr::as_ptr)
}

impl Connected {
    /// Connects to a socket, or to addresses with a lease.
    pub fn open(how: &Opening, loss: Option<LostRun>) -> Result<Connected, Error> {
        watch_forks();
        let mut opened = Connected {
            client: ptr::null_mut(),
            number: new_number(),
        };
        let mut options = ClientOptions::new();
        options.delivery = BY_PROGRAM;
        options.lease_seconds = how.lease_seconds;
        options.socket = pointer_of(&how.socket);
        options.certificate = pointer_of(&how.files[0]);
        options.key = pointer_of(&how.files[1]);
        options.authority = pointer_of(&how.files[2]);
        if let Some(loss) = loss {
            options.on_lost = Some(tell_loss);
            options.lost_context = opened.number_of(0, Known::Loss(loss)) as *mut c_void;
        }
        // SAFETY: the options and their texts live as long as the call, which copies them.
        let status = unsafe { vlm_client_open(&options, &mut opened.client) };
        answered(status).map(|_| opened)
    }

    /// Gives a closure of a process a number.
    pub fn number_of(&self, process: u32, closure: Known) -> usize {
        let number = new_number();
        let owned = Owned {
            connection: self.number,
            process,
            closure,
        };
        let mut table = locked(&KNOWN);
        table.numbers.insert((self.number, process, number));
        table.closures.insert(number, owned);
        number
    }

    pub fn reopen(&self) -> u32 {
        // SAFETY: the client is open until it is dropped.
        unsafe { vlm_client_reopen(self.client) }
    }

    pub fn declare(&self, quota: u32, requests: u32, pid: &mut u32) -> u32 {
        let mut declaration = Declaration::new();
        (declaration.quota, declaration.requests) = (quota, requests);
        // SAFETY: the same, and the references live as long as the call.
        unsafe { vlm_client_declare(self.client, &declaration, pid) }
    }

    pub fn rundown(&self, pid: u32) -> u32 {
        // SAFETY: the client is open.
        let status = unsafe { vlm_client_rundown(self.client, pid) };
        // (after a loss the closures are told of it)
        if status == NORMAL {
            going_on(|| forget_all(self.number, Some(pid)));
        }
        status
    }

    /// Makes a request: for a new lock of this name, or without a name a conversion. `value` is what it may write.
    pub fn ask(&self, wanted: &Wanted, name: Option<&[u8]>, mut value: [u8; 64]) -> Answered {
        let mut raw = Request::new();
        (raw.pid, raw.mode, raw.flags) = (wanted.process, wanted.mode, wanted.flags);
        (raw.lock, raw.milliseconds) = (wanted.lock, wanted.milliseconds);
        raw.value = value.as_mut_ptr();
        if wanted.blocking != 0 {
            raw.blocking = Some(run);
            raw.blocking_context = wanted.blocking as *mut c_void;
        }
        if wanted.completion != 0 {
            raw.completion = Some(run);
            raw.completion_context = wanted.completion as *mut c_void;
        }
        // SAFETY: the client is open, and the request, its 64 bytes and the name live as long as the call. The contexts
        // are numbers, which nobody takes for pointers.
        let answer = unsafe {
            match name {
                Some(name) if wanted.completion != 0 => {
                    vlm_client_start_enq(self.client, &mut raw, name.as_ptr(), name.len())
                }
                Some(name) => vlm_client_enq(self.client, &mut raw, name.as_ptr(), name.len()),
                None => vlm_client_convert(self.client, &mut raw),
            }
        };
        Answered {
            answer,
            lock: raw.lkid,
            status: raw.status,
            value,
        }
    }

    pub fn deq(
        &self,
        process: u32,
        flags: u32,
        lock: u32,
        value: Option<(&[u8; 64], bool)>,
    ) -> u32 {
        let mut raw = Dequeue::new();
        (raw.pid, raw.flags, raw.lock) = (process, flags, lock);
        if let Some((bytes, is_wide)) = value {
            (raw.value, raw.wide) = (bytes.as_ptr(), is_wide.into());
        }
        // SAFETY: the client is open, and the value lives as long as the call.
        unsafe { vlm_client_deq(self.client, &raw) }
    }

    pub fn token(&self, lock: u32, token: &mut u64) -> u32 {
        // SAFETY: the client is open, and the reference lives as long as the call.
        unsafe { vlm_client_token(self.client, lock, token) }
    }

    /// Runs the routines that are to be called. A panic of one of them goes on here.
    pub fn dispatch(&self) -> u32 {
        let mut delivered = 0;
        // SAFETY: the client is open.
        going_on(|| unsafe { vlm_client_dispatch(self.client, &mut delivered) });
        delivered
    }
}

impl Drop for Connected {
    fn drop(&mut self) {
        // SAFETY: nobody else has the client, and no routine of it runs: a delivery has it. It may be null.
        unsafe { vlm_client_close(self.client) };
        going_on(|| forget_all(self.number, None));
    }
}
