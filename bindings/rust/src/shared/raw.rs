//! A layer for threads, the closures that it calls, and texts that it prints. All that is unsafe of threads stands
//! here.
//!
//! A closure is given to the layer as a pointer to a box. The layer gives the pointer back once, to `released`, when it
//! uses it no more.

use std::ffi::{c_int, c_void};
use std::ptr::{null_mut, NonNull};
use std::thread;

pub use vlm_sys::threads::*;

use super::hooks::Hooks;
use super::routines::Routines;
use crate::condition::{answered, Error};
use crate::manager::LockManager;
use crate::panics::{going_on, guarded, kept};
use crate::raw::Vlm;

/// A layer, with the hooks that it calls.
pub struct Layer {
    pointer: NonNull<vlm_sys::threads::Layer>,
    hooks: *mut Hooks,
}

// SAFETY: any thread may make any call of a layer, and hooks are `Send` and `Sync`.
unsafe impl Send for Layer {}
// SAFETY: as above.
unsafe impl Sync for Layer {}

/// Defines the calls that take no closure.
macro_rules! layer_calls {
    ($($name:ident = $call:ident($($arg:ident: $kind:ty),*);)*) => { impl Layer { $(
        pub fn $name(&self, $($arg: $kind),*) -> u32 {
            // SAFETY: the layer is open. Each reference points to an initialized value, and no two overlap.
            unsafe { $call(self.pointer.as_ptr(), $($arg),*) }
        }
    )*} };
}

layer_calls! {
    stop = vlm_threads_stop();
    declare = vlm_threads_declare(declaration: &Declaration, pid: &mut u32);
    rundown = vlm_threads_rundown(pid: u32);
    leave = vlm_threads_leave(node: u32);
    cancel = vlm_threads_cancel(pid: u32, cancelled: &mut u32);
    fd = vlm_threads_fd(descriptor: &mut c_int);
    process_fd = vlm_threads_process_fd(pid: u32, descriptor: &mut c_int);
    settle = vlm_threads_settle();
    read_counters = vlm_threads_read_counters(counters: &mut Counters);
}

impl Layer {
    pub fn open(mut options: Options, hooks: Hooks) -> Result<Layer, Error> {
        let has_hooks = hooks.describe(&mut options, told_deadlock, told_wait);
        let hooks = Box::into_raw(Box::new(hooks));
        if has_hooks {
            (options.deadlock_context, options.long_wait_context) = (hooks.cast(), hooks.cast());
        }
        let mut pointer = null_mut();
        // SAFETY: the hooks live as long as the layer.
        let status = unsafe { vlm_threads_open(&options, &mut pointer) };
        match NonNull::new(pointer) {
            Some(pointer) => Ok(Layer { pointer, hooks }),
            None => {
                // SAFETY: without a layer nobody else has the hooks.
                drop(unsafe { Box::from_raw(hooks) });
                Err(answered(status).err().unwrap_or(Error::Insfmem))
            }
        }
    }

    /// Makes a request, for a new lock if there is a name. With VALBLK the value block is in `value`.
    #[inline]
    pub fn ask(
        &self,
        words: &mut Request,
        value: Option<&mut [u8; 64]>,
        name: Option<&[u8]>,
        routines: Option<Routines>,
    ) -> u32 {
        let waits = !routines.as_ref().is_some_and(Routines::has_completion);
        let context = routines.map_or(null_mut(), |it| give(it, words));
        words.value = value.map_or(null_mut(), |it| it.as_mut_ptr());
        let layer = self.pointer.as_ptr();
        // SAFETY: the words, the value and the name live during the call. The context lives until `released`.
        let status = unsafe {
            match (name, waits) {
                (Some(name), true) => vlm_threads_enq(layer, words, name.as_ptr(), name.len()),
                (None, true) => vlm_threads_convert(layer, words),
                (Some(name), false) => {
                    vlm_threads_start_enq(layer, words, name.as_ptr(), name.len())
                }
                (None, false) => vlm_threads_start_convert(layer, words),
            }
        };
        // (a request that was accepted has a status, or a success as its answer)
        if !context.is_null() && words.status == 0 && status != 1 && status != 2 {
            going_on(|| released(context, null_mut()));
        }
        status
    }

    pub fn deq(&self, words: &mut Dequeue, value: Option<&[u8; 64]>) -> u32 {
        words.value = value.map_or(null_mut(), |it| it.as_ptr());
        // SAFETY: the words and the value live during the call.
        unsafe { vlm_threads_deq(self.pointer.as_ptr(), words) }
    }

    /// Calls the routines that are pending: those of the layer's queue, or of a process with its own. A panic of one
    /// goes on from here, after the others.
    pub fn dispatch(&self, pid: Option<u32>, delivered: &mut u32) -> u32 {
        let layer = self.pointer.as_ptr();
        // SAFETY: as for the other calls.
        going_on(|| unsafe {
            match pid {
                None => vlm_threads_dispatch(layer, delivered),
                Some(pid) => vlm_threads_process_dispatch(layer, pid, delivered),
            }
        })
    }

    /// Searches for deadlocks. A panic of a hook goes on from here.
    pub fn search(&self, victims: &mut u32) -> u32 {
        // SAFETY: as for the other calls.
        going_on(|| unsafe { vlm_threads_search(self.pointer.as_ptr(), victims) })
    }

    /// Lets a closure read the lock manager.
    pub fn look<T, F: FnOnce(&LockManager) -> T>(&self, reader: F) -> T {
        let mut look = (Some(reader), None);
        let context: *mut (Option<F>, Option<T>) = &mut look;
        // SAFETY: `read` is given the pointer to `look`, which lives during the call.
        going_on(|| unsafe {
            vlm_threads_look(self.pointer.as_ptr(), read::<T, F>, context.cast())
        });
        look.1.expect("the reader has returned")
    }
}

impl Drop for Layer {
    fn drop(&mut self) {
        let (layer, hooks) = (Pointer(self.pointer.as_ptr()), Pointer(self.hooks));
        if !is_closed(&layer, &hooks) {
            // (a routine of the layer dropped the last name of it: the close has to wait for that routine)
            thread::spawn(move || is_closed(&layer, &hooks));
        }
    }
}

/// A pointer that goes to another thread.
struct Pointer<T>(*mut T);

// SAFETY: what it points to may go to another thread.
unsafe impl<T> Send for Pointer<T> {}

fn is_closed(layer: &Pointer<vlm_sys::threads::Layer>, hooks: &Pointer<Hooks>) -> bool {
    // (a panic of a closure that the close drops has nowhere to go on)
    // SAFETY: the layer is open, and nobody has a name of it any more.
    let (status, _panic) = kept(|| unsafe { vlm_threads_close(layer.0) });
    if status == 1 {
        // SAFETY: the layer, which called them, is gone.
        drop(unsafe { Box::from_raw(hooks.0) });
    }
    status == 1
}

/// Gives the routines of a request to the layer, until `released`.
fn give(routines: Routines, words: &mut Request) -> *mut c_void {
    words.completion = routines.has_completion().then_some(completed as Routine);
    words.blocking = routines.has_blocking().then_some(blocking as Routine);
    words.released = Some(released);
    let context: *mut c_void = Box::into_raw(Box::new(routines)).cast();
    (words.completion_context, words.blocking_context) = (context, context);
    context
}

extern "C" fn completed(context: *mut c_void, event: *const Event) {
    // SAFETY: the context is the box of `give`, and the layer has not released it.
    guarded(|| unsafe { (*context.cast::<Routines>()).complete(&*event) });
}

extern "C" fn blocking(context: *mut c_void, event: *const Event) {
    // SAFETY: as above.
    guarded(|| unsafe { (*context.cast::<Routines>()).block(&*event) });
}

extern "C" fn released(context: *mut c_void, _: *mut c_void) {
    // SAFETY: the context is the box of `give`, and nobody uses it any more.
    let routines = *unsafe { Box::from_raw(context.cast::<Routines>()) };
    // (one by one: a second panic during the first would abort)
    guarded(|| drop(routines.completion));
    guarded(|| drop(routines.blocking));
}

extern "C" fn told_deadlock(context: *mut c_void, deadlock: *const Deadlock) {
    // SAFETY: the context is the hooks of the layer, which live as long as it.
    guarded(|| unsafe { (*context.cast::<Hooks>()).tell_deadlock(&*deadlock) });
}

extern "C" fn told_wait(context: *mut c_void, wait: *const Wait) {
    // SAFETY: as above.
    guarded(|| unsafe { (*context.cast::<Hooks>()).tell_wait(&*wait) });
}

extern "C" fn read<T, F: FnOnce(&LockManager) -> T>(context: *mut c_void, handle: *mut Vlm) {
    guarded(|| {
        // SAFETY: the context is the pair of `look`. A `LockManager` is a handle and nothing else.
        let (look, manager) = unsafe {
            (
                &mut *context.cast::<(Option<F>, Option<T>)>(),
                &*handle.cast_const().cast::<LockManager>(),
            )
        };
        look.1 = look.0.take().map(|reader| reader(manager));
    });
}

/// What a call of the library prints to a stream. Nothing without memory.
fn printed(print: impl FnOnce(*mut File)) -> String {
    let (mut text, mut len) = (null_mut(), 0);
    // SAFETY: the stream is closed before its text is read, and the text is freed once.
    unsafe {
        let file = open_memstream(&mut text, &mut len);
        if file.is_null() {
            return String::new();
        }
        print(file);
        fclose(file);
        let bytes = std::slice::from_raw_parts(text.cast::<u8>(), len);
        let told = String::from_utf8_lossy(bytes).into_owned();
        free(text.cast());
        told
    }
}

/// Defines texts that the library prints of a struct.
macro_rules! texts {
    ($($name:ident($kind:ty) = $call:ident;)*) => { $(
        pub fn $name(words: &$kind) -> String {
            printed(|file| {
                // SAFETY: the words are initialized, and the stream is open.
                unsafe { $call(words, file) };
            })
        }
    )* };
}

texts! {
    wait_text(Wait) = vlm_threads_print_wait;
    deadlock_text(Deadlock) = vlm_threads_print_deadlock;
    counters_text(Counters) = vlm_threads_print;
    prometheus_text(Counters) = vlm_threads_print_prometheus;
}
