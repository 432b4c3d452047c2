//! Threads make any calls, with routines that call too: nothing hangs, and nothing is left.

use std::sync::atomic::{AtomicBool, AtomicU64, Ordering::SeqCst};
use std::sync::Arc;
use std::thread;
use std::time::Duration;

use vlm::{
    Client, DeqFlags, Dequeue, EnqFlags, Error, Guard, Mode, Options, ProcessId, Shared, Terms,
};

const THREADS: u64 = 4;
const CALLS: u64 = 3_000;
const MODES: [Mode; 6] = [Mode::Nl, Mode::Cr, Mode::Cw, Mode::Pr, Mode::Pw, Mode::Ex];
const NAMES: [&[u8]; 3] = [b"A", b"B", b"C"];

/// Numbers of a linear congruential generator.
struct Numbers(u64);

impl Numbers {
    fn below(&mut self, limit: u64) -> u64 {
        self.0 = self
            .0
            .wrapping_mul(6_364_136_223_846_793_005)
            .wrapping_add(1_442_695_040_888_963_407);
        (self.0 >> 33) % limit
    }

    fn one_of<T: Copy>(&mut self, all: &[T]) -> T {
        all[self.below(all.len() as u64) as usize]
    }
}

/// A thread with the guards that it holds.
struct Caller {
    shared: Shared,
    process: ProcessId,
    numbers: Numbers,
    guards: Vec<Guard>,
    told: Arc<AtomicU64>,
}

fn declared(shared: &Shared, node: u8) -> Result<ProcessId, Error> {
    shared.declare(&Client {
        node,
        quota: 20,
        requests: 3,
        ..Client::default()
    })
}

impl Caller {
    fn terms(&mut self) -> Terms {
        let longest = Duration::from_micros(self.numbers.below(300));
        let flags = self.numbers.one_of(&[
            EnqFlags::default(),
            EnqFlags::NOQUEUE,
            EnqFlags::WIDE,
            EnqFlags::QUECVT,
        ]);
        let terms = Terms::new().flags(flags).within(longest);
        let terms = match self.guards.last() {
            Some(guard) if self.numbers.below(4) == 0 => terms.below(guard),
            _ => terms,
        };
        let (told, shared) = (Arc::clone(&self.told), self.shared.clone());
        match self.numbers.below(3) {
            0 => terms,
            1 => terms.blocking(move |_| {
                told.fetch_add(1, SeqCst);
            }),
            _ => terms.blocking(move |event| {
                told.fetch_add(1, SeqCst);
                let _ = shared.deq(event.process, event.lock);
            }),
        }
    }

    fn call(&mut self) {
        let (name, mode, terms) = (
            self.numbers.one_of(&NAMES),
            self.numbers.one_of(&MODES),
            self.terms(),
        );
        let count = self.guards.len() as u64;
        match self.numbers.below(12) {
            0..=3 => self
                .guards
                .extend(self.shared.lock_with(self.process, name, mode, terms)),
            4 | 5 if count > 0 => {
                let guard = &mut self.guards[self.numbers.below(count) as usize];
                guard.write([1; 16]);
                let _ = guard.convert_with(mode, terms);
            }
            6 | 7 if count > 0 => drop(self.guards.swap_remove(self.numbers.below(count) as usize)),
            8 => {
                let (told, shared) = (Arc::clone(&self.told), self.shared.clone());
                let _ = self
                    .shared
                    .start(self.process, name, mode, terms, move |event| {
                        told.fetch_add(1, SeqCst);
                        let _ = shared.deq(event.process, event.lock);
                    });
            }
            9 => drop(self.shared.search()),
            10 => {
                let flags = DeqFlags::DEQALL;
                let lock = self.guards.last().map(|guard| guard.lock().into());
                let _ = self.shared.dequeue(&Dequeue {
                    flags,
                    ..Dequeue::new(self.process, lock)
                });
            }
            _ if self.numbers.below(20) == 0 => {
                let _ = self.shared.rundown(self.process);
                self.process = declared(&self.shared, 1).expect("a process");
            }
            _ => {}
        }
    }
}

#[test]
fn any_calls_leave_nothing() {
    let shared = Options::new().by_program().open().expect("memory");
    let (told, has_ended) = (Arc::new(AtomicU64::new(0)), AtomicBool::new(false));
    thread::scope(|scope| {
        let callers: Vec<_> = (0..THREADS)
            .map(|seed| {
                let (shared, told) = (shared.clone(), Arc::clone(&told));
                let process = declared(&shared, 1).expect("a process");
                let mut caller = Caller {
                    shared,
                    process,
                    numbers: Numbers(seed),
                    guards: Vec::new(),
                    told,
                };
                scope.spawn(move || {
                    (0..CALLS).for_each(|_| caller.call());
                    let _ = caller.shared.rundown(caller.process);
                })
            })
            .collect();
        scope.spawn(|| {
            while !has_ended.load(SeqCst) {
                if shared.deliver() == Ok(0) {
                    thread::yield_now();
                }
            }
        });
        for caller in callers {
            caller.join().expect("a thread");
        }
        has_ended.store(true, SeqCst);
    });
    while shared.deliver() != Ok(0) {}
    assert_eq!(
        shared.look(|manager| (manager.resource_count(), manager.process_count())),
        (0, 0)
    );
    assert!(told.load(SeqCst) > 0);
    assert_eq!(Arc::strong_count(&told), 1, "all routines are gone");
}
