//! What a lock manager is opened with, and what its hooks are told.

use std::fmt;
use std::time::Duration;

use super::raw::{self, Layer};
use super::terms::{milliseconds, rounded};
use super::Shared;
use crate::condition::Error;
use crate::manager::random_keys;
use crate::names::{LockId, ProcessId};
use crate::views::Lock;

type DeadlockHook = Box<dyn Fn(&Deadlock<'_>) + Send + Sync>;
type WaitHook = Box<dyn Fn(&Wait<'_>) + Send + Sync>;

/// The closures of a layer.
#[derive(Default)]
pub struct Hooks {
    deadlock: Option<DeadlockHook>,
    long_wait: Option<WaitHook>,
}

impl Hooks {
    /// Names the hooks that are there. Whether there are any.
    pub(super) fn describe(
        &self,
        options: &mut raw::Options,
        deadlock: raw::DeadlockHook,
        long_wait: raw::WaitHook,
    ) -> bool {
        options.deadlock = self.deadlock.is_some().then_some(deadlock);
        options.long_wait = self.long_wait.is_some().then_some(long_wait);
        self.deadlock.is_some() || self.long_wait.is_some()
    }

    pub(super) fn tell_deadlock(&self, words: &raw::Deadlock) {
        self.deadlock
            .iter()
            .for_each(|hook| hook(&Deadlock { words }));
    }

    pub(super) fn tell_wait(&self, words: &raw::Wait) {
        self.long_wait.iter().for_each(|hook| hook(&Wait { words }));
    }
}

/// How a [`Shared`] is opened. Without more, a thread of its own runs the routines, and nothing searches for deadlocks.
///
/// ```
/// use std::time::Duration;
/// use vlm::Options;
///
/// # fn main() -> Result<(), vlm::Error> {
/// let shared = Options::new()
///     .search_every(Duration::from_millis(100))
///     .on_deadlock(|deadlock| eprintln!("{deadlock}"))
///     .open()?;
/// # drop(shared);
/// # Ok(())
/// # }
/// ```
#[derive(Default)]
#[must_use = "open makes the lock manager"]
pub struct Options {
    words: raw::Options,
    hooks: Hooks,
}

impl Options {
    /// The options of [`Shared::new`].
    pub fn new() -> Options {
        Options::default().keys(random_keys())
    }

    /// Hashes names by these keys, and not by random ones.
    pub fn keys(mut self, keys: [u8; 16]) -> Options {
        (self.words.has_keys, self.words.keys) = (1, keys);
        self
    }

    /// The program runs the routines, by [`Shared::deliver`].
    pub fn by_program(mut self) -> Options {
        self.words.delivery = 1;
        self
    }

    /// A thread searches for deadlocks at this interval, while a request waits.
    pub fn search_every(mut self, interval: Duration) -> Options {
        self.words.search_milliseconds = milliseconds(interval);
        self
    }

    /// A request that has waited less is no victim. While the most recent deadlocked request is that young, older
    /// deadlocks wait with it.
    pub fn victims_after(mut self, age: Duration) -> Options {
        self.words.victim_milliseconds = u32::try_from(rounded(age)).unwrap_or(u32::MAX);
        self
    }

    /// The hook is told of each deadlock before its victim ends, in the thread that searches. It may make any call. If
    /// it cancels a request of the cycle, no victim ends.
    pub fn on_deadlock(mut self, hook: impl Fn(&Deadlock<'_>) + Send + Sync + 'static) -> Options {
        self.hooks.deadlock = Some(Box::new(hook));
        self
    }

    /// The hook is told once of each wait that lasts longer than this, in a thread of the lock manager. It may make any
    /// call.
    pub fn on_long_wait(
        mut self,
        longest: Duration,
        hook: impl Fn(&Wait<'_>) + Send + Sync + 'static,
    ) -> Options {
        self.words.long_milliseconds = milliseconds(longest);
        self.hooks.long_wait = Some(Box::new(hook));
        self
    }

    /// Opens a lock manager with nothing in it. INSFMEM: memory or a thread was refused.
    pub fn open(self) -> Result<Shared, Error> {
        Layer::open(self.words, self.hooks).map(Shared::of)
    }
}

/// A request that waits, and a lock that it waits for. Displayed, it is a sentence.
#[derive(Clone, Copy)]
pub struct Wait<'a> {
    words: &'a raw::Wait,
}

impl Wait<'_> {
    /// The lock whose request waits.
    pub fn lock(&self) -> Lock {
        Lock::of(&self.words.waits)
    }

    /// The lock that it waits for, if there is one.
    pub fn blocker(&self) -> Option<Lock> {
        (self.words.blocks.lkid != 0).then(|| Lock::of(&self.words.blocks))
    }

    /// The name of the resource of both.
    pub fn name(&self) -> &[u8] {
        let name = &self.words.name;
        name.get(..self.words.name_len as usize).unwrap_or(name)
    }

    /// How long the request has waited.
    pub fn waited(&self) -> Duration {
        Duration::from_millis(self.words.milliseconds.into())
    }

    /// The labels of the process that waits and of the other one.
    pub fn labels(&self) -> [String; 2] {
        [&self.words.waits_label, &self.words.blocks_label].map(|label| {
            let text = String::from_utf8_lossy(label);
            text.trim_end_matches('\0').to_owned()
        })
    }
}

impl fmt::Display for Wait<'_> {
    fn fmt(&self, f: &mut fmt::Formatter<'_>) -> fmt::Result {
        f.write_str(raw::wait_text(self.words).trim_end())
    }
}

/// A deadlock whose victim is about to end. Displayed, it is a sentence.
pub struct Deadlock<'a> {
    words: &'a raw::Deadlock,
}

impl<'a> Deadlock<'a> {
    /// The lock whose request is the victim.
    pub fn victim(&self) -> LockId {
        LockId(self.words.victim)
    }

    /// The process of the victim.
    pub fn process(&self) -> ProcessId {
        ProcessId(self.words.pid)
    }

    /// How many waits the cycle has.
    pub fn length(&self) -> usize {
        self.words.length as usize
    }

    /// The first waits of the cycle, at most 16, the victim's first.
    pub fn waits(&self) -> impl Iterator<Item = Wait<'a>> {
        let waits = self.words.waits.iter().take(self.length());
        waits.map(|words| Wait { words })
    }
}

impl fmt::Display for Deadlock<'_> {
    fn fmt(&self, f: &mut fmt::Formatter<'_>) -> fmt::Result {
        f.write_str(raw::deadlock_text(self.words).trim_end())
    }
}
