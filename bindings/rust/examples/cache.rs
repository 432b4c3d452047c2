//! A cache protocol of eight threads. Each has a process of its own, and a lock on one resource.
//!
//! A reader holds PR and a cached version, which it uses without asking anybody. A blocking routine tells it to give
//! way. A writer takes EX, and with it the last version from the value block. It hands the next version over in the
//! value block.
//!
//! Between turns all hold NL, which keeps the resource and its value block. With QUECVT a conversion queues behind
//! those that wait, so readers cannot keep a writer out.

use std::sync::atomic::{AtomicBool, AtomicU64, Ordering::SeqCst};
use std::sync::mpsc::{channel, Receiver};
use std::sync::Barrier;
use std::thread;
use std::time::Duration;

use vlm::{Client, EnqFlags, Error, Guard, Mode, Shared, Terms};

const READERS: usize = 6;
const WRITERS: usize = 2;
const UPDATES: u64 = 200;
const LONGEST: Duration = Duration::from_secs(30);
const TURN: Duration = Duration::from_millis(10);

/// What a run has counted.
#[derive(Debug, Default, PartialEq, Eq)]
pub struct Counts {
    /// The version in the value block at the end.
    pub last: u64,
    /// Updates that did not begin with the stored version.
    pub lost: u64,
    /// Uses of a cached version that was not the stored one.
    pub stale: u64,
    /// Readers that never gave way.
    pub stubborn: u64,
    /// Resources that are left.
    pub resources: usize,
}

/// What all threads share.
struct Cache {
    shared: Shared,
    /// What the lock guards.
    stored: AtomicU64,
    /// Where writers wait until each reader holds PR.
    begins: Barrier,
    has_ended: AtomicBool,
}

/// The version in the value block, as it was at the grant.
fn version_in(guard: &Guard) -> u64 {
    let mut bytes = [0; 8];
    let value = guard.value().unwrap_or_default();
    bytes.copy_from_slice(&value[..8]);
    u64::from_le_bytes(bytes)
}

fn value_of(version: u64) -> [u8; 16] {
    u128::from(version).to_le_bytes()
}

fn queued() -> Terms {
    Terms::new().flags(EnqFlags::QUECVT).within(LONGEST)
}

impl Cache {
    /// A lock at NL of a new process. Its blocking routine rings.
    fn lock(&self) -> Result<(Guard, Receiver<()>), Error> {
        let (ring, bell) = channel();
        let declaration = Client {
            quota: 1,
            requests: 1,
            ..Client::default()
        };
        let process = self.shared.declare(&declaration)?;
        let terms = Terms::new().flags(EnqFlags::VALBLK).blocking(move |_| {
            // (a reader that has ended does not listen)
            let _ = ring.send(());
        });
        let guard = self.shared.lock_with(process, b"cache", Mode::Nl, terms)?;
        Ok((guard, bell))
    }

    /// Reads until the writers have ended. Counts the stale reads, and how often it gave way.
    fn read(&self) -> Result<(u64, u64), Error> {
        let (mut stale, mut gave_way) = (0, 0);
        let (mut guard, bell) = self.lock()?;
        guard.convert(Mode::Pr)?;
        self.begins.wait();
        while !self.has_ended.load(SeqCst) {
            let cached = version_in(&guard);
            let mut is_told = false;
            while !is_told && !self.has_ended.load(SeqCst) {
                stale += u64::from(cached != self.stored.load(SeqCst));
                is_told = bell.recv_timeout(TURN).is_ok();
            }
            gave_way += u64::from(is_told);
            guard.convert(Mode::Nl)?;
            guard.convert_with(Mode::Pr, queued())?;
        }
        Ok((stale, gave_way))
    }

    /// Makes new versions. Counts the lost updates.
    fn write(&self) -> Result<u64, Error> {
        let mut lost = 0;
        let (mut guard, _) = self.lock()?;
        self.begins.wait();
        for _ in 0..UPDATES {
            guard.convert_with(Mode::Ex, queued())?;
            let last = version_in(&guard);
            let is_lost = !guard.is_valid() || last != self.stored.load(SeqCst);
            lost += u64::from(is_lost);
            self.stored.store(last + 1, SeqCst);
            guard.write(value_of(last + 1));
            guard.convert(Mode::Nl)?;
        }
        Ok(lost)
    }

    /// Runs all threads until the writers have ended.
    fn run_all(&self, counts: &mut Counts) -> Result<(), Error> {
        thread::scope(|scope| {
            let readers: Vec<_> = (0..READERS).map(|_| scope.spawn(|| self.read())).collect();
            let writers: Vec<_> = (0..WRITERS).map(|_| scope.spawn(|| self.write())).collect();
            for writer in writers {
                counts.lost += writer.join().expect("a writer")?;
            }
            self.has_ended.store(true, SeqCst);
            for reader in readers {
                let (stale, gave_way) = reader.join().expect("a reader")?;
                counts.stale += stale;
                counts.stubborn += u64::from(gave_way == 0);
            }
            Ok(())
        })
    }
}

/// Runs the protocol.
pub fn run() -> Result<Counts, Error> {
    let cache = Cache {
        shared: Shared::new()?,
        stored: AtomicU64::new(0),
        begins: Barrier::new(READERS + WRITERS),
        has_ended: AtomicBool::new(false),
    };
    let mut counts = Counts::default();
    let (mut guard, _) = cache.lock()?;
    cache.run_all(&mut counts)?;
    guard.convert(Mode::Pr)?;
    counts.last = version_in(&guard);
    guard.release()?;
    counts.resources = cache.shared.look(|manager| manager.resource_count());
    Ok(counts)
}

fn main() -> Result<(), Error> {
    let counts = run()?;
    let updates = WRITERS as u64 * UPDATES;
    println!(
        "{updates} updates, the last version is {}, {} updates were lost",
        counts.last, counts.lost
    );
    println!("{} stale reads", counts.stale);
    println!("{} readers never gave way", counts.stubborn);
    println!("{} resources left", counts.resources);
    Ok(())
}
