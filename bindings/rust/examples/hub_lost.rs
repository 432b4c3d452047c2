//! A node is lost while others go on. Three nodes count under a lock at EX, each in a thread of its own. The thread of
//! node 2 ends while it holds the lock. The hub's thread sees that and tells the hub, which ends the node's process. So
//! the lock is free, and the other nodes count to their end.

mod hub_node;

use std::sync::atomic::{AtomicU64, Ordering::SeqCst};
use std::thread::{self, ScopedJoinHandle};

use hub_node::{Failure, Node};
use vlm::hub::{Hub, Port};

const NODES: u8 = 3;
const LOST: u8 = 2;
const ROUNDS: u64 = 200;

/// Counts under the lock. The thread of the lost node ends half-way, with the lock.
fn count(port: Port, counter: &AtomicU64) -> Result<(), Failure> {
    let mut node = Node::new(port)?;
    for round in 1..=ROUNDS {
        let lock = node.lock(b"counter")?;
        // (it is no atomic addition: the lock is what keeps it right)
        counter.store(counter.load(SeqCst) + 1, SeqCst);
        if node.number() == LOST && round == ROUNDS / 2 {
            return Ok(());
        }
        node.unlock(lock)?;
    }
    Ok(())
}

/// Makes turns until all threads have ended. Tells the hub of the lost one.
fn serve<T>(hub: &mut Hub, threads: &[ScopedJoinHandle<'_, T>]) -> Result<(), Failure> {
    let lost = &threads[usize::from(LOST) - 1];
    let mut is_told = false;
    while threads.iter().any(|thread| !thread.is_finished()) {
        if lost.is_finished() && !is_told {
            hub.lost(LOST)?;
            is_told = true;
        }
        if hub.turn()? == 0 {
            thread::yield_now();
        }
    }
    Ok(())
}

/// Runs the nodes. Returns what they have counted.
pub fn run() -> Result<u64, Failure> {
    let counter = AtomicU64::new(0);
    let mut hub = Hub::new(NODES)?;
    thread::scope(|scope| {
        let mut threads = Vec::new();
        for node in 1..=NODES {
            let port = hub.port(node)?;
            threads.push(scope.spawn(|| count(port, &counter)));
        }
        serve(&mut hub, &threads)?;
        for thread in threads {
            thread.join().expect("a node")?;
        }
        Ok::<_, Failure>(())
    })?;
    Ok(counter.into_inner())
}

fn main() -> Result<(), Failure> {
    println!("node {LOST} was lost with the lock");
    println!("the others went on: all have counted to {}", run()?);
    Ok(())
}
