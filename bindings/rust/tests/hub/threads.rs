//! Hubs whose nodes are threads.

use std::sync::atomic::{AtomicU64, Ordering::SeqCst};
use std::thread;

use vlm::hub::{Hub, Journal};
use vlm::LockManager;

use crate::twins::replayed;

#[path = "../../examples/hub_node/mod.rs"]
mod hub_node;

use hub_node::Node;

const NODES: u8 = 8;
const ROUNDS: u64 = 100;

/// Adds to the counter, which is right only if nobody else does so meanwhile.
fn count(mut node: Node, counter: &AtomicU64) {
    for _ in 0..ROUNDS {
        let lock = node.lock(b"counter").expect("a lock");
        let counted = counter.load(SeqCst);
        thread::yield_now();
        counter.store(counted + 1, SeqCst);
        node.unlock(lock).expect("a step");
    }
    node.lock(&[node.number()]).expect("a lock");
}

/// Eight threads count. Returns the parts of the journal.
fn parts_of_a_run(counter: &AtomicU64) -> Vec<Journal> {
    let mut hub = Hub::new(NODES).expect("memory");
    let mut parts = Vec::new();
    let ports: Vec<_> = (1..=NODES)
        .map(|node| hub.port(node).expect("a port"))
        .collect();
    thread::scope(|scope| {
        let threads: Vec<_> = ports
            .into_iter()
            .map(|port| scope.spawn(move || count(Node::new(port).expect("a process"), counter)))
            .collect();
        while threads.iter().any(|thread| !thread.is_finished()) {
            if hub.turn().expect("memory") == 0 {
                thread::yield_now();
            }
            if hub.entries().len() > 100 {
                parts.push(hub.cut().expect("memory"));
            }
        }
    });
    parts.push(hub.cut().expect("memory"));
    parts
}

#[test]
fn eight_threads_count_under_a_lock() {
    let counter = AtomicU64::new(0);
    let parts = parts_of_a_run(&counter);
    assert_eq!(counter.into_inner(), u64::from(NODES) * ROUNDS);
    let mut base = 0;
    let mut manager = LockManager::new().expect("memory");
    for part in &parts {
        assert_eq!(part.base, base);
        base += part.entries.len() as u64;
        replayed(part, &mut manager);
    }
    assert!(parts.len() > 1);
    assert_eq!(manager.process_count(), usize::from(NODES));
    assert_eq!(
        (manager.lock_count(), manager.queued_count()),
        (usize::from(NODES), 0)
    );
}

#[test]
fn a_hub_is_dropped_while_ports_post() {
    for _ in 0..20 {
        let mut hub = Hub::new(NODES).expect("memory");
        let threads: Vec<_> = (1..=NODES)
            .map(|node| {
                let mut port = hub.port(node).expect("a port");
                thread::spawn(move || {
                    for _ in 0..1000 {
                        // (a full ring is no fault here)
                        let _ = port.search();
                        port.take();
                    }
                })
            })
            .collect();
        for _ in 0..50 {
            hub.turn().expect("memory");
        }
        drop(hub);
        for thread in threads {
            thread.join().expect("a node");
        }
    }
}
