//! A layer for threads with a process of node 1 and one of node 2.

use vlm::{Client, Options, ProcessId, Shared};

pub fn declaration(node: u8) -> Client<'static> {
    Client {
        node,
        quota: 9,
        requests: 4,
        ..Client::default()
    }
}

pub fn opened(options: Options) -> (Shared, ProcessId, ProcessId) {
    let shared = options.open().expect("memory");
    let declare = |node| shared.declare(&declaration(node)).expect("a process");
    let (p, q) = (declare(1), declare(2));
    (shared, p, q)
}
