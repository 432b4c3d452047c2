//! A hub with the ports of two nodes, all in one thread.

use vlm::hub::{Answer, Hub, Item, Port};
use vlm::Error;
use vlm::{Declaration, ProcessId};

pub fn declaration(node: u8) -> Declaration {
    Declaration {
        node,
        group: 7,
        quota: 9,
        blocks: 2,
        ..Declaration::default()
    }
}

pub struct Pair {
    pub hub: Hub,
    pub first: Port,
    pub second: Port,
}

impl Pair {
    pub fn new() -> Pair {
        let mut hub = Hub::new(2).expect("memory");
        let (first, second) = (hub.port(1), hub.port(2));
        Pair {
            hub,
            first: first.expect("a port"),
            second: second.expect("a port"),
        }
    }

    /// The same, with a process of each node.
    pub fn with_processes() -> (Pair, ProcessId, ProcessId) {
        let mut pair = Pair::new();
        let mut declare = |node| {
            let answer = pair.made(node, |port| port.declare(&declaration(node)));
            answer.process().expect("a process")
        };
        let (p, q) = (declare(1), declare(2));
        (pair, p, q)
    }

    pub fn port(&mut self, node: u8) -> &mut Port {
        match node {
            1 => &mut self.first,
            _ => &mut self.second,
        }
    }

    /// Posts a step. Returns its answer.
    pub fn made(&mut self, node: u8, post: impl FnOnce(&mut Port) -> Result<(), Error>) -> Answer {
        post(self.port(node)).expect("a place");
        self.answer(node)
    }

    /// Makes turns until a node gets an answer. ASTs before it are dropped.
    pub fn answer(&mut self, node: u8) -> Answer {
        loop {
            match self.port(node).take() {
                Some(Item::Answer(answer)) => return answer,
                Some(_) => {}
                None => assert_ne!(self.hub.turn(), Ok(0), "each post is answered"),
            }
        }
    }
}
