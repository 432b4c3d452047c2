//! A hub: threads of several nodes share one lock manager, and no call of a node waits.
//!
//! The hub's thread owns the lock manager. Each node has a [`Port`], for a thread of its own. It posts steps, and takes
//! items: the answers to its posts, in their order, and the ASTs of its processes. The hub makes the steps in turns,
//! and writes each of them into a journal. Nothing wakes a thread: one that finds nothing to do yields or sleeps.
//! docs/HUB.md of the repository has more.
//!
//! ```
//! use std::thread;
//! use vlm::hub::{Hub, Item};
//! use vlm::Declaration;
//!
//! # fn main() -> Result<(), Box<dyn std::error::Error>> {
//! let mut hub = Hub::new(2)?;
//! let mut port = hub.port(1)?;
//! let node = thread::spawn(move || {
//!     let declaration = Declaration { node: 1, quota: 9, blocks: 1, ..Declaration::default() };
//!     port.declare(&declaration).expect("a place");
//!     loop {
//!         match port.take() {
//!             Some(Item::Answer(answer)) => return answer.process(),
//!             Some(other) => println!("{other:?}"),
//!             None => thread::yield_now(),
//!         }
//!     }
//! });
//! while !node.is_finished() {
//!     if hub.turn()? == 0 {
//!         thread::yield_now();
//!     }
//! }
//! assert!(node.join().expect("the thread").is_ok());
//! # Ok(())
//! # }
//! ```

mod answers;
mod journal;
mod port;
#[allow(unsafe_code)]
mod raw;
mod steps;
#[cfg(test)]
mod tests;

use std::error;
use std::fmt;

pub use answers::Answer;
pub use journal::{Difference, Entries, Entry, Journal};
pub use port::{Item, Port};
pub use steps::{Name, Step};

use crate::condition::{answered, Error};
use crate::manager::random_keys;
use crate::names::ProcessId;
use crate::raw::Lksb;
use crate::views::StatusBlock;

/// A hub with its lock manager and its journal. Two hubs share nothing. A hub may go to another thread.
///
/// Dropping it frees both. A port that it has given lives on, and nobody answers it.
///
/// ```compile_fail
/// fn shared<T: Sync>(_: T) {}
/// shared(vlm::hub::Hub::new(1));
/// ```
pub struct Hub {
    handle: raw::Hub,
}

impl Hub {
    /// A hub of 1 to 8 nodes. Its lock manager hashes names by random keys, as that of
    /// [`LockManager::new`](crate::LockManager::new). INSFMEM; BADPARAM for another number of nodes.
    pub fn new(nodes: u8) -> Result<Hub, Error> {
        Hub::with_keys(nodes, random_keys())
    }

    /// The same, with these keys.
    pub fn with_keys(nodes: u8, keys: [u8; 16]) -> Result<Hub, Error> {
        let handle = raw::Hub::open(u32::from(nodes), keys)?;
        Ok(Hub { handle })
    }

    /// The port of a node. The hub gives it once. BADPARAM: there is no such node, or its port was given before.
    /// INSFMEM: the hub still has the port.
    pub fn port(&mut self, node: u8) -> Result<Port, Error> {
        self.handle.port(u32::from(node)).map(Port::of)
    }

    /// Attends to each node once: it sends one of the node's pending ASTs, then makes and answers one of its posts. It
    /// does each only if the node's port has room for the item. Returns how many entries it made: 0 says that there was
    /// nothing to do. It never waits.
    pub fn turn(&mut self) -> Result<usize, TurnError> {
        let mut made = 0;
        match answered(self.handle.turn(&mut made)) {
            Ok(_) => Ok(made),
            Err(condition) => Err(TurnError { condition, made }),
        }
    }

    /// Lets a node depart whose thread is gone. All its processes end, and its later posts are answered DEPARTED.
    /// DEPARTED: it had departed before. INSFMEM: nothing is changed. BADPARAM: the node is not 1 to 8.
    pub fn lost(&mut self, node: u8) -> Result<(), Error> {
        answered(self.handle.lost(u32::from(node)))?;
        Ok(())
    }

    /// How many posts of a node the hub has not made. BADPARAM: the hub has no such node.
    pub fn waiting(&self, node: u8) -> Result<usize, Error> {
        let mut posts = 0;
        answered(self.handle.waiting(u32::from(node), &mut posts))?;
        Ok(posts)
    }

    /// The status block of this number, from 1, of a process: how its request ended, and the value. The items of a node
    /// bring no status blocks, so the hub's thread reads them for the threads of ports. None where there is none.
    pub fn block(&self, process: ProcessId, number: u8) -> Option<StatusBlock> {
        let mut words = Lksb::new();
        answered(self.handle.block(process.0, u32::from(number), &mut words)).ok()?;
        Some(StatusBlock::of(&words))
    }

    /// How many nodes the hub serves.
    pub fn nodes(&self) -> u8 {
        self.handle.nodes() as u8
    }
}

/// The journal got no more memory, so a turn ended early. No post is lost: another turn may go on.
#[derive(Clone, Copy, Debug, PartialEq, Eq)]
#[non_exhaustive]
pub struct TurnError {
    /// INSFMEM.
    pub condition: Error,
    /// How many entries the turn had made.
    pub made: usize,
}

impl fmt::Display for TurnError {
    fn fmt(&self, f: &mut fmt::Formatter<'_>) -> fmt::Result {
        write!(f, "{} after {} entries", self.condition, self.made)
    }
}

impl error::Error for TurnError {}
