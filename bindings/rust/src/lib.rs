//! The lock manager of OpenVMS ($ENQ, $DEQ) for Rust programs: a safe wrapper of its proved static library.
//!
//! There are three forms of it, and [`script`] runs lines of text on the second:
//!
//! - [`Shared`] is for threads. A call waits for its grant, or a future does. A [`Guard`] gives its lock up on drop,
//!   and closures learn that a lock is in the way. It is the library's layer for threads.
//! - [`LockManager`] has the calls of the library. None of them waits: a request that has to wait stays queued, its
//!   status block tells of its end, and an AST is pending if it names a routine.
//! - [`hub`] is for threads that never wait: each posts its steps at a port of its own, and takes answers and ASTs.
//!
//! docs/LAWS.md of the repository says what is proved of the library, and include/vlm.h what each call answers. The
//! wrapper itself is Rust, and nothing of it is proved.
//!
//! ```
//! use std::time::Duration;
//! use vlm::{Client, Mode, Shared};
//!
//! # fn main() -> Result<(), vlm::Error> {
//! let shared = Shared::new()?;
//! let p = shared.declare(&Client::default())?;
//! let mut guard = shared.lock_timeout(p, b"A", Mode::Ex, Duration::from_secs(1))?;
//! guard.write(*b"the next version");
//! drop(guard);
//! # Ok(())
//! # }
//! ```
//!
//! ```
//! use vlm::{Declaration, LockManager, Mode, Request};
//!
//! # fn main() -> Result<(), vlm::Error> {
//! let mut manager = LockManager::new()?;
//! let p = manager.declare(&Declaration { node: 1, quota: 9, blocks: 1, ..Declaration::default() })?;
//! let lock = manager.enq(&Request::new(p, Mode::Ex, 1), b"A")?.lock;
//! manager.deq(p, lock)?;
//! # Ok(())
//! # }
//! ```
//!
//! ```
//! use vlm::hub::{Hub, Item};
//!
//! # fn main() -> Result<(), Box<dyn std::error::Error>> {
//! let mut hub = Hub::new(2)?;
//! let mut port = hub.port(1)?; // for the thread of node 1
//! port.search()?;
//! hub.turn()?;
//! if let Some(Item::Answer(answer)) = port.take() {
//!     println!("{:?}", answer.victim());
//! }
//! # Ok(())
//! # }
//! ```
#![deny(unsafe_code)]
#![warn(missing_docs)]

mod condition;
mod flags;
pub mod hub;
mod manager;
mod names;
mod panics;
#[allow(unsafe_code)]
mod raw;
mod readings;
mod requests;
pub mod script;
pub mod service;
mod shared;
mod views;
mod walks;

pub use condition::{Condition, Error, UnknownCondition};
pub use flags::{DeqFlags, EnqFlags};
pub use manager::LockManager;
pub use names::{Domain, LockId, Mode, ProcessId, Queue, ResourceId, Which};
pub use requests::{Accepted, Declaration, Dequeue, Request, Setting};
pub use shared::{
    Client, ConvertFuture, Counters, Deadlock, Event, Guard, LockFuture, Options, Shared, Terms,
    Wait,
};
pub use views::{Ast, AstKind, Lock, Process, Resource, StatusBlock};
pub use walks::{Locks, Processes, Resources};
