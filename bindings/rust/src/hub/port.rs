//! A node's end of a hub: posts and items.

use super::answers::Answer;
use super::raw;
use crate::condition::{answered, Error};
use crate::names::{ProcessId, Which};
use crate::requests::{Declaration, Dequeue, Request, Setting};
use crate::views::Ast;

/// The port of a node: it posts steps of the node, and takes items. No call waits or takes memory.
///
/// A post fails by `Full` if the port knows no free place, and by BADPARAM if it is a step of another node: a
/// declaration for that node, or a step of its process. A port may go to another thread, and live longer than its hub:
/// nobody answers it then.
///
/// ```compile_fail
/// fn shared<T: Sync>(_: T) {}
/// shared(vlm::hub::Hub::new(1).unwrap().port(1));
/// ```
pub struct Port {
    handle: raw::Port,
}

impl Port {
    pub(super) fn of(handle: raw::Port) -> Port {
        Port { handle }
    }

    /// Its node, 1 to 8.
    pub fn node(&self) -> u8 {
        self.handle.node() as u8
    }

    /// Posts a declaration of a process. [`Answer::process`] reads its answer.
    pub fn declare(&mut self, declaration: &Declaration) -> Result<(), Error> {
        posted(self.handle.declare(&declaration.words()))
    }

    /// Posts a setting of the value part of a status block. [`Answer::done`] reads its answer.
    pub fn set_value(&mut self, setting: &Setting) -> Result<(), Error> {
        posted(self.handle.set_value(&setting.words()))
    }

    /// Posts a request for a new lock ($ENQ). [`Answer::accepted`] reads its answer.
    pub fn enq(&mut self, request: &Request, name: &[u8]) -> Result<(), Error> {
        posted(self.handle.enq(&request.words(request.parent), name))
    }

    /// Posts a request for another mode of a lock ($ENQ with CONVERT). [`Answer::accepted`] reads its answer.
    pub fn convert(&mut self, request: &Request, lock: impl Into<Which>) -> Result<(), Error> {
        posted(self.handle.convert(&request.words(Some(lock.into()))))
    }

    /// Posts that a lock is given up ($DEQ): what [`Port::dequeue`] does without flags and without a value.
    pub fn deq(&mut self, process: ProcessId, lock: impl Into<Which>) -> Result<(), Error> {
        self.dequeue(&Dequeue::new(process, Some(lock.into())))
    }

    /// Posts that locks are given up, or a request is cancelled ($DEQ). [`Answer::done`] reads its answer.
    pub fn dequeue(&mut self, dequeue: &Dequeue) -> Result<(), Error> {
        posted(self.handle.deq(&dequeue.words()))
    }

    /// Posts the end of a process. [`Answer::done`] reads its answer.
    pub fn rundown(&mut self, process: ProcessId) -> Result<(), Error> {
        posted(self.handle.rundown(process.0))
    }

    /// Posts a search for a deadlock. [`Answer::victim`] reads its answer.
    pub fn search(&mut self) -> Result<(), Error> {
        posted(self.handle.search())
    }

    /// Posts the departure of the node, with all its processes. [`Answer::done`] reads its answer.
    pub fn bye(&mut self) -> Result<(), Error> {
        posted(self.handle.bye())
    }

    /// Takes the next item, if the port knows of one.
    ///
    /// ```
    /// use vlm::hub::{Hub, Item};
    ///
    /// # fn main() -> Result<(), Box<dyn std::error::Error>> {
    /// let mut hub = Hub::new(1)?;
    /// let mut port = hub.port(1)?;
    /// port.search()?;
    /// assert_eq!(port.take(), None);
    /// assert_eq!(hub.turn()?, 1);
    /// match port.take() {
    ///     Some(Item::Answer(answer)) => assert_eq!(answer.victim(), Ok(None)),
    ///     other => println!("{other:?}"),
    /// }
    /// # Ok(())
    /// # }
    /// ```
    pub fn take(&mut self) -> Option<Item> {
        let mut words = raw::Item::new();
        answered(self.handle.take(&mut words)).ok()?;
        Item::of(&words)
    }

    /// How many items have come that nobody has taken.
    pub fn waiting(&self) -> usize {
        let mut items = 0;
        // (only a closed handle refuses it, and this one is open)
        let _ = answered(self.handle.waiting(&mut items));
        items
    }
}

/// An item for a node.
#[derive(Clone, Copy, Debug, PartialEq, Eq)]
#[non_exhaustive]
pub enum Item {
    /// The answer to the oldest post that had no answer yet.
    Answer(Answer),
    /// An AST of one of the node's processes. The program calls the routine. A completion AST says that a request has
    /// ended. Its status block says how: the hub's thread reads it by [`Hub::block`](super::Hub::block).
    Ast {
        /// The process.
        process: ProcessId,
        /// The AST.
        ast: Ast,
    },
}

impl Item {
    /// The item of these words. None where there was no item.
    fn of(words: &raw::Item) -> Option<Item> {
        match words.kind {
            1 => Some(Item::Answer(Answer::of_item(words))),
            2 => Some(Item::Ast {
                process: ProcessId(words.pid),
                ast: Ast::of(&words.ast)?,
            }),
            _ => None,
        }
    }
}

/// The answer of a post.
fn posted(status: u32) -> Result<(), Error> {
    answered(status).map(drop)
}
