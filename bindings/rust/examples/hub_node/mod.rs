//! A node for the examples of a hub: its thread posts a step, and takes items until the step is answered.

use std::collections::HashSet;
use std::error::Error;
use std::thread;

use vlm::hub::{Answer, Item, Port};
use vlm::{AstKind, Declaration, LockId, Mode, ProcessId, Request};

pub type Failure = Box<dyn Error + Send + Sync>;

/// The port of a node, with a process of it.
pub struct Node {
    port: Port,
    process: ProcessId,
    // Locks whose completion AST has come and is not waited for yet.
    ended: HashSet<LockId>,
}

impl Node {
    /// Declares the process.
    pub fn new(port: Port) -> Result<Node, Failure> {
        let mut node = Node {
            port,
            // (the answer has the real one)
            process: ProcessId(0),
            ended: HashSet::new(),
        };
        node.port.declare(&Declaration {
            node: node.number(),
            quota: 9,
            blocks: 1,
            ..Declaration::default()
        })?;
        node.process = node.answer().process()?;
        Ok(node)
    }

    /// The number of the node.
    pub fn number(&self) -> u8 {
        self.port.node()
    }

    /// Asks for EX on a resource and waits for the end of the request. It is a grant: nobody cancels it here.
    pub fn lock(&mut self, name: &[u8]) -> Result<LockId, Failure> {
        let request = Request {
            completion: Some(0),
            ..Request::new(self.process, Mode::Ex, 1)
        };
        self.port.enq(&request, name)?;
        let lock = self.answer().accepted()?.lock;
        while !self.ended.remove(&lock) {
            // (each post has its answer, so only ASTs come)
            self.item();
        }
        Ok(lock)
    }

    /// Gives a lock up.
    pub fn unlock(&mut self, lock: LockId) -> Result<(), Failure> {
        self.port.deq(self.process, lock)?;
        Ok(self.answer().done()?)
    }

    /// Takes items until an answer comes.
    fn answer(&mut self) -> Answer {
        loop {
            if let Some(answer) = self.item() {
                return answer;
            }
        }
    }

    /// Takes an item, if one has come. Returns it if it is an answer, and notes a completion.
    fn item(&mut self) -> Option<Answer> {
        match self.port.take() {
            Some(Item::Answer(answer)) => return Some(answer),
            Some(Item::Ast { ast, .. }) if ast.kind == AstKind::Completion => {
                self.ended.insert(ast.lock);
            }
            Some(_) => {}
            None => thread::yield_now(),
        }
        None
    }
}
