//! A hub and a lock manager that make the same steps.

use vlm::hub::{Journal, Port};
use vlm::Error;
use vlm::{
    DeqFlags, Dequeue, EnqFlags, Lock, LockId, LockManager, Mode, Process, ProcessId, Queue,
    Request, Resource, Setting, StatusBlock, Which,
};

use crate::pair::{declaration, Pair};

/// All that a lock manager has.
#[derive(Debug, PartialEq, Eq)]
pub struct Picture {
    processes: Vec<Process>,
    blocks: Vec<StatusBlock>,
    resources: Vec<Resource>,
    rows: Vec<Lock>,
}

pub fn picture(manager: &LockManager) -> Picture {
    let blocks_of = |process: Process| {
        (1..=process.blocks).filter_map(move |number| manager.block(process.id, number))
    };
    let rows_of = |resource: Resource| {
        let queues = [Queue::Granted, Queue::Conversion, Queue::Waiting];
        queues
            .map(|queue| manager.rows(&resource, queue))
            .into_iter()
            .flatten()
    };
    Picture {
        processes: manager.processes().collect(),
        blocks: manager.processes().flat_map(blocks_of).collect(),
        resources: manager.resources().collect(),
        rows: manager.resources().flat_map(rows_of).collect(),
    }
}

/// Makes the steps of a part.
pub fn replayed(part: &Journal, manager: &mut LockManager) {
    for (place, entry) in part.iter().enumerate() {
        assert_eq!(entry.replay(manager), Ok(()), "{place}: {entry:?}");
    }
}

/// A hub, and a lock manager in which the same steps are made.
pub struct Twins {
    pub pair: Pair,
    pub manager: LockManager,
}

impl Twins {
    fn both<T>(
        &mut self,
        node: u8,
        post: impl FnOnce(&mut Port) -> Result<(), Error>,
        make: impl FnOnce(&mut LockManager) -> Result<T, Error>,
    ) {
        let answer = self.pair.made(node, post);
        assert_eq!(answer.done(), make(&mut self.manager).map(drop));
        while self.pair.hub.turn() != Ok(0) {}
        while self.manager.take_any().expect("a lock manager").is_some() {}
    }

    fn declare(&mut self, node: u8) -> ProcessId {
        let declaration = declaration(node);
        self.both(
            node,
            |port| port.declare(&declaration),
            |manager| manager.declare(&declaration),
        );
        self.manager.processes().last().expect("a process").id
    }

    fn enq(&mut self, node: u8, request: Request, name: &[u8]) {
        self.both(
            node,
            |port| port.enq(&request, name),
            |manager| manager.enq(&request, name),
        );
    }

    fn convert(&mut self, node: u8, request: Request, lock: Which) {
        self.both(
            node,
            |port| port.convert(&request, lock),
            |manager| manager.convert(&request, lock),
        );
    }

    fn dequeue(&mut self, node: u8, dequeue: Dequeue) {
        self.both(
            node,
            |port| port.dequeue(&dequeue),
            |manager| manager.dequeue(&dequeue),
        );
    }

    /// Sets a value, takes a lock below another one, and writes a value block.
    fn write_below(&mut self, process: ProcessId) {
        self.both(
            1,
            |port| port.set_value(&setting(process)),
            |manager| manager.set_value(&setting(process)),
        );
        self.enq(1, full(process, Mode::Cr), b"A");
        self.enq(1, below(process, LockId(1)), b"\0\xff");
        self.dequeue(1, writing(process, BLOCK));
    }

    /// Two conversions wait for each other, until a search ends the later one.
    fn meet_a_deadlock(&mut self, p: ProcessId, q: ProcessId) {
        let root = LockId(1).into();
        self.enq(2, full(q, Mode::Pr), b"A");
        self.convert(1, full(p, Mode::Pr), root);
        self.convert(1, full(p, Mode::Ex), root);
        self.convert(2, full(q, Mode::Ex), BLOCK);
        self.both(2, Port::search, |manager| manager.search(2));
        let cancel = Dequeue {
            flags: DeqFlags::CANCEL,
            ..Dequeue::new(p, Some(root))
        };
        self.dequeue(1, cancel);
    }

    /// Steps that are refused.
    fn refuse(&mut self, process: ProcessId) {
        self.enq(1, below(process, LockId(1)), b"C");
        self.enq(1, full(process, Mode::Ex), &[b'x'; 40]);
        self.dequeue(1, Dequeue::new(process, None));
    }
}

/// The first status block of a process.
pub const BLOCK: Which = Which::Block(1);

/// A request with all that a request can have.
pub fn full(process: ProcessId, mode: Mode) -> Request {
    Request {
        flags: EnqFlags::VALBLK | EnqFlags::WIDE,
        completion: Some(8),
        blocking: Some(9),
        param: 10,
        ..Request::new(process, mode, 1)
    }
}

/// The same, below a parent lock.
fn below(process: ProcessId, parent: LockId) -> Request {
    Request {
        parent: Some(parent.into()),
        ..full(process, Mode::Ex)
    }
}

pub fn setting(process: ProcessId) -> Setting {
    Setting {
        process,
        block: 2,
        value: [5; 16],
        tail: Some([6; 48]),
    }
}

pub fn writing(process: ProcessId, lock: Which) -> Dequeue {
    Dequeue {
        value: Some([1; 16]),
        tail: Some([2; 48]),
        ..Dequeue::new(process, Some(lock))
    }
}

/// Makes each kind of step except a departure. Leaves two processes with locks, requests and values.
pub fn steps() -> Twins {
    let mut twins = Twins {
        pair: Pair::new(),
        manager: LockManager::new().expect("memory"),
    };
    let (p, q, gone) = (twins.declare(1), twins.declare(2), twins.declare(1));
    twins.write_below(p);
    twins.meet_a_deadlock(p, q);
    twins.refuse(gone);
    twins.both(
        1,
        |port| port.rundown(gone),
        |manager| manager.rundown(gone),
    );
    twins.enq(2, full(q, Mode::Ex), b"A");
    twins.enq(1, full(p, Mode::Cr), b"B");
    twins
}
