//! Each call of a hub and its ports once, with what it refuses.

mod journals;
mod pair;
mod threads;
mod twins;

use pair::{declaration, Pair};
use vlm::hub::{Hub, Item, Port};
use vlm::Error;
use vlm::{
    AstKind, Condition, DeqFlags, Dequeue, EnqFlags, LockId, Mode, ProcessId, Request, Setting,
    Which,
};

const NOBODY: ProcessId = ProcessId(0x1_0999);
/// The places between a port and its hub, each way.
const PLACES: usize = 64;
const BADPARAM: Error = Error::Badparam;

#[test]
fn hubs_and_ports_go_between_threads() {
    fn goes<T: Send>() {}
    goes::<Hub>();
    goes::<Port>();
}

#[test]
fn a_hub_has_1_to_8_nodes() {
    for nodes in [0, 9, u8::MAX] {
        assert_eq!(Hub::new(nodes).err(), Some(Error::Badparam));
    }
    for nodes in 1..=8 {
        let hub = Hub::with_keys(nodes, [7; 16]).expect("memory");
        assert_eq!((hub.nodes(), hub.entries().len()), (nodes, 0));
    }
}

#[test]
fn a_port_is_given_once() {
    let mut hub = Hub::new(2).expect("memory");
    for node in [0, 3, 9, u8::MAX] {
        assert_eq!(hub.port(node).err(), Some(Error::Badparam));
    }
    let port = hub.port(2).expect("a port");
    assert_eq!(port.node(), 2);
    assert_eq!(hub.port(2).err(), Some(Error::Badparam));
    drop(port);
    assert_eq!(hub.port(2).err(), Some(Error::Badparam));
    assert_eq!(hub.port(1).map(|port| port.node()), Ok(1));
}

#[test]
fn each_step_is_posted_and_answered() {
    let (mut pair, p, q) = Pair::with_processes();
    let setting = Setting {
        process: p,
        block: 1,
        value: [5; 16],
        tail: Some([6; 48]),
    };
    assert_eq!(pair.made(1, |port| port.set_value(&setting)).done(), Ok(()));
    let at_once = Request {
        flags: EnqFlags::SYNCSTS,
        ..Request::new(p, Mode::Ex, 1)
    };
    let accepted = pair.made(1, |port| port.enq(&at_once, b"A")).accepted();
    assert_eq!(
        accepted.map(|it| (it.lock, it.at_once)),
        Ok((LockId(1), true))
    );
    let waits = Request::new(q, Mode::Pr, 1);
    let accepted = pair.made(2, |port| port.enq(&waits, b"A")).accepted();
    assert_eq!(
        accepted.map(|it| (it.lock, it.at_once)),
        Ok((LockId(2), false))
    );
    let block = Which::Block(1);
    let weaker = Request::new(p, Mode::Pr, 1);
    let accepted = pair.made(1, |port| port.convert(&weaker, block)).accepted();
    assert_eq!(accepted.map(|it| it.lock), Ok(LockId(1)));
    assert_eq!(pair.made(1, |port| port.deq(p, block)).done(), Ok(()));
}

#[test]
fn searches_and_ends_are_posted_and_answered() {
    let (mut pair, p, q) = Pair::with_processes();
    for (node, process) in [(1, p), (2, q)] {
        let request = Request::new(process, Mode::Pr, 1);
        let accepted = pair.made(node, |port| port.enq(&request, b"A")).accepted();
        assert_eq!(accepted.map(|it| it.lock), Ok(LockId(u32::from(node))));
    }
    for (node, process, lock) in [(1, p, LockId(1)), (2, q, LockId(2))] {
        let stronger = Request::new(process, Mode::Ex, 1);
        let answer = pair.made(node, |port| port.convert(&stronger, lock));
        assert_eq!(answer.accepted().map(|it| it.lock), Ok(lock));
    }
    assert_eq!(pair.made(1, Port::search).victim(), Ok(Some(LockId(2))));
    assert_eq!(pair.made(1, Port::search).victim(), Ok(None));
    let all = Dequeue {
        flags: DeqFlags::DEQALL,
        ..Dequeue::new(q, None)
    };
    assert_eq!(pair.made(2, |port| port.dequeue(&all)).done(), Ok(()));
    assert_eq!(pair.made(1, |port| port.rundown(p)).done(), Ok(()));
    assert_eq!(pair.made(2, Port::bye).done(), Ok(()));
    let refused = pair.made(2, |port| port.rundown(q));
    assert_eq!(refused.done(), Err(Error::Departed));
}

#[test]
fn refusals_are_answers() {
    let (mut pair, p, _) = Pair::with_processes();
    let request = Request::new(p, Mode::Ex, 1);
    let nobody = Request::new(NOBODY, Mode::Ex, 1);
    for (request, name, refusal) in [
        (nobody, &b"A"[..], Error::Nonexpr),
        (request, b"", Error::Ivbuflen),
        (request, &[1; 32], Error::Ivbuflen),
        (request, &[1; 1000], Error::Ivbuflen),
    ] {
        let answer = pair.made(1, |port| port.enq(&request, name));
        assert_eq!(answer.done(), Err(refusal));
        assert_eq!(answer.accepted(), Err(refusal));
        assert_eq!(
            (answer.process(), answer.victim()),
            (Err(refusal), Err(refusal))
        );
    }
    let answer = pair.made(1, |port| port.deq(p, LockId(9)));
    assert_eq!(answer.done(), Err(Error::Ivlockid));
}

#[test]
fn steps_of_another_node_are_refused() {
    let (mut pair, p, q) = Pair::with_processes();
    let entries = pair.hub.entries().len();
    let setting = Setting {
        process: q,
        block: 1,
        value: [0; 16],
        tail: None,
    };
    let port = &mut pair.first;
    assert_eq!(port.declare(&declaration(2)), Err(BADPARAM));
    assert_eq!(port.declare(&declaration(0)), Err(BADPARAM));
    assert_eq!(port.set_value(&setting), Err(BADPARAM));
    let request = Request::new(q, Mode::Ex, 1);
    assert_eq!(port.enq(&request, b"A"), Err(BADPARAM));
    assert_eq!(port.convert(&request, LockId(1)), Err(BADPARAM));
    assert_eq!(port.deq(q, LockId(1)), Err(BADPARAM));
    assert_eq!(port.rundown(q), Err(BADPARAM));
    assert_eq!(pair.second.rundown(p), Err(BADPARAM));
    assert_eq!(pair.hub.turn(), Ok(0));
    assert_eq!(pair.hub.entries().len(), entries);
}

#[test]
fn asts_are_items() {
    let (mut pair, p, q) = Pair::with_processes();
    let request = Request {
        completion: Some(8),
        blocking: Some(9),
        param: 5,
        ..Request::new(p, Mode::Ex, 1)
    };
    pair.made(1, |port| port.enq(&request, b"A"));
    assert_eq!(pair.hub.turn(), Ok(1));
    assert_eq!(
        told(&mut pair.first),
        (p, AstKind::Completion, 8, 5, LockId(1))
    );
    let block = pair.hub.block(p, 1).expect("the block");
    assert_eq!(
        (block.status, block.lock),
        (Some(Condition::Normal), Some(LockId(1)))
    );
    assert_eq!(pair.hub.block(p, 200), None);
    assert_eq!(pair.hub.block(NOBODY, 1), None);
    let other = Request {
        process: q,
        ..request
    };
    pair.made(2, |port| port.enq(&other, b"A"));
    assert_eq!(pair.hub.turn(), Ok(1));
    assert_eq!(
        told(&mut pair.first),
        (p, AstKind::Blocking, 9, 5, LockId(1))
    );
    assert_eq!(pair.hub.lost(1), Ok(()));
    assert_eq!(pair.hub.turn(), Ok(1));
    assert_eq!(
        told(&mut pair.second),
        (q, AstKind::Completion, 8, 5, LockId(2))
    );
    assert_eq!((pair.hub.turn(), pair.second.take()), (Ok(0), None));
}

/// The next item, which is an AST.
fn told(port: &mut Port) -> (ProcessId, AstKind, u32, u32, LockId) {
    match port.take() {
        Some(Item::Ast { process, ast }) => (process, ast.kind, ast.routine, ast.param, ast.lock),
        other => panic!("{other:?}"),
    }
}

#[test]
fn each_way_has_64_places() {
    let mut pair = Pair::new();
    for _ in 0..PLACES {
        assert_eq!(pair.first.search(), Ok(()));
    }
    assert_eq!(pair.first.search(), Err(Error::Full));
    assert_eq!(pair.hub.waiting(1), Ok(PLACES));
    assert_eq!(pair.hub.waiting(3), Err(Error::Badparam));
    assert_eq!(pair.second.search(), Ok(()));
    assert_eq!(pair.hub.turn(), Ok(2));
    for _ in 1..PLACES {
        assert_eq!(pair.hub.turn(), Ok(1));
    }
    assert_eq!((pair.hub.waiting(1), pair.first.waiting()), (Ok(0), PLACES));
    // The port has taken no item: its items fill their places, and later posts stay where they are.
    assert_eq!(pair.first.search(), Ok(()));
    assert_eq!(pair.hub.turn(), Ok(0));
    let answers = (0..PLACES).filter(|_| pair.first.take().is_some()).count();
    assert_eq!(answers, PLACES);
    assert_eq!(pair.first.take(), None);
    assert_eq!(pair.hub.turn(), Ok(1));
    assert!(pair.first.take().is_some());
}

#[test]
fn a_node_is_lost() {
    let (mut pair, p, _) = Pair::with_processes();
    pair.first.search().expect("a place");
    assert_eq!(pair.hub.lost(1), Ok(()));
    assert_eq!(pair.hub.lost(1), Err(Error::Departed));
    for node in [0, 9, u8::MAX] {
        assert_eq!(pair.hub.lost(node), Err(Error::Badparam));
    }
    assert_eq!(pair.answer(1).victim(), Err(Error::Departed));
    let answer = pair.made(1, |port| port.rundown(p));
    assert_eq!(answer.done(), Err(Error::Departed));
    assert_eq!(pair.made(2, Port::search).victim(), Ok(None));
}

#[test]
fn two_hubs_share_nothing() {
    let (mut one, p, _) = Pair::with_processes();
    let mut other = Pair::new();
    assert_eq!(
        other.made(1, |port| port.rundown(p)).done(),
        Err(Error::Nonexpr)
    );
    assert_eq!((one.hub.entries().len(), other.hub.entries().len()), (2, 1));
    assert_eq!(one.hub.lost(1), Ok(()));
    assert!(other
        .made(1, |port| port.declare(&declaration(1)))
        .process()
        .is_ok());
}

#[test]
fn a_port_is_dropped_first() {
    let Pair {
        mut hub,
        mut first,
        mut second,
    } = Pair::new();
    first.search().expect("a place");
    drop(first);
    for _ in 0..2 * PLACES {
        second.search().expect("a place");
        assert!(hub.turn().is_ok());
        assert!(second.take().is_some());
    }
    assert_eq!(hub.lost(1), Ok(()));
}

#[test]
fn a_hub_is_dropped_first() {
    let Pair {
        mut hub,
        mut first,
        second,
    } = Pair::new();
    first.search().expect("a place");
    assert_eq!(hub.turn(), Ok(1));
    drop((hub, second));
    assert!(first.take().is_some());
    assert_eq!((first.take(), first.node()), (None, 1));
    for _ in 0..PLACES {
        assert_eq!(first.search(), Ok(()));
    }
    assert_eq!(first.search(), Err(Error::Full));
}

#[test]
fn errors_have_texts() {
    fn text(error: &dyn std::error::Error) -> String {
        error.to_string()
    }
    assert_eq!(text(&Error::Full), "FULL");
    assert_eq!(text(&BADPARAM), "SS$_BADPARAM");
}
