//! Each call of a lock manager once, with what it refuses.

use vlm::{
    Accepted, AstKind, Condition, Declaration, DeqFlags, Dequeue, Domain, EnqFlags, Error, LockId,
    LockManager, Mode, ProcessId, Request, Setting, Which,
};

const NOBODY: ProcessId = ProcessId(12345);

fn declaration(node: u8) -> Declaration {
    Declaration {
        node,
        group: 7,
        quota: 4,
        blocks: 2,
        ..Declaration::default()
    }
}

/// A lock manager with a process of node 1 and one of node 2.
fn two() -> (LockManager, ProcessId, ProcessId) {
    let mut manager = LockManager::with_keys([7; 16]).expect("memory");
    let p = manager.declare(&declaration(1)).expect("a process");
    let q = manager.declare(&declaration(2)).expect("a process");
    (manager, p, q)
}

fn block(number: u8) -> Which {
    Which::Block(number)
}

#[test]
fn conditions_have_numbers_and_names() {
    let mut known = 0;
    for number in (0..1000).chain([u32::MAX - 1, u32::MAX]) {
        let condition = Condition::of(number);
        assert_eq!(condition.number(), number);
        let variant = match condition {
            Condition::Failed(Error::Other(_)) => {
                assert_eq!(condition.name(), "an unknown condition");
                assert_eq!(condition.to_string(), format!("condition {number}"));
                continue;
            }
            Condition::Failed(error) => format!("{error:?}"),
            success => format!("{success:?}"),
        };
        // (the name is the library's own, so it tells whether the number is)
        let name = condition.name().trim_start_matches("SS$_");
        assert_eq!(name, variant.to_uppercase());
        known += 1;
    }
    assert_eq!(known, 27);
    assert_eq!(Error::Nonexpr.to_string(), "SS$_NONEXPR");
    assert!(Condition::Valnotvalid.is_grant() && !Condition::Failed(Error::Abort).is_grant());
}

#[test]
fn flags_are_joined() {
    let flags = EnqFlags::VALBLK | EnqFlags::WIDE;
    assert!(flags.contains(EnqFlags::WIDE) && !flags.contains(EnqFlags::NOQUEUE));
    assert_eq!(EnqFlags::from_bits(257), flags);
    assert_eq!(
        (
            flags.bits(),
            (DeqFlags::DEQALL | DeqFlags::INVVALBLK).bits()
        ),
        (257, 5)
    );
    assert!(!DeqFlags::CANCEL.contains(DeqFlags::DEQALL));
}

#[test]
fn processes_are_declared_and_end() {
    let (mut manager, p, q) = two();
    assert_eq!(manager.declare(&declaration(9)), Err(Error::Badparam));
    let shown: Vec<_> = manager
        .processes()
        .map(|it| (it.id, it.node, it.group, it.quota, it.blocks))
        .collect();
    assert_eq!(shown, [(p, 1, 7, 4, 2), (q, 2, 7, 4, 2)]);
    assert_eq!(manager.process_count(), 2);
    assert_eq!(manager.rundown(p), Ok(()));
    assert_eq!(manager.rundown(p), Err(Error::Nonexpr));
    assert_eq!((manager.pending(p), manager.pending(q)), (None, Some(0)));
    assert_eq!(manager.leave(2), Ok(()));
    assert_eq!(manager.leave(2), Err(Error::Departed));
    assert_eq!(manager.leave(0), Err(Error::Badparam));
    let mut processes = manager.processes();
    assert_eq!((processes.next(), processes.next()), (None, None));
}

#[test]
fn locks_are_asked_for_and_given_up() {
    let (mut manager, p, q) = two();
    let at_once = Request {
        flags: EnqFlags::SYNCSTS,
        ..Request::new(p, Mode::Ex, 1)
    };
    let accepted: Accepted = manager.enq(&at_once, b"A").expect("a lock");
    assert_eq!((accepted.lock, accepted.at_once), (LockId(1), true));
    assert!(
        !manager
            .enq(&Request::new(q, Mode::Ex, 1), b"A")
            .expect("a lock")
            .at_once
    );
    assert_eq!(
        manager.block(q, 1).map(|it| (it.status, it.lock)),
        Some((None, Some(LockId(2))))
    );
    assert_eq!(manager.convert(&at_once, LockId(2)), Err(Error::Ivlockid));
    assert_eq!(
        manager
            .convert(&Request::new(p, Mode::Pr, 1), block(1))
            .map(|it| it.lock),
        Ok(LockId(1))
    );
    assert_eq!(manager.deq(p, LockId(1)), Ok(()));
    assert_eq!(manager.deq(p, block(2)), Err(Error::Ivlockid));
    assert_eq!(
        manager.block(q, 1).and_then(|it| it.status),
        Some(Condition::Normal)
    );
}

#[test]
fn a_granted_request_is_not_cancelled() {
    let (mut manager, _, q) = two();
    let lock = manager
        .enq(&Request::new(q, Mode::Ex, 1), b"A")
        .expect("a lock")
        .lock;
    let cancel = Dequeue {
        flags: DeqFlags::CANCEL,
        ..Dequeue::new(q, Some(lock.into()))
    };
    assert_eq!(manager.dequeue(&cancel), Err(Error::Cancelgrant));
    assert_eq!(manager.block(q, 3), None);
    assert_eq!(manager.block(NOBODY, 1), None);
}

#[test]
fn requests_are_refused() {
    let (mut manager, p, q) = two();
    manager
        .enq(&Request::new(q, Mode::Ex, 1), b"A")
        .expect("a lock");
    let request = Request::new(p, Mode::Ex, 1);
    let nobody = Request::new(NOBODY, Mode::Ex, 1);
    for (refused, name, refusal) in [
        (nobody, &b"A"[..], Error::Nonexpr),
        (Request::new(p, Mode::Ex, 3), b"A", Error::Accvio),
        (request, b"", Error::Ivbuflen),
        (request, &[1; 32], Error::Ivbuflen),
        (
            Request {
                flags: EnqFlags::from_bits(0x8000),
                ..request
            },
            b"A",
            Error::Badparam,
        ),
        (
            Request {
                flags: EnqFlags::NOQUEUE,
                ..request
            },
            b"A",
            Error::Notqueued,
        ),
        (
            Request {
                parent: Some(LockId(9).into()),
                ..request
            },
            b"A",
            Error::Ivlockid,
        ),
    ] {
        assert_eq!(manager.enq(&refused, name), Err(refusal));
    }
}

#[test]
fn value_blocks_are_written() {
    let (mut manager, p, q) = two();
    let setting = Setting {
        process: p,
        block: 1,
        value: [5; 16],
        tail: Some([6; 48]),
    };
    manager
        .enq(&Request::new(p, Mode::Ex, 1), b"A")
        .expect("a lock");
    assert_eq!(manager.set_value(&setting), Ok(()));
    assert_eq!(
        manager.set_value(&Setting {
            block: 0,
            ..setting
        }),
        Err(Error::Accvio)
    );
    let wide = EnqFlags::VALBLK | EnqFlags::WIDE;
    let weaker = Request {
        flags: wide,
        ..Request::new(p, Mode::Nl, 1)
    };
    manager.convert(&weaker, LockId(1)).expect("a lock");
    manager
        .enq(
            &Request {
                flags: wide,
                ..Request::new(q, Mode::Pr, 2)
            },
            b"A",
        )
        .expect("a lock");
    assert_eq!(
        manager.block(q, 2).map(|it| (it.value, it.tail)),
        Some(([5; 16], [6; 48]))
    );
    let resource = manager.find(Domain::Group(7), b"A").expect("a resource");
    assert_eq!((resource.value, resource.tail), ([5; 16], [6; 48]));
    assert!(resource.value_valid && resource.tail_valid);
}

#[test]
fn asts_are_taken() {
    let (mut manager, p, q) = two();
    let request = Request {
        completion: Some(8),
        blocking: Some(9),
        param: 5,
        ..Request::new(p, Mode::Ex, 1)
    };
    manager.enq(&request, b"A").expect("a lock");
    manager
        .enq(
            &Request {
                process: q,
                ..request
            },
            b"A",
        )
        .expect("a lock");
    assert_eq!(
        (
            manager.pending(p),
            manager.processes().map(|it| it.pending).sum::<usize>()
        ),
        (Some(2), 2)
    );
    let ast = manager.take(p).expect("a process").expect("an AST");
    assert_eq!(
        (ast.kind, ast.routine, ast.param, ast.lock),
        (AstKind::Completion, 8, 5, LockId(1))
    );
    let (taker, ast) = manager.take_any().expect("a lock manager").expect("an AST");
    assert_eq!((taker, ast.kind, ast.routine), (p, AstKind::Blocking, 9));
    assert_eq!((manager.take_any(), manager.take(p)), (Ok(None), Ok(None)));
    assert_eq!(manager.take(NOBODY), Err(Error::Nonexpr));
}

#[test]
fn a_deadlock_has_a_victim() {
    let (mut manager, p, q) = two();
    for process in [p, q] {
        manager
            .enq(&Request::new(process, Mode::Pr, 1), b"A")
            .expect("a lock");
    }
    for (process, lock) in [(p, LockId(1)), (q, LockId(2))] {
        assert_eq!(manager.find_victim(), None);
        manager
            .convert(&Request::new(process, Mode::Ex, 1), lock)
            .expect("a lock");
    }
    assert_eq!(manager.find_victim(), Some(LockId(2)));
    assert_eq!(manager.queued_count(), 2);
    assert_eq!(manager.search(1), Ok(Some(LockId(2))));
    assert_eq!((manager.find_victim(), manager.search(1)), (None, Ok(None)));
    assert_eq!(manager.search(0), Err(Error::Badparam));
}

/// A lock manager goes to another thread, which makes the next step there.
#[test]
fn a_lock_manager_goes_to_another_thread() {
    let (mut manager, p, _) = two();
    let thread = std::thread::spawn(move || {
        manager
            .enq(&Request::new(p, Mode::Ex, 1), b"A")
            .expect("a lock");
        manager
    });
    assert_eq!(thread.join().expect("the thread").resource_count(), 1);
}
