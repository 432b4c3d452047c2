//! Walks over resources and their queues, and what is found by name.

use vlm::{
    Declaration, DeqFlags, Dequeue, Domain, LockId, LockManager, Mode, ProcessId, Queue, Request,
    ResourceId,
};

/// A lock manager with a process of node 1 and one of node 2.
fn two() -> (LockManager, ProcessId, ProcessId) {
    let mut manager = LockManager::new().expect("memory");
    let mut declare = |node| {
        let declaration = Declaration {
            node,
            group: 7,
            quota: 20_000,
            blocks: 2,
            ..Declaration::default()
        };
        manager.declare(&declaration).expect("a process")
    };
    let (p, q) = (declare(1), declare(2));
    (manager, p, q)
}

/// P and Q with a lock on A each, and P with one on a resource below it.
fn root_and_below() -> (LockManager, ProcessId, ProcessId) {
    let (mut manager, p, q) = two();
    let root = manager
        .enq(&Request::new(p, Mode::Nl, 1), b"A")
        .expect("a lock")
        .lock;
    let below = Request {
        parent: Some(root.into()),
        ..Request::new(p, Mode::Ex, 2)
    };
    manager.enq(&below, b"\0\xff").expect("a lock");
    manager
        .enq(&Request::new(q, Mode::Pr, 1), b"A")
        .expect("a lock");
    (manager, p, q)
}

#[test]
fn resources_are_walked() {
    let (manager, _, _) = root_and_below();
    let walked: Vec<_> = manager.resources().collect();
    assert_eq!((manager.resource_count(), walked.len()), (2, 2));
    assert_eq!(
        (walked[0].parent, &walked[0].name[..], walked[0].domain),
        (None, &b"A"[..], Domain::Group(7))
    );
    assert_eq!(
        (walked[1].parent, &walked[1].name[..]),
        (Some(ResourceId(1)), &b"\0\xff"[..])
    );
}

#[test]
fn resources_are_found() {
    let (manager, _, _) = root_and_below();
    let walked: Vec<_> = manager.resources().collect();
    assert_eq!(
        manager.find(Domain::Group(7), b"A").as_ref(),
        Some(&walked[0])
    );
    assert_eq!(
        manager.find_below(ResourceId(1), b"\0\xff").as_ref(),
        Some(&walked[1])
    );
    for name in [&b""[..], b"B", &[1; 31], &[1; 32], &[1; 33], &[1; 1000]] {
        assert_eq!(
            (
                manager.find(Domain::System, name),
                manager.find_below(ResourceId(1), name)
            ),
            (None, None)
        );
    }
    assert_eq!(
        (
            manager.find_below(ResourceId(0), b"A"),
            manager.find_below(ResourceId(u32::MAX), b"A")
        ),
        (None, None)
    );
}

#[test]
fn rows_are_walked() {
    let (mut manager, p, q) = root_and_below();
    let walked: Vec<_> = manager.resources().collect();
    let rows: Vec<_> = manager
        .rows(&walked[0], Queue::Granted)
        .map(|it| (it.process, it.held, it.want))
        .collect();
    assert_eq!(rows, [(p, Some(Mode::Nl), None), (q, Some(Mode::Pr), None)]);
    manager
        .dequeue(&Dequeue {
            flags: DeqFlags::DEQALL,
            ..Dequeue::new(p, None)
        })
        .expect("a step");
    assert_eq!(manager.rows(&walked[1], Queue::Granted).count(), 0);
}

/// Locks of a family: P's on A with its two sublocks, and Q's, which waits for P's on A.
struct Family {
    p: ProcessId,
    q: ProcessId,
    parent: LockId,
    first: LockId,
    second: LockId,
    waiting: LockId,
}

fn family() -> (LockManager, Family) {
    let (mut manager, p, q) = two();
    let parent = manager
        .enq(&Request::new(p, Mode::Cr, 1), b"A")
        .expect("a lock")
        .lock;
    let sub = Request {
        parent: Some(parent.into()),
        ..Request::new(p, Mode::Nl, 1)
    };
    let first = manager.enq(&sub, b"S").expect("a lock").lock;
    let second = manager.enq(&sub, b"T").expect("a lock").lock;
    let waiting = manager
        .enq(&Request::new(q, Mode::Ex, 1), b"A")
        .expect("a lock")
        .lock;
    let made = Family {
        p,
        q,
        parent,
        first,
        second,
        waiting,
    };
    (manager, made)
}

#[test]
fn single_locks_are_walked() {
    let (manager, it) = family();
    assert_eq!((manager.lock_count(), manager.queued_count()), (4, 1));
    assert!(manager
        .locks_of(it.p)
        .map(|lock| lock.id)
        .eq([it.parent, it.first, it.second]));
    assert!(manager
        .sublocks(it.parent)
        .map(|lock| lock.id)
        .eq([it.first, it.second]));
    assert!(manager
        .blockers(it.waiting)
        .map(|lock| lock.id)
        .eq([it.parent]));
    assert_eq!(manager.blockers(it.parent).count(), 0);
    assert!(manager
        .blocked(it.parent)
        .map(|lock| lock.id)
        .eq([it.waiting]));
    assert_eq!(manager.blocked(it.waiting).count(), 0);
    assert_eq!(
        manager
            .processes()
            .map(|process| process.locks)
            .collect::<Vec<_>>(),
        [3, 1]
    );
}

#[test]
fn single_locks_are_found() {
    let (manager, it) = family();
    let found = manager.lock(it.waiting).expect("it waits");
    assert_eq!(
        (found.held, found.want, found.queue),
        (None, Some(Mode::Ex), Queue::Waiting)
    );
    assert_eq!(
        (found.process, found.resource, found.parent, found.block),
        (it.q, ResourceId(1), None, 1)
    );
    assert_eq!(
        manager.lock(it.first).and_then(|lock| lock.parent),
        Some(it.parent)
    );
    assert_eq!(
        manager.resource_of(it.second).map(|resource| resource.name),
        Some(b"T".to_vec())
    );
    let nobody = LockId(99);
    assert_eq!(
        (manager.lock(nobody), manager.resource_of(nobody)),
        (None, None)
    );
    assert_eq!(
        manager.sublocks(nobody).count()
            + manager.blockers(nobody).count()
            + manager.blocked(nobody).count(),
        0
    );
    assert_eq!(manager.locks_of(ProcessId(1)).count(), 0);
}

#[test]
fn a_walk_takes_constant_time_a_step() {
    let (mut manager, p, _) = two();
    for number in 0..20_000_u32 {
        manager
            .enq(&Request::new(p, Mode::Nl, 1), &number.to_le_bytes())
            .expect("a lock");
    }
    // (a walk by place would take minutes)
    let serials = manager.resources().map(|resource| resource.id.0);
    assert!(serials.eq(1..=20_000));
}
