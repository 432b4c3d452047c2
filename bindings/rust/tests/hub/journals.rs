//! Entries, cuts and replays.

use vlm::hub::{Entry, Step};
use vlm::{Condition, Error, LockId, LockManager, Mode};

use crate::pair::declaration;
use crate::twins::{full, picture, replayed, setting, steps, writing, Twins, BLOCK};

#[test]
fn a_replayed_journal_makes_the_same_lock_manager() {
    let Twins {
        mut pair,
        mut manager,
    } = steps();
    let mut again = LockManager::new().expect("memory");
    let part = pair.hub.cut().expect("memory");
    replayed(&part, &mut again);
    assert_eq!(picture(&again), picture(&manager));
    assert_eq!((again.lock_count(), again.queued_count()), (4, 1));
    pair.hub.lost(2).expect("a node");
    manager.leave(2).expect("a node");
    replayed(&pair.hub.cut().expect("memory"), &mut again);
    assert_eq!(picture(&again), picture(&manager));
    assert_eq!(again.lock_count(), 2);
    // The steps are made already, so a second replay answers otherwise.
    let answers: Vec<_> = part.iter().map(|entry| entry.replay(&mut again)).collect();
    let difference = answers[0].expect_err("another process");
    assert_eq!(difference.journal, part.entries[0].answer);
    assert_ne!(difference.made, difference.journal);
    assert!(difference.to_string().contains(" in place of "));
}

#[test]
fn entries_have_all_of_a_step() {
    let Twins { pair, manager } = steps();
    let entries: Vec<Entry> = pair.hub.entries().collect();
    let processes: Vec<_> = manager.processes().map(|process| process.id).collect();
    let (p, q) = (processes[0], processes[1]);
    let is_there = |sender, step| {
        let mut posted = entries.iter().filter(|entry| entry.sender == sender);
        assert!(posted.any(|entry| entry.step == step), "{step:?}");
    };
    is_there(Some(2), Step::Declare(declaration(2)));
    is_there(Some(1), Step::SetValue(setting(p)));
    is_there(Some(1), Step::Deq(writing(p, BLOCK)));
    is_there(
        Some(2),
        Step::Convert {
            request: full(q, Mode::Ex),
            lock: BLOCK,
        },
    );
    is_there(Some(2), Step::Search(2));
    is_there(None, Step::Take(p));
    let name_of = |entry: &Entry| match entry.step {
        Step::Enq { request, name } if request.process == p => Some((request, name)),
        _ => None,
    };
    let requests: Vec<_> = entries.iter().filter_map(name_of).collect();
    assert_eq!(
        (requests[0].0, requests[0].1.as_bytes()),
        (full(p, Mode::Cr), &b"A"[..])
    );
    assert_eq!(requests[1].0.parent, Some(LockId(1).into()));
    assert_eq!(format!("{:?}", requests[1].1), r#"b"\x00\xff""#);
    // Of a name that is too long, nothing is kept.
    let refusal = Condition::Failed(Error::Ivbuflen);
    let mut refused = entries
        .iter()
        .filter(|entry| entry.answer.condition == refusal);
    let step = refused.next().map(|entry| entry.step);
    assert!(matches!(step, Some(Step::Enq { name, .. }) if name.as_bytes().is_empty()));
}

#[test]
fn entries_are_read_from_both_ends() {
    let Twins { mut pair, .. } = steps();
    let entries: Vec<Entry> = pair.hub.entries().collect();
    let count = entries.len();
    assert_eq!(pair.hub.entries().len(), count);
    assert!(pair.hub.entries().rev().eq(entries.iter().rev().copied()));
    assert_eq!(pair.hub.entries().nth(count - 1), entries.last().copied());
    assert_eq!(pair.hub.entries().nth(count), None);
    let part = pair.hub.cut().expect("memory");
    assert_eq!((part.base, &part.entries), (0, &entries));
    assert_eq!(pair.hub.entries().next(), None);
    let empty = pair.hub.cut().expect("memory");
    assert_eq!((empty.base, empty.iter().count()), (count as u64, 0));
    pair.hub.lost(2).expect("a node");
    let last = pair.hub.cut().expect("memory");
    assert_eq!(last.base, count as u64);
    assert!(last
        .into_iter()
        .all(|entry| entry.sender.is_none() && entry.step == Step::Leave(2)));
}

#[test]
fn entries_are_bytes_as_c_has_them() {
    let Twins { pair, .. } = steps();
    let word = |bytes: &[u8; Entry::SIZE], at: usize| {
        u32::from_ne_bytes([bytes[at], bytes[at + 1], bytes[at + 2], bytes[at + 3]])
    };
    for entry in pair.hub.entries() {
        let bytes = entry.to_bytes();
        assert_eq!(Entry::from_bytes(&bytes), Some(entry));
        assert_eq!(word(&bytes, 0), 512);
        assert_eq!(word(&bytes, 4), u32::from(entry.sender.unwrap_or(0)));
        assert!((1..=9).contains(&word(&bytes, 8)));
        assert_eq!(
            (word(&bytes, 20), word(&bytes, 24)),
            (entry.answer.condition.number(), entry.answer.number)
        );
        match entry.step {
            Step::Declare(declaration) => {
                assert_eq!(word(&bytes, 116), u32::from(declaration.blocks))
            }
            Step::SetValue(setting) => assert_eq!(bytes[144..160], setting.value),
            Step::Enq { name, .. } => {
                assert_eq!(&bytes[64..64 + name.as_bytes().len()], name.as_bytes())
            }
            Step::Convert { request, .. } => assert_eq!(word(&bytes, 232), request.mode as u32),
            Step::Deq(dequeue) => assert_eq!(word(&bytes, 360), u32::from(dequeue.flags.bits())),
            Step::Take(process) => {
                assert_eq!((word(&bytes, 12), word(&bytes, 32)), (process.0, 32))
            }
            _ => {}
        }
    }
}

#[test]
fn malformed_bytes_are_no_entry() {
    let Twins { pair, .. } = steps();
    assert_eq!(Entry::from_bytes(&[0; Entry::SIZE]), None);
    assert_eq!(Entry::from_bytes(&[0xff; Entry::SIZE]), None);
    for entry in pair.hub.entries() {
        for place in 0..Entry::SIZE {
            for byte in [0, 1, 6, 33, 128, 255] {
                let mut bytes = entry.to_bytes();
                bytes[place] = byte;
                let read = Entry::from_bytes(&bytes);
                assert!(read.map_or(true, |read| read.to_bytes() == bytes));
            }
        }
    }
}
