//! An entry has the same bytes in Rust as in the library.

use super::{raw, Entry, Hub, Port};
use crate::Error;
use crate::{Declaration, DeqFlags, Dequeue, LockId, Mode, ProcessId, Request, Setting};

const P: ProcessId = ProcessId(0x1_0001);

/// Posts each kind of step.
fn post_all(port: &mut Port) -> Result<(), Error> {
    port.declare(&Declaration {
        node: 1,
        quota: 9,
        blocks: 2,
        ..Declaration::default()
    })?;
    port.set_value(&Setting {
        process: P,
        block: 1,
        value: [5; 16],
        tail: Some([6; 48]),
    })?;
    let request = Request {
        completion: Some(8),
        blocking: Some(9),
        ..Request::new(P, Mode::Ex, 1)
    };
    port.enq(&request, b"A")?;
    port.enq(&request, &[b'x'; 99])?;
    port.convert(&request, LockId(1))?;
    port.dequeue(&Dequeue {
        flags: DeqFlags::INVVALBLK,
        value: Some([7; 16]),
        ..Dequeue::new(P, None)
    })?;
    port.search()?;
    port.rundown(P)?;
    port.bye()
}

#[test]
fn entries_are_written_as_they_are_read() {
    let mut hub = Hub::new(1).expect("memory");
    post_all(&mut hub.port(1).expect("a port")).expect("places");
    while hub.turn().expect("memory") > 0 {}
    assert!(hub.entries().len() > 9, "the hub takes ASTs too");
    for place in 0..hub.entries().len() {
        let mut words = raw::Entry::new();
        assert_eq!(hub.handle.entry(place, &mut words), 1);
        let entry = Entry::of(&words);
        let (written, read) = (entry.to_bytes(), words.into_bytes());
        let differ = (0..Entry::SIZE).find(|at| written[*at] != read[*at]);
        assert_eq!(differ, None, "{entry:?}");
        assert_eq!(Entry::from_bytes(&read), Some(entry));
    }
}
