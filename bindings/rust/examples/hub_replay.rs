//! A journal is kept in a file and replayed. Three nodes take locks through a hub, each in a thread of its own. The
//! hub's thread cuts the journal from time to time and appends each part to a file. Two lock managers replay it: a
//! standby makes the steps of each part after its cut, and another one makes those of the file at the end. Both end
//! with the same processes, locks and status blocks.

mod hub_node;

use std::fs::{self, File};
use std::io::{BufReader, BufWriter, ErrorKind, Read, Write};
use std::path::Path;
use std::{env, process, thread};

use hub_node::{Failure, Node};
use vlm::hub::{Entry, Hub, Port};
use vlm::{LockManager, Queue};

const NODES: u8 = 3;
const ROUNDS: u64 = 50;
/// A cut is made after this many entries.
const PART: usize = 100;

/// Takes and gives up a lock that others take too. At the end it keeps another one.
fn run_node(port: Port) -> Result<(), Failure> {
    let mut node = Node::new(port)?;
    for _ in 0..ROUNDS {
        let lock = node.lock(b"A")?;
        node.unlock(lock)?;
    }
    node.lock(&[b'N', node.number()])?;
    Ok(())
}

/// Cuts the journal. Appends the part to the file, and lets the standby follow.
fn cut(hub: &mut Hub, file: &mut impl Write, standby: &mut LockManager) -> Result<(), Failure> {
    for entry in &hub.cut()? {
        file.write_all(&entry.to_bytes())?;
        entry.replay(standby)?;
    }
    Ok(())
}

/// Runs the nodes, and cuts the journal into a file.
fn record(path: &Path, standby: &mut LockManager) -> Result<(), Failure> {
    let mut file = BufWriter::new(File::create(path)?);
    let mut hub = Hub::new(NODES)?;
    let mut nodes = Vec::new();
    for node in 1..=NODES {
        let port = hub.port(node)?;
        nodes.push(thread::spawn(move || run_node(port)));
    }
    while nodes.iter().any(|node| !node.is_finished()) {
        if hub.turn()? == 0 {
            thread::yield_now();
        }
        if hub.entries().len() >= PART {
            cut(&mut hub, &mut file, standby)?;
        }
    }
    for node in nodes {
        node.join().expect("a node")?;
    }
    cut(&mut hub, &mut file, standby)?;
    Ok(file.flush()?)
}

/// Makes the steps of a file. Returns how many there were.
fn replay(path: &Path, manager: &mut LockManager) -> Result<u64, Failure> {
    let mut file = BufReader::new(File::open(path)?);
    let mut bytes = [0; Entry::SIZE];
    let mut count = 0;
    loop {
        match file.read_exact(&mut bytes) {
            Ok(()) => {}
            Err(end) if end.kind() == ErrorKind::UnexpectedEof => return Ok(count),
            Err(error) => return Err(error.into()),
        }
        let entry = Entry::from_bytes(&bytes).ok_or("no entry of a journal")?;
        entry.replay(manager)?;
        count += 1;
    }
}

/// All that a lock manager has.
fn picture(manager: &LockManager) -> String {
    let mut lines = Vec::new();
    for process in manager.processes() {
        let blocks = (1..=process.blocks).map(|number| manager.block(process.id, number));
        lines.push(format!("{process:?} {:?}", blocks.collect::<Vec<_>>()));
    }
    for resource in manager.resources() {
        let queues = [Queue::Granted, Queue::Conversion, Queue::Waiting]
            .map(|queue| manager.rows(&resource, queue).collect::<Vec<_>>());
        lines.push(format!("{resource:?} {queues:?}"));
    }
    lines.join("\n")
}

/// Records a journal and replays it. Returns how many locks are left, and whether both lock managers are equal.
pub fn run() -> Result<(usize, bool), Failure> {
    let path = env::temp_dir().join(format!("vlm-hub-replay-{}", process::id()));
    let (mut standby, mut replayed) = (LockManager::new()?, LockManager::new()?);
    let outcome = record(&path, &mut standby).and_then(|()| replay(&path, &mut replayed));
    // (the outcome says why there may be no file)
    let _ = fs::remove_file(&path);
    println!("{} entries were replayed from the file", outcome?);
    let is_equal = picture(&standby) == picture(&replayed);
    Ok((replayed.lock_count(), is_equal))
}

fn main() -> Result<(), Failure> {
    let (locks, is_equal) = run()?;
    println!("{locks} locks are left");
    println!("the lock managers are equal: {is_equal}");
    Ok(())
}
