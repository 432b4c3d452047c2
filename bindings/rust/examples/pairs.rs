//! Makes pairs of a request for EX and its dequeue: `pairs COUNT`. bench/library of the repository counts their
//! instructions.

use vlm::{Client, Error, Mode, Shared};

fn main() -> Result<(), Error> {
    let count = std::env::args().nth(1).and_then(|it| it.parse().ok());
    let shared = Shared::new()?;
    let process = shared.declare(&Client::default())?;
    for _ in 0..count.unwrap_or(1u32) {
        drop(shared.lock(process, b"A", Mode::Ex)?);
    }
    shared.rundown(process)
}
