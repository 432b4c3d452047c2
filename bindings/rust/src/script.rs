//! Runs the lines of a script, and prints what `vlm play` prints: the manual page vlm(1) has the language.
//! The library reads the lines and prints the answers, by proved calls; only the names of processes are kept here.
//!
//! ```
//! use vlm::script::Session;
//! use vlm::LockManager;
//!
//! # fn main() -> Result<(), Box<dyn std::error::Error>> {
//! let mut session = Session::new(LockManager::new()?);
//! let text = session.run(b"declare P node=1 group=1 quota=9 blocks=4")?;
//! assert_eq!(text, "P: process 65537\n");
//! # Ok(())
//! # }
//! ```

use std::collections::HashMap;
use std::error;
use std::fmt;

use crate::manager::LockManager;
use crate::raw::{self, Line, Text};

/// A fault of a line. Displayed, it is the text that `vlm play` writes.
#[derive(Clone, Copy, Debug, PartialEq, Eq)]
#[non_exhaustive]
#[allow(missing_docs)]
pub enum Fault {
    TooLong,
    UnknownCommand,
    WrongWord,
    NumberOutOfRange,
    UnknownName,
    NameUsed,
}

impl Fault {
    /// The fault of a number of the library.
    fn of(number: u32) -> Fault {
        match number {
            1 => Fault::TooLong,
            2 => Fault::UnknownCommand,
            3 => Fault::WrongWord,
            _ => Fault::NumberOutOfRange,
        }
    }
}

impl fmt::Display for Fault {
    fn fmt(&self, f: &mut fmt::Formatter<'_>) -> fmt::Result {
        f.write_str(match self {
            Fault::TooLong => "too long",
            Fault::UnknownCommand => "unknown command",
            Fault::WrongWord => "wrong word",
            Fault::NumberOutOfRange => "number out of range",
            Fault::UnknownName => "unknown name",
            Fault::NameUsed => "name used",
        })
    }
}

impl error::Error for Fault {}

/// A run of a script on a lock manager, line by line.
pub struct Session {
    manager: LockManager,
    /// The processes of the names that accepted declarations have bound.
    pids: HashMap<[u8; 16], u32>,
}

impl Session {
    /// A run on this lock manager, with no names.
    pub fn new(manager: LockManager) -> Session {
        Session {
            manager,
            pids: HashMap::new(),
        }
    }

    /// The lock manager.
    pub fn manager(&mut self) -> &mut LockManager {
        &mut self.manager
    }

    /// Runs a line, without its line feed, and returns what it prints. A line with a fault does nothing.
    pub fn run(&mut self, line: &[u8]) -> Result<String, Fault> {
        let mut words = Line::new();
        raw::read_line(line, &mut words);
        if words.fault != 0 {
            return Err(Fault::of(words.fault));
        }
        let pid = self.pid_of(&words)?;
        Ok(match words.kind {
            raw::LINE_EMPTY => String::new(),
            raw::LINE_AST => self.take(pid, &words),
            raw::LINE_BLOCK => printed(|text| self.manager.handle.print_block(pid, &words, text)),
            raw::LINE_TAIL => printed(|text| self.manager.handle.print_tail(pid, &words, text)),
            raw::LINE_SHOW => self.show(Session::show_resource),
            raw::LINE_TAILS => self.show(Session::show_tail),
            _ => self.make(pid, words)?,
        })
    }

    /// The process of a line, or 0 where it has none.
    fn pid_of(&self, line: &Line) -> Result<u32, Fault> {
        let bound = self.pids.get(&line.name).copied();
        match (line.kind, bound) {
            _ if line.name_len == 0 => Ok(0),
            (raw::LINE_DECLARE, Some(_)) => Err(Fault::NameUsed),
            (raw::LINE_DECLARE, None) => Ok(0),
            (_, bound) => bound.ok_or(Fault::UnknownName),
        }
    }

    /// Makes the step of a line. A later library may read commands that this crate does not know.
    fn make(&mut self, pid: u32, mut line: Line) -> Result<String, Fault> {
        let (handle, mut number) = (&mut self.manager.handle, 0);
        (line.setting.pid, line.request.pid, line.dequeue.pid) = (pid, pid, pid);
        let status = match line.kind {
            raw::LINE_DECLARE => handle.declare(&line.declaration, &mut number),
            raw::LINE_SET => handle.set_value(&line.setting),
            raw::LINE_ENQ => {
                let name = &line.resource[..line.resource_len as usize];
                handle.enq(&line.request, name, &mut number)
            }
            raw::LINE_CVT => handle.convert(&line.request, &mut number),
            raw::LINE_DEQ => handle.deq(&line.dequeue),
            raw::LINE_END => handle.rundown(pid),
            raw::LINE_LEAVE => handle.leave(line.number),
            raw::LINE_SEARCH => handle.search(line.number, &mut number),
            _ => return Err(Fault::UnknownCommand),
        };
        if line.kind == raw::LINE_DECLARE && number != 0 {
            self.pids.insert(line.name, number);
        }
        Ok(printed(|text| {
            raw::print_answer(&line, status, number, text)
        }))
    }

    fn take(&mut self, pid: u32, line: &Line) -> String {
        let mut ast = raw::Ast::new();
        let status = self.manager.handle.take(pid, &mut ast);
        printed(|text| raw::print_ast(line, status, &ast, text))
    }

    /// What this prints for each resource.
    fn show(&self, print: fn(&Session, &raw::Resource) -> String) -> String {
        let mut texts = String::new();
        let mut resource = raw::Resource::new();
        while self.manager.handle.next_resource(&mut resource) == 1 && resource.serial != 0 {
            texts += &print(self, &resource);
        }
        if texts.is_empty() {
            texts += "no resources\n";
        }
        texts
    }

    fn show_tail(&self, resource: &raw::Resource) -> String {
        printed(|text| self.manager.handle.print_resource_tail(resource, text))
    }

    /// A resource with the locks in its queues.
    fn show_resource(&self, resource: &raw::Resource) -> String {
        let (handle, mut lock) = (&self.manager.handle, raw::Lock::new());
        let mut texts = printed(|text| handle.print_resource(resource, text));
        for queue in 0..3 {
            let mut status = handle.first_row(resource, queue, &mut lock);
            while status == 1 && lock.lkid != 0 {
                texts += &printed(|text| raw::print_lock(&lock, text));
                status = handle.next_row(lock.lkid, &mut lock);
            }
        }
        texts
    }
}

/// The line that a call of the library prints.
fn printed(print: impl FnOnce(&mut Text) -> u32) -> String {
    let mut text = Text::new();
    print(&mut text);
    String::from_utf8_lossy(&text.bytes[..text.len as usize]).into_owned()
}

#[cfg(test)]
mod tests {
    use super::*;

    /// The library reads no such line, so one is made up.
    #[test]
    fn a_line_of_an_unknown_kind_makes_no_step() {
        let mut session = Session::new(LockManager::new().expect("memory"));
        let line = Line {
            kind: 99,
            number: 1,
            ..Line::new()
        };
        assert_eq!(session.make(0, line), Err(Fault::UnknownCommand));
    }
}
