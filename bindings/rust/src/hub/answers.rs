//! What a step answered.

use super::raw;
use crate::condition::{Condition, Error};
use crate::names::{LockId, ProcessId};
use crate::requests::Accepted;
use crate::views::Ast;

/// The answer to a step: what the call of [`LockManager`](crate::LockManager) would have returned.
///
/// Each method reads it as one kind of step returns it. Answers come in the order of the posts, so the program knows
/// which kind an answer is of.
#[derive(Clone, Copy, Debug, PartialEq, Eq)]
#[non_exhaustive]
pub struct Answer {
    /// The condition value.
    pub condition: Condition,
    /// The process of a declaration, the lock of a request, or the victim's lock of a search; else 0.
    pub number: u32,
    /// The AST of a take.
    pub ast: Option<Ast>,
}

impl Answer {
    pub(super) fn of(status: u32, number: u32, ast: &crate::raw::Ast) -> Answer {
        Answer {
            condition: Condition::of(status),
            number,
            ast: Ast::of(ast),
        }
    }

    pub(super) fn of_item(words: &raw::Item) -> Answer {
        Answer {
            condition: Condition::of(words.status),
            number: words.number,
            ast: None,
        }
    }

    /// Writes the answer into the words of an entry.
    pub(super) fn write(&self, words: &mut raw::Entry) {
        (words.status, words.number) = (self.condition.number(), self.number);
        if let Some(ast) = &self.ast {
            words.ast = ast.words();
        }
    }

    /// As the answer to a setting, a dequeue, a rundown or a departure.
    pub fn done(&self) -> Result<(), Error> {
        self.condition.success().map(drop)
    }

    /// As the answer to a declaration.
    pub fn process(&self) -> Result<ProcessId, Error> {
        self.done().map(|()| ProcessId(self.number))
    }

    /// As the answer to a new request or a conversion.
    pub fn accepted(&self) -> Result<Accepted, Error> {
        let condition = self.condition.success()?;
        Ok(Accepted::of(condition, self.number))
    }

    /// As the answer to a search: the lock of its victim, if there is one.
    pub fn victim(&self) -> Result<Option<LockId>, Error> {
        self.done()?;
        Ok((self.number != 0).then_some(LockId(self.number)))
    }
}
