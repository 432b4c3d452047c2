//! The journal of a hub: its entries, its parts and its replay.

use std::error;
use std::fmt;
use std::iter::FusedIterator;
use std::ops::Range;
use std::slice;
use std::vec;

use super::answers::Answer;
use super::raw;
use super::steps::Step;
use super::Hub;
use crate::condition::{answered, Condition, Error};
use crate::manager::LockManager;

/// An entry of a journal: a step that the hub made, with its answer.
#[derive(Clone, Copy, Debug, PartialEq, Eq)]
#[non_exhaustive]
pub struct Entry {
    /// The node that posted the step. Without one, the hub took an AST, or a node was lost.
    pub sender: Option<u8>,
    /// The step.
    pub step: Step,
    /// Its answer.
    pub answer: Answer,
}

impl Entry {
    /// How many bytes an entry has in a file.
    pub const SIZE: usize = 512;

    pub(super) fn of(words: &raw::Entry) -> Entry {
        Entry {
            sender: Some(words.sender as u8).filter(|node| *node != 0),
            step: Step::of(words),
            answer: Answer::of(words.status, words.number, &words.ast),
        }
    }

    /// The entry as the `vlm_entry` of C, in the byte order of this machine. So programs in C and Rust read the same
    /// files.
    pub fn to_bytes(&self) -> [u8; Entry::SIZE] {
        let mut words = raw::Entry::new();
        words.sender = self.sender.map_or(0, u32::from);
        self.step.write(&mut words);
        self.answer.write(&mut words);
        words.into_bytes()
    }

    /// The entry of these bytes. None if [`Entry::to_bytes`] gives no such bytes for any entry.
    pub fn from_bytes(bytes: &[u8; Entry::SIZE]) -> Option<Entry> {
        let entry = Entry::of(&raw::Entry::from_bytes(*bytes));
        let is_known = !matches!(entry.step, Step::Other(_));
        Some(entry).filter(|entry| is_known && entry.to_bytes() == *bytes)
    }

    /// Makes the step in another lock manager, and compares the answers. A new lock manager that has replayed all
    /// entries of a hub, in their order, is in the state of the hub's.
    ///
    /// A step that was answered INSFMEM had changed nothing, so it is left out. If memory is refused here, the answer
    /// in [`Difference::made`] is INSFMEM: replay the same entry again.
    pub fn replay(&self, manager: &mut LockManager) -> Result<(), Difference> {
        if self.answer.condition == Condition::Failed(Error::Insfmem) {
            return Ok(());
        }
        let made = self.step.make(manager);
        if made == self.answer {
            return Ok(());
        }
        Err(Difference {
            journal: self.answer,
            made,
        })
    }
}

impl Step {
    fn make(&self, manager: &mut LockManager) -> Answer {
        let (mut number, mut ast) = (0, crate::raw::Ast::new());
        let handle = &mut manager.handle;
        let status = match self {
            Step::Declare(declaration) => handle.declare(&declaration.words(), &mut number),
            Step::SetValue(setting) => handle.set_value(&setting.words()),
            Step::Enq { request, name } => {
                let words = request.words(request.parent);
                handle.enq(&words, name.as_bytes(), &mut number)
            }
            Step::Convert { request, lock } => {
                handle.convert(&request.words(Some(*lock)), &mut number)
            }
            Step::Deq(dequeue) => handle.deq(&dequeue.words()),
            Step::Rundown(process) => handle.rundown(process.0),
            Step::Leave(node) => handle.leave(u32::from(*node)),
            Step::Search(node) => handle.search(u32::from(*node), &mut number),
            Step::Take(process) => handle.take(process.0, &mut ast),
            Step::Other(_) => Condition::Failed(Error::Badparam).number(),
        };
        Answer::of(status, number, &ast)
    }
}

/// A replayed step had another answer than in the journal. The lock manager was refused memory, or it had not replayed
/// all entries before this one and nothing else.
#[derive(Clone, Copy, Debug, PartialEq, Eq)]
#[non_exhaustive]
pub struct Difference {
    /// The answer in the journal.
    pub journal: Answer,
    /// The answer of the replay.
    pub made: Answer,
}

impl fmt::Display for Difference {
    fn fmt(&self, f: &mut fmt::Formatter<'_>) -> fmt::Result {
        write!(f, "{:?} in place of {:?}", self.made, self.journal)
    }
}

impl error::Error for Difference {}

/// The entries since the last cut: see [`Hub::entries`].
#[derive(Clone)]
pub struct Entries<'a> {
    hub: &'a Hub,
    places: Range<usize>,
}

impl Entries<'_> {
    fn read(&self, place: usize) -> Option<Entry> {
        let mut words = raw::Entry::new();
        answered(self.hub.handle.entry(place, &mut words)).ok()?;
        Some(Entry::of(&words))
    }
}

impl Iterator for Entries<'_> {
    type Item = Entry;

    fn next(&mut self) -> Option<Entry> {
        self.nth(0)
    }

    fn nth(&mut self, skipped: usize) -> Option<Entry> {
        let place = self.places.nth(skipped)?;
        self.read(place)
    }

    fn size_hint(&self) -> (usize, Option<usize>) {
        self.places.size_hint()
    }
}

impl DoubleEndedIterator for Entries<'_> {
    fn next_back(&mut self) -> Option<Entry> {
        let place = self.places.next_back()?;
        self.read(place)
    }
}

impl ExactSizeIterator for Entries<'_> {}

impl FusedIterator for Entries<'_> {}

/// A part of a journal: the entries from one cut to the next, in order. See [`Hub::cut`].
#[derive(Clone, Debug, PartialEq, Eq)]
#[non_exhaustive]
pub struct Journal {
    /// How many entries were handed out before.
    pub base: u64,
    /// The entries.
    pub entries: Vec<Entry>,
}

impl Journal {
    /// The entries.
    pub fn iter(&self) -> slice::Iter<'_, Entry> {
        self.entries.iter()
    }
}

impl IntoIterator for Journal {
    type Item = Entry;
    type IntoIter = vec::IntoIter<Entry>;

    fn into_iter(self) -> vec::IntoIter<Entry> {
        self.entries.into_iter()
    }
}

impl<'a> IntoIterator for &'a Journal {
    type Item = &'a Entry;
    type IntoIter = slice::Iter<'a, Entry>;

    fn into_iter(self) -> slice::Iter<'a, Entry> {
        self.iter()
    }
}

impl Hub {
    /// The entries since the last cut, in order. Each step of the iterator takes constant time, also `nth`.
    pub fn entries(&self) -> Entries<'_> {
        Entries {
            hub: self,
            places: 0..self.handle.entries(),
        }
    }

    /// Hands out all entries since the last cut, and begins a new part. The parts in their order are the whole journal.
    /// A hub that runs for long must cut: nothing else shortens its journal.
    ///
    /// It takes its memory first, some 700 bytes for each entry, so cut often. INSFMEM: nothing is cut.
    ///
    /// ```
    /// use vlm::hub::Hub;
    /// use vlm::LockManager;
    ///
    /// # fn main() -> Result<(), Box<dyn std::error::Error>> {
    /// let mut hub = Hub::new(1)?;
    /// hub.lost(1)?;
    /// let journal = hub.cut()?;
    /// assert_eq!((journal.base, journal.entries.len(), hub.entries().len()), (0, 1, 0));
    /// let mut manager = LockManager::new()?;
    /// for entry in &journal {
    ///     entry.replay(&mut manager)?;
    /// }
    /// # Ok(())
    /// # }
    /// ```
    pub fn cut(&mut self) -> Result<Journal, Error> {
        let count = self.handle.entries();
        let (mut words, mut entries) = (room(count)?, room(count)?);
        words.resize_with(count, raw::Entry::new);
        let mut cut = raw::Cut::new();
        answered(self.handle.cut(&mut words, &mut cut))?;
        entries.extend(words.iter().take(cut.count as usize).map(Entry::of));
        Ok(Journal {
            base: cut.base,
            entries,
        })
    }
}

/// An empty vector with room for this many.
fn room<T>(count: usize) -> Result<Vec<T>, Error> {
    let mut room = Vec::new();
    let is_refused = room.try_reserve_exact(count).is_err();
    if is_refused {
        return Err(Error::Insfmem);
    }
    Ok(room)
}
