//! The condition values: how requests end, and why calls fail.

use std::error;
use std::fmt;

use crate::raw;

/// Why a call was refused, or a request ended without a grant ($ENQ and $DEQ, Condition Values Returned). Departed,
/// Timeout and Full are this project's own.
#[derive(Clone, Copy, Debug, PartialEq, Eq, Hash)]
#[non_exhaustive]
#[allow(missing_docs)]
pub enum Error {
    Notqueued,
    Abort,
    Cancel,
    Deadlock,
    Cancelgrant,
    Sublocks,
    Ivlockid,
    Cvtungrant,
    Parnotgrant,
    Exdepth,
    Exenqlm,
    Nolockid,
    Insfmem,
    Ivbuflen,
    Badparam,
    Unsupported,
    Nosyslck,
    Accvio,
    Nonexpr,
    Departed,
    /// A wait has lasted as long as it may. The request was cancelled.
    Timeout,
    /// The lock service or the session has ended: its locks are gone. Only a
    /// [`Connection`](crate::service::Connection) answers it.
    Lost,
    /// A port knows no free place. Take items, and post again.
    Full,
    /// A number that this version does not know.
    Other(UnknownCondition),
}

/// The number of an error that this version does not know. Only [`Condition::of`] makes one, so it is neither a success
/// nor an error with a name:
///
/// ```compile_fail,E0423
/// let success = vlm::Error::Other(vlm::UnknownCondition(1));
/// ```
#[derive(Clone, Copy, Debug, PartialEq, Eq, Hash)]
pub struct UnknownCondition(u32);

/// The condition value of an answer or of a status block. Widenotvalid is this project's own.
///
/// ```
/// use vlm::{Condition, Error};
///
/// assert_eq!(Condition::of(6), Condition::Failed(Error::Deadlock));
/// assert_eq!(Error::Deadlock.to_string(), "SS$_DEADLOCK");
/// assert!(matches!(Condition::of(1000), Condition::Failed(Error::Other(_))));
/// ```
#[derive(Clone, Copy, Debug, PartialEq, Eq, Hash)]
#[non_exhaustive]
pub enum Condition {
    /// Success; of a request, a grant.
    Normal,
    /// Granted at once.
    Synch,
    /// A grant, with an invalid value block.
    Valnotvalid,
    /// A grant, with a value block of which only the first 16 bytes are valid.
    Widenotvalid,
    /// No success.
    Failed(Error),
}

// Each known condition value, with its number in the headers.
const CONDITIONS: [(u32, Condition); 27] = [
    (1, Condition::Normal),
    (2, Condition::Synch),
    (3, Condition::Failed(Error::Notqueued)),
    (4, Condition::Failed(Error::Abort)),
    (5, Condition::Failed(Error::Cancel)),
    (6, Condition::Failed(Error::Deadlock)),
    (7, Condition::Valnotvalid),
    (8, Condition::Failed(Error::Cancelgrant)),
    (9, Condition::Failed(Error::Sublocks)),
    (10, Condition::Failed(Error::Ivlockid)),
    (11, Condition::Failed(Error::Cvtungrant)),
    (12, Condition::Failed(Error::Parnotgrant)),
    (13, Condition::Failed(Error::Exdepth)),
    (14, Condition::Failed(Error::Exenqlm)),
    (15, Condition::Failed(Error::Nolockid)),
    (16, Condition::Failed(Error::Insfmem)),
    (17, Condition::Failed(Error::Ivbuflen)),
    (18, Condition::Failed(Error::Badparam)),
    (19, Condition::Failed(Error::Unsupported)),
    (20, Condition::Failed(Error::Nosyslck)),
    (21, Condition::Failed(Error::Accvio)),
    (22, Condition::Failed(Error::Nonexpr)),
    (23, Condition::Failed(Error::Departed)),
    (24, Condition::Widenotvalid),
    (vlm_sys::threads::TIMEOUT, Condition::Failed(Error::Timeout)),
    (vlm_sys::client::LOST, Condition::Failed(Error::Lost)),
    (vlm_sys::hub::FULL, Condition::Failed(Error::Full)),
];

impl Condition {
    /// The condition of a number. Each number has one.
    pub fn of(number: u32) -> Condition {
        let known = CONDITIONS.iter().find(|known| known.0 == number);
        let unknown = Condition::Failed(Error::Other(UnknownCondition(number)));
        known.map_or(unknown, |known| known.1)
    }

    /// Its number in the headers of the library.
    pub fn number(self) -> u32 {
        match self {
            Condition::Failed(Error::Other(unknown)) => unknown.0,
            known => CONDITIONS
                .iter()
                .find(|it| it.1 == known)
                .map_or(0, |it| it.0),
        }
    }

    /// Its name in the manual, such as SS$_DEADLOCK, or the plain one of this project's own.
    pub fn name(self) -> &'static str {
        raw::condition_name(self.number()).unwrap_or("an unknown condition")
    }

    /// Whether it is the status of a request that was granted.
    pub fn is_grant(self) -> bool {
        !matches!(self, Condition::Synch | Condition::Failed(_))
    }

    /// The condition of a success, or else the error.
    pub fn success(self) -> Result<Condition, Error> {
        match self {
            Condition::Failed(error) => Err(error),
            success => Ok(success),
        }
    }
}

impl fmt::Display for Condition {
    fn fmt(&self, f: &mut fmt::Formatter<'_>) -> fmt::Result {
        match self {
            Condition::Failed(Error::Other(unknown)) => write!(f, "condition {}", unknown.0),
            known => f.write_str(known.name()),
        }
    }
}

impl fmt::Display for Error {
    fn fmt(&self, f: &mut fmt::Formatter<'_>) -> fmt::Result {
        Condition::Failed(*self).fmt(f)
    }
}

impl error::Error for Error {}

/// The success of a call, or its error.
pub(crate) fn answered(status: u32) -> Result<Condition, Error> {
    // (most calls are answered so)
    if status == 1 {
        return Ok(Condition::Normal);
    }
    Condition::of(status).success()
}
