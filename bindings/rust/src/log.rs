//! Taking nudges back.
use crate::refusal::granted;
use crate::{Density, Refusal, raw};
use core::fmt;

/// A nudge in a [`Log`]. It crosses as one word of 64 bits, and so is aligned as one.
#[repr(C, align(8))]
#[derive(Clone, Copy, Debug, Default, PartialEq, Eq, Hash)]
pub struct Record {
    /// What the entry was set to.
    pub new: u16,
    /// What it was before.
    pub old: u16,
    /// Which entry of the table it is.
    pub index: u16,
    /// 0: there is one table.
    pub channel: u16,
}

/// The nudges of one sitting on a table, so that they can be taken back: at most [`PLACES`](Log::PLACES) of them.
///
/// The table is lent at each call, and the log goes with that one table. As long as only this log's calls change the
/// table, from a granted [`start`](Log::start) or [`accept`](Log::accept) on: the table is the starting one, which the
/// last of these left, with the [`standing`](Log::standing) nudges done in order, so that taking all of them back gives
/// the starting table; the table is nondecreasing; and no call is refused with [`BadLog`](Refusal::BadLog).
///
/// A refused call changes neither table nor log.
///
/// ```
/// use brassgroat::{Density, Log, Refusal};
///
/// let mut table = [10, 20, 30];
/// let mut log = Log::new();
/// log.accept(&table)?;
/// log.nudge(&mut table, 1, Density(25))?;
/// log.nudge(&mut table, 1, Density(29))?;
/// assert_eq!(log.standing().len(), 2);
/// log.take_back(&mut table)?;
/// assert_eq!(table, [10, 25, 30]);
/// log.take_back(&mut table)?;
/// assert_eq!(table, [10, 20, 30]);
/// assert_eq!(log.take_back(&mut table), Err(Refusal::NothingToTakeBack));
/// # Ok::<(), Refusal>(())
/// ```
///
/// With another table, or one that was changed by other means, a take-back is refused where the last nudge does not go
/// with it: the table has no such entry, or another than the nudge's new one, or the old one would not fit between the
/// neighbours. Where the last nudge happens to go with that table it is taken back there, so keep one log for each
/// table.
///
/// ```
/// use brassgroat::{Density, Log, Refusal};
///
/// let (mut table, mut other) = ([10, 20, 30], [10, 20, 30]);
/// let mut log = Log::new();
/// log.accept(&table)?;
/// log.nudge(&mut table, 1, Density(25))?;
/// assert_eq!(log.take_back(&mut other), Err(Refusal::BadLog));
/// assert_eq!(other, [10, 20, 30]);
/// # Ok::<(), Refusal>(())
/// ```
#[derive(Clone)]
pub struct Log {
    records: [Record; Log::PLACES],
    count: usize,
}

impl Log {
    /// How many nudges a log holds.
    pub const PLACES: usize = 63;

    /// A log in which no nudge stands.
    pub const fn new() -> Log {
        Log { records: [Record { new: 0, old: 0, index: 0, channel: 0 }; Log::PLACES], count: 0 }
    }

    /// The nudges that stand, the oldest first.
    pub fn standing(&self) -> &[Record] {
        &self.records[..self.count]
    }

    /// As [`start`](crate::start), and empties the log.
    ///
    /// # Errors
    /// [`TableLength`](Refusal::TableLength) below 2 entries or above 65,536.
    pub fn start(&mut self, table: &mut [u16]) -> Result<(), Refusal> {
        // SAFETY: a slice's pointer and length, and a log's own array and count, see `raw`
        granted(unsafe {
            raw::bg_log_start(table.as_mut_ptr(), table.len(), self.records.as_mut_ptr(), &mut self.count)
        })
    }

    /// As [`accept`](crate::accept), and empties the log.
    ///
    /// # Errors
    /// [`TableLength`](Refusal::TableLength); [`NotNondecreasing`](Refusal::NotNondecreasing).
    pub fn accept(&mut self, table: &[u16]) -> Result<(), Refusal> {
        // SAFETY: a slice's pointer and length, and a log's own array and count, see `raw`
        granted(unsafe { raw::bg_log_accept(table.as_ptr(), table.len(), self.records.as_mut_ptr(), &mut self.count) })
    }

    /// As [`nudge`](crate::nudge), and logs it. A nudge to the entry's own number is granted and logged too.
    ///
    /// # Errors
    /// [`TableLength`](Refusal::TableLength); [`IndexBeyond`](Refusal::IndexBeyond);
    /// [`NotNondecreasing`](Refusal::NotNondecreasing); [`OutsideNeighbours`](Refusal::OutsideNeighbours);
    /// [`LogFull`](Refusal::LogFull). No record is looked at, so a log of another table is no reason to refuse.
    pub fn nudge(&mut self, table: &mut [u16], index: usize, density: Density) -> Result<(), Refusal> {
        // SAFETY: a slice's pointer and length, and a log's own array and count, see `raw`
        granted(unsafe {
            raw::bg_log_nudge(
                table.as_mut_ptr(),
                table.len(),
                self.records.as_mut_ptr(),
                &mut self.count,
                index,
                density,
            )
        })
    }

    /// Undoes the last nudge that stands: its entry is the old one again, and its place in the log is free.
    ///
    /// # Errors
    /// [`TableLength`](Refusal::TableLength); [`NotNondecreasing`](Refusal::NotNondecreasing);
    /// [`BadLog`](Refusal::BadLog) where the last nudge does not go with the table;
    /// [`NothingToTakeBack`](Refusal::NothingToTakeBack).
    pub fn take_back(&mut self, table: &mut [u16]) -> Result<(), Refusal> {
        // SAFETY: a slice's pointer and length, and a log's own array and count, see `raw`
        granted(unsafe {
            raw::bg_take_back(table.as_mut_ptr(), table.len(), self.records.as_mut_ptr(), &mut self.count)
        })
    }
}

impl Default for Log {
    fn default() -> Log {
        Log::new()
    }
}

/// The standing nudges alone: what a free place holds is no part of the log.
impl fmt::Debug for Log {
    fn fmt(&self, f: &mut fmt::Formatter<'_>) -> fmt::Result {
        f.debug_tuple("Log").field(&self.standing()).finish()
    }
}
