//! What can be told from a record at any moment: the size, the flags and the
//! read-only bits. All of these are asked only of a sound record.

use crate::record::{depth_of, Record};

impl Record {
    /// "The active size is 8·2^m, where m is the lesser of size code and d."
    pub(crate) fn size(&self) -> u32 {
        depth_of(self.code.min(self.fitted))
    }

    /// "empty at count 0"
    pub(crate) fn empty(&self) -> bool {
        self.count == 0
    }

    /// "low quarter at 4·count < size"
    pub(crate) fn low_quarter(&self) -> bool {
        4 * self.count < self.size()
    }

    /// "Amend 01: high quarter when 4·count is at least 3·size." (request 2026-06)
    pub(crate) fn high_quarter(&self) -> bool {
        4 * self.count >= 3 * self.size()
    }

    /// "full at count ≥ size"
    pub(crate) fn full(&self) -> bool {
        self.count >= self.size()
    }

    /// "closed = circular and not opened"
    pub(crate) fn closed(&self) -> bool {
        self.circular && !self.opened
    }

    /// "D10 reads "not closed""
    pub(crate) fn load_ready(&self) -> bool {
        !self.closed()
    }

    /// "Reads: D1 = enabled and no burst"
    pub(crate) fn burst_ready(&self) -> bool {
        self.bursts && !self.burst
    }

    /// "D6 reads EXTERNAL and neither settling nor calibrating."
    pub(crate) fn clock_ready(&self) -> bool {
        self.external && !self.settling && !self.calibrating
    }
}
