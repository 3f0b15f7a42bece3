//! The stored values: the oldest stands at `first`, the others follow it.

use crate::record::Record;

/// "bits 15..0 data, bit 16 the end-of-frame mark (EOF)."
pub(crate) const VALUE: u32 = 0x0001_FFFF;
pub(crate) const EOF: u32 = 0x0001_0000;

/// "The record keeps `first` and `count`." While values move, the two stand here.
pub(crate) struct Queue {
    first: u32,
    count: u32,
    wrap: u32, // depth - 1; the depth is a power of two, so "mod depth" is "& wrap"
}

impl Queue {
    /// A sound record's queue.
    pub(crate) fn of(record: &Record) -> Queue {
        Queue {
            first: record.first,
            count: record.count,
            wrap: record.depth() - 1,
        }
    }

    /// The two numbers go back into their record.
    pub(crate) fn put_back(self, record: &mut Record) {
        record.first = self.first;
        record.count = self.count;
    }

    /// The oldest stored value. The caller asks only if there is one. "Only
    /// those 17 bits are used".
    pub(crate) fn oldest(&self, memory: &[u32]) -> u32 {
        memory[self.first as usize] & VALUE
    }

    /// "A leaving value moves first on by one, mod depth."
    pub(crate) fn leave(&mut self) {
        self.first = (self.first + 1) & self.wrap;
        self.count -= 1;
    }

    /// "A value is stored at (first + count) mod depth."
    /// "Only those 17 bits are used or written; the rest of a written entry is
    /// 0."
    pub(crate) fn store(&mut self, memory: &mut [u32], value: u32) {
        let place = (self.first + self.count) & self.wrap;
        memory[place as usize] = value & VALUE;
        self.count += 1;
    }
}

/// One value stored in a record's buffer. The caller asks only if there is room.
pub(crate) fn store(record: &mut Record, memory: &mut [u32], value: u32) {
    let mut queue = Queue::of(record);
    queue.store(memory, value);
    queue.put_back(record);
}
