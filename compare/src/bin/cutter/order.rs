//! What is asked of the cutter: "a recording as a lent slice of 16-bit numbers,
//! group after group, with the number of channels in a group", the "groups a to b
//! (from 0, both taken) and a chosen subset of channels".

/// "1 to 20"
pub const LARGEST_GROUP: u32 = 20;

#[derive(Clone)]
pub struct Order {
    pub recording: Vec<u16>,
    pub channels: u32,
    pub first: usize,
    pub last: usize,
    /// Bit k is channel k.
    pub mask: u32,
}

impl Order {
    /// How many whole groups there are; of no channels there is none.
    pub fn groups(&self) -> usize {
        let channels = self.channels as usize;
        self.recording.len().checked_div(channels).unwrap_or(0)
    }

    /// How many groups are cut, "both taken"; of a bad order as many as there
    /// could be, or one more.
    pub fn taken(&self) -> usize {
        let last = self.last.min(self.groups());
        1 + last.saturating_sub(self.first)
    }

    /// The chosen channels, ascending.
    pub fn chosen(&self) -> Vec<usize> {
        let bits = 0..u32::BITS as usize;
        bits.filter(|bit| self.mask >> bit & 1 == 1).collect()
    }

    /// How many values are cut.
    pub fn values(&self) -> usize {
        self.taken() * self.mask.count_ones() as usize
    }

    /// How long the session is: the opening byte, and eight for each write.
    pub fn length(&self) -> usize {
        1 + 8 * (1 + self.values())
    }

    /// The number of a channel in a group that is there.
    pub fn number(&self, group: usize, channel: usize) -> u16 {
        self.recording[group * self.channels as usize + channel]
    }

    /// In few words.
    pub fn words(&self) -> String {
        format!(
            "groups {} to {} of {}, mask {:08X}h of {} channels",
            self.first,
            self.last,
            self.groups(),
            self.mask,
            self.channels
        )
    }
}
