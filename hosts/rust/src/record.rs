//! A board record.

/// Where the parts of a record stand that have a method here (hosts/c/nergutsai.h names each number).
const REQUEST: usize = 32;
const FIRST: usize = 33;
const COUNT: usize = 34;
const LEVELS: usize = 35;

/// A board record as the model lays it out (hosts/c/nergutsai.h names each number).
/// Any 55 numbers may be handed in; a damaged record is refused by its own number.
#[derive(Clone, Debug, PartialEq, Eq)]
pub struct Record(pub [u32; 55]);

impl Record {
    /// The board before its first power-up.
    #[must_use]
    pub fn unpowered() -> Record {
        Record([0; 55])
    }

    /// What each of the 20 channels puts out, channel 0 first.
    #[must_use]
    pub fn levels(&self) -> [u16; 20] {
        // The board takes the low 16 bits of a level too.
        std::array::from_fn(|channel| self.0[LEVELS + channel] as u16)
    }

    /// Where the oldest stored value stands in the sample memory.
    #[must_use]
    pub fn first(&self) -> u32 {
        self.0[FIRST]
    }

    /// How many values are stored.
    #[must_use]
    pub fn count(&self) -> u32 {
        self.0[COUNT]
    }

    /// Whether an interrupt is requested.
    #[must_use]
    pub fn request(&self) -> bool {
        self.0[REQUEST] != 0
    }
}
