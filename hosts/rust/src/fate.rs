//! What became of a value that was loaded.

use std::fmt;

/// What became of a value that was loaded.
#[derive(Clone, Copy, Debug, PartialEq, Eq)]
pub enum Fate {
    /// The event was no load.
    NoLoad,
    /// The value is in the buffer.
    Stored,
    /// The buffer was full: the value is lost, and BUFFER OVERFLOW is set.
    LostToFull,
    /// The buffer was closed: the value is lost, and FRAME OVERFLOW is set.
    LostToClosed,
}

impl Fate {
    const ALL: [Fate; 4] = [
        Fate::NoLoad,
        Fate::Stored,
        Fate::LostToFull,
        Fate::LostToClosed,
    ];

    /// The number that an answer, and a line of a listing, has for it.
    #[must_use]
    pub fn number(self) -> u32 {
        match self {
            Fate::NoLoad => 0,
            Fate::Stored => 1,
            Fate::LostToFull => 2,
            Fate::LostToClosed => 3,
        }
    }

    /// The fate of this number; none where no fate has it.
    #[must_use]
    pub fn of(number: u32) -> Option<Fate> {
        Fate::ALL.into_iter().find(|fate| fate.number() == number)
    }
}

impl fmt::Display for Fate {
    fn fmt(&self, text: &mut fmt::Formatter) -> fmt::Result {
        text.write_str(match self {
            Fate::NoLoad => "no load",
            Fate::Stored => "stored",
            Fate::LostToFull => "lost to a full buffer",
            Fate::LostToClosed => "lost to a closed buffer",
        })
    }
}
