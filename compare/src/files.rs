//! Session files, valid and damaged, from a seed.

use crate::damage;
use crate::fields::*;
use crate::file::{self, LONGEST};
use crate::generate::Session;
use crate::model;
use crate::rng::Rng;

/// The sorts of file.
#[derive(Clone, Copy, PartialEq, Eq, PartialOrd, Ord, Debug)]
pub enum Sort {
    /// A valid file of a few records.
    Short,
    /// A valid file of a few hundred, with runs of loads and clocks.
    Long,
    /// A few bytes short of the longest file.
    Near,
    /// The longest file.
    Longest,
    TooLong,
    Empty,
    /// The first byte is not 01.
    Version,
    /// Cut at any byte.
    Cut,
    /// One of a row of files: the same one, cut at each byte in turn.
    EachCut,
    WrongLength,
    ZeroLength,
    UnknownKind,
    /// Random bytes after a valid start.
    Tail,
    /// Some bytes are others.
    Flipped,
    /// A byte is missing, or there is one too many.
    Shifted,
}

impl Sort {
    pub fn name(self) -> &'static str {
        match self {
            Sort::Short => "valid, short",
            Sort::Long => "valid, long",
            Sort::Near => "up to 40 bytes short of 65,536",
            Sort::Longest => "exactly 65,536 bytes",
            Sort::TooLong => "longer",
            Sort::Empty => "empty",
            Sort::Version => "first byte not 01",
            Sort::Cut => "cut",
            Sort::EachCut => "cut at each byte in turn",
            Sort::WrongLength => "a wrong length",
            Sort::ZeroLength => "a length of 0",
            Sort::UnknownKind => "an unknown kind",
            Sort::Tail => "random bytes after a valid start",
            Sort::Flipped => "other bytes here and there",
            Sort::Shifted => "a byte missing or too many",
        }
    }

    /// One that takes long, or cannot be short.
    pub fn is_long(self) -> bool {
        matches!(
            self,
            Sort::Long | Sort::Near | Sort::Longest | Sort::TooLong
        )
    }
}

/// The row of each cut: of every ROW files, the first CUTS.
const ROW: u64 = 2048;
const CUTS: u64 = 96;

pub struct File {
    pub sort: Sort,
    pub bytes: Vec<u8>,
}

impl File {
    /// File number `index` of a seed.
    pub fn new(seed: u64, index: u64) -> File {
        let cut = index % ROW;
        if cut < CUTS {
            let mut bytes = session(Rng::new(seed, index - cut), 40);
            bytes.truncate(cut as usize);
            let sort = Sort::EachCut;
            return File { sort, bytes };
        }
        let mut rng = Rng::new(seed, index);
        let sort = sort(&mut rng);
        let bytes = bytes(sort, &mut rng);
        File { sort, bytes }
    }
}

/// A third is damaged.
fn sort(rng: &mut Rng) -> Sort {
    match rng.below(10_000) {
        0..=3 => Sort::Near,
        4..=6 => Sort::Longest,
        7..=12 => Sort::TooLong,
        13..=69 => Sort::Long,
        70..=99 => Sort::Empty,
        100..=299 => Sort::Version,
        300..=799 => Sort::Cut,
        800..=1399 => Sort::WrongLength,
        1400..=1799 => Sort::ZeroLength,
        1800..=2299 => Sort::UnknownKind,
        2300..=2699 => Sort::Tail,
        2700..=3099 => Sort::Flipped,
        3100..=3299 => Sort::Shifted,
        _ => Sort::Short,
    }
}

fn bytes(sort: Sort, rng: &mut Rng) -> Vec<u8> {
    match sort {
        Sort::Long => {
            let records = 100 + rng.below(400);
            let mut bytes = long_session(rng.fork(), records);
            if rng.chance(1, 4) {
                damage::any(&mut bytes, rng);
            }
            bytes
        }
        Sort::Near => {
            let length = LONGEST - 1 - rng.below(40) as usize;
            let mut bytes = filled(length, rng);
            if rng.chance(1, 3) {
                damage::any(&mut bytes, rng);
            }
            bytes
        }
        Sort::Longest => filled(LONGEST, rng),
        Sort::TooLong => {
            let more = rng.pick(&[1, 1, 1, 2, 3, 1000, LONGEST, LONGEST + 1]);
            filled(LONGEST + more, rng)
        }
        Sort::Empty => Vec::new(),
        _ => {
            let most = rng.pick(&[10, 10, 30, 30, 55, 55, 55, 55, 140]);
            let records = 5 + rng.below(most);
            let mut bytes = session(rng.fork(), records);
            match sort {
                Sort::Version => damage::version(&mut bytes, rng),
                Sort::Cut => damage::cut(&mut bytes, rng),
                Sort::WrongLength => damage::wrong_length(&mut bytes, rng),
                Sort::ZeroLength => damage::zero_length(&mut bytes, rng),
                Sort::UnknownKind => damage::unknown_kind(&mut bytes, rng),
                Sort::Tail => damage::tail(&mut bytes, rng),
                Sort::Flipped => damage::flip(&mut bytes, rng),
                Sort::Shifted => damage::shift(&mut bytes, rng),
                _ => {}
            }
            bytes
        }
    }
}

/// A valid file: what the event chooser makes of so many records.
fn session(rng: Rng, records: u32) -> Vec<u8> {
    let mut bytes = vec![file::OPENING];
    play(Session::of_file(rng, records), |event, _| {
        bytes.extend_from_slice(&file::record(event));
        1
    });
    bytes
}

/// No runs past this many bytes.
const RUNS: usize = 16_000;

/// The same with runs: a load or a clock comes up to a thousand times over, so
/// that deeper buffers fill, wrap round and run empty.
fn long_session(mut rng: Rng, records: u32) -> Vec<u8> {
    let mut bytes = vec![file::OPENING];
    play(Session::of_file(rng.fork(), records), |event, record| {
        let runs = event[0] == TICK || event[0] == OUTSIDE || event[1] == 0x18;
        let times = if runs && bytes.len() < RUNS && rng.chance(1, 12) {
            let any = 1 + rng.below(70);
            rng.pick(&[8 << record[FITTED].min(7), any])
        } else {
            1
        };
        for _ in 0..times {
            bytes.extend_from_slice(&file::record(event));
        }
        times
    });
    bytes
}

/// Plays a session on the model. `put` is told each event and the record
/// before it, and says how many times the event comes.
fn play(mut session: Session, mut put: impl FnMut(&Event, &Record) -> u32) {
    let mut record = session.record;
    let mut memory = session.memory.clone();
    while let Some(event) = session.next(&record) {
        let event = file::held(&event);
        for _ in 0..put(&event, &record) {
            model::call(&mut record, &mut memory, &event, &mut [0; 4]);
        }
    }
}

/// A valid file of exactly so many bytes: a session over and over, then ticks
/// of three bytes and reads of four.
fn filled(length: usize, rng: &mut Rng) -> Vec<u8> {
    let records = 50 + rng.below(400);
    let once = long_session(rng.fork(), records);
    let mut bytes = vec![file::OPENING];
    for place in file::places(&once).into_iter().cycle() {
        // Six bytes and all above can be made of threes and fours.
        if bytes.len() + place.len() + 6 > length {
            break;
        }
        bytes.extend_from_slice(&once[place]);
    }
    while bytes.len() < length {
        let three = (length - bytes.len()) % 4 != 0;
        let event = if three { simple(TICK) } else { read(BOR) };
        bytes.extend_from_slice(&file::record(&event));
    }
    bytes
}

#[cfg(test)]
mod tests {
    use super::*;

    #[test]
    fn filled_files_are_valid_and_of_the_right_length() {
        let mut rng = Rng::new(1, 1);
        for length in LONGEST - 40..=LONGEST {
            let file = filled(length, &mut rng);
            assert_eq!(file.len(), length);
            assert!(!second::listing(&file).contains("FILE"));
        }
    }
}
