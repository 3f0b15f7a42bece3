//! One call of the writer: the rows, how long the output is, and the place.

use super::rows;
use compare::panics::caught;
use compare::rng::Rng;
use compare::room;

#[derive(Clone)]
pub struct Call {
    pub rows: Vec<u32>,
    pub room: usize,
    pub place: usize,
    /// What stands in the output before: the stream of this number.
    pub junk: u32,
    /// What must be written, if a file is written again.
    pub file: Option<Vec<u8>>,
}

/// How the rows, the outputs and the places are chosen, beside the files.
const WRITING: u64 = 0x3217_2026;

impl Call {
    /// The rows that call number `index` of a seed writes.
    pub fn new(seed: u64, index: u64) -> Call {
        let mut rng = Rng::new(seed ^ WRITING, index);
        let rows = rows::choose(&mut rng);
        let (room, place) = room::choose(rows::session(&rows), &mut rng);
        Call {
            rows,
            room,
            place,
            junk: rng.word(),
            file: None,
        }
    }

    /// The file that call number `index` of a seed writes again, from the rows
    /// that are read from it; none if it is refused.
    pub fn again(seed: u64, index: u64, file: Vec<u8>) -> Option<Call> {
        let mut rng = Rng::new(seed ^ !WRITING, index);
        let (room, place) = room::enough(file.len(), &mut rng);
        Some(Call {
            rows: read(&file)?,
            room,
            place,
            junk: rng.word(),
            file: Some(file),
        })
    }

    /// The same with another file, and as many bytes to spare.
    pub fn with_file(&self, file: &[u8]) -> Option<Call> {
        let before = self.file.as_ref().map_or(0, Vec::len);
        Some(Call {
            rows: read(file)?,
            room: (self.room + file.len()).checked_sub(before)?,
            file: Some(file.to_vec()),
            ..*self
        })
    }

    /// How many rows, in words.
    pub fn words(&self) -> String {
        let some = |n: usize, what: &str| format!("{n} {what}{}", if n == 1 { "" } else { "s" });
        let events = some(self.rows.len() / rows::ROW, "event");
        match self.rows.len() % rows::ROW {
            0 => events,
            more => format!("{events} and {}", some(more, "number")),
        }
    }
}

/// "Reading back gives the events": the rows of a file, if it is not refused.
fn read(file: &[u8]) -> Option<Vec<u32>> {
    // A model that panics has read no events.
    caught(|| second::rows_of(file))
        .unwrap_or(Ok(Vec::new()))
        .ok()
}
