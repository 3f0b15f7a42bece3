//! What both sides said to a call that writes a session into a lent output: the
//! refusal, the end, and the output afterwards.

use crate::guarded::{Guarded, Wrongs};
use crate::panics::caught;
use crate::rng::Rng;
use second::Written;

/// What stands beside the output and beside the end.
const GUARD_BYTE: u8 = 0xA5;
const GUARD_END: usize = 0xC0DE_FACE;
/// The end before it is set.
const UNSET: usize = 0x5A5A_5A5A_5A5A;
/// The most bytes that are printed of an output.
const BYTES: usize = 12;

/// What one side said.
pub struct Said {
    /// None if it panicked.
    pub refusal: Option<u32>,
    pub end: usize,
    pub output: Vec<u8>,
}

pub struct Sides {
    pub model: Said,
    pub ours: Said,
}

/// What stands in an output before: the stream of this number.
pub fn junk(room: usize, stream: u32) -> Vec<u8> {
    let mut junk = Rng::new(stream as u64, 0);
    (0..room).map(|_| junk.word() as u8).collect()
}

impl Said {
    /// The model writes into this output.
    pub fn model(mut output: Vec<u8>, write: impl FnOnce(&mut [u8]) -> Written) -> Said {
        let said = caught(|| write(&mut output));
        Said {
            refusal: said.map(|Written { refusal, .. }| refusal),
            end: said.map_or(0, |Written { place, .. }| place),
            output,
        }
    }

    /// The other side does, and sets the end. Tells what it wrote beside them.
    pub fn ours(
        output: Vec<u8>,
        wrongs: &mut Wrongs,
        write: impl FnOnce(&mut [u8], &mut usize) -> u32,
    ) -> Said {
        let mut lent = Guarded::new(GUARD_BYTE);
        let mut end = Guarded::new(GUARD_END);
        lent.set(output);
        end.set([UNSET]);
        let refusal = write(lent.lent(), &mut end.lent()[0]);
        lent.look_beside("bytes beside the output", wrongs);
        end.look_beside("words beside the end", wrongs);
        Said {
            refusal: Some(refusal),
            end: end.inside()[0],
            output: lent.inside().to_vec(),
        }
    }
}

impl Sides {
    /// What differs, each in words; model/ours.
    pub fn compare(&self) -> Wrongs {
        let (model, ours) = (&self.model, &self.ours);
        if model.refusal.is_none() {
            return vec!["model panicked".to_string()];
        }
        let mut wrongs = Vec::new();
        for (what, model, ours) in [
            ("refusal", number(model.refusal), number(ours.refusal)),
            ("end", end(model.end), end(ours.end)),
        ] {
            if model != ours {
                wrongs.push(format!("{what} {model}/{ours}"));
            }
        }
        if let [(place, model, ours), more @ ..] = &self.bytes()[..] {
            let and = match more.len() {
                0 => String::new(),
                more => format!(" and {more} more"),
            };
            wrongs.push(format!("output[{place}] {model:02X}h/{ours:02X}h{and}"));
        }
        wrongs
    }

    /// The bytes of the output that differ: the place, the model's, ours.
    fn bytes(&self) -> Vec<(usize, u8, u8)> {
        let (model, ours) = (&self.model.output, &self.ours.output);
        if model == ours {
            return Vec::new();
        }
        let both = model.iter().zip(ours).enumerate();
        both.map(|(place, (model, ours))| (place, *model, *ours))
            .filter(|(_, model, ours)| model != ours)
            .collect()
    }

    /// The session that ours wrote, from this place on; none if it was refused.
    pub fn session(&self, place: usize, wrongs: &mut Wrongs) -> Option<&[u8]> {
        if self.ours.refusal != Some(0) {
            return None;
        }
        let session = self.ours.output.get(place..self.ours.end);
        if session.is_none() {
            wrongs.push("nothing to read back".to_string());
        }
        session
    }

    /// What each side said, and the bytes that differ.
    pub fn text(&self) -> String {
        let mut text = format!("      {:<16} {:<12} ours\n", "", "model");
        let mut line = |what: &str, model: String, ours: String| {
            let mark = if model == ours { "" } else { "  <-- differ" };
            let both = format!("      {what:<16} {model:<12} {ours:<12}{mark}");
            text += both.trim_end();
            text += "\n";
        };
        let (model, ours) = (&self.model, &self.ours);
        line("refusal", number(model.refusal), number(ours.refusal));
        line("end", end(model.end), end(ours.end));
        let bytes = self.bytes();
        for (place, model, ours) in bytes.iter().take(BYTES) {
            line(
                &format!("output[{place}]"),
                format!("{model:02X}h"),
                format!("{ours:02X}h"),
            );
        }
        if bytes.len() > BYTES {
            text += &format!("      and {} more bytes differ\n", bytes.len() - BYTES);
        }
        text
    }
}

/// "Reading back gives the events": the rows that the second model reads.
pub fn read_back(session: &[u8]) -> Result<Vec<u32>, String> {
    match caught(|| second::rows_of(session)) {
        Some(Ok(rows)) => Ok(rows),
        Some(Err(refusal)) => Err(format!("refused {refusal} when read back")),
        None => Err("model panicked when reading back".to_string()),
    }
}

fn number(refusal: Option<u32>) -> String {
    refusal.map_or("panicked".to_string(), |number| number.to_string())
}

fn end(end: usize) -> String {
    match end {
        UNSET => "not set".to_string(),
        place => place.to_string(),
    }
}
