//! What is lent to the other side for a session file, and what it made of it.

use compare::fields::RECORD;
use compare::file::{self, MEMORY};
use compare::guarded::{Guarded, Wrongs};
use compare::memory::Memory;
use compare::model;

/// What stands beside the file, and beside and in the output.
const GUARD: u8 = 0xA5;

/// The memory, the file and the output, each between guards.
pub struct Lent {
    memory: Memory,
    file: Guarded<u8>,
    output: Guarded<u8>,
}

impl Lent {
    pub fn new() -> Lent {
        Lent {
            memory: Memory::new(MEMORY),
            file: Guarded::new(GUARD),
            output: Guarded::new(GUARD),
        }
    }

    /// Fills the memory. Without this it is as the last session left it.
    pub fn set_memory(&mut self, entry: impl FnMut() -> u32) {
        self.memory.set(MEMORY, entry);
    }

    /// The listing of a file, with an output that is at least as long as the
    /// room. `listing` is the model's.
    pub fn list(&mut self, bytes: &[u8], more: usize, listing: &str) -> Wrongs {
        let length = self.call(bytes, nergutsai::room(bytes.len()) + more);
        play(bytes, listing, &mut self.memory.model);
        let mut wrongs = Vec::new();
        if length != listing.len() {
            wrongs.push(format!("the length answered {}/{length}", listing.len()));
        }
        if !self.output.inside().starts_with(listing.as_bytes()) {
            wrongs.push("the text".to_string());
        }
        self.look_around(bytes, listing.len(), &mut wrongs);
        wrongs
    }

    /// The same with an output that is shorter than the room: "0 if the output
    /// is shorter [...]: then nothing was run and nothing written."
    pub fn refuse(&mut self, bytes: &[u8], output: usize) -> Wrongs {
        let length = self.call(bytes, output);
        let mut wrongs = Vec::new();
        if length != 0 {
            wrongs.push(format!("answered {length}, not 0"));
        }
        self.look_around(bytes, 0, &mut wrongs);
        for wrong in &mut wrongs {
            *wrong += &format!(", with an output of only {output} bytes");
        }
        wrongs
    }

    /// What ours wrote, as far as it can be text.
    pub fn whole_text(&self) -> String {
        let inside = self.output.inside();
        let end = inside.iter().position(|byte| *byte == GUARD);
        String::from_utf8_lossy(&inside[..end.unwrap_or(inside.len())]).into_owned()
    }

    fn call(&mut self, bytes: &[u8], output: usize) -> usize {
        self.file.set(bytes.iter().copied());
        self.output.unset(output);
        nergutsai::list_call(
            self.file.inside(),
            self.memory.ours.lent(),
            self.output.lent(),
        )
    }

    /// Everything but the text of so many bytes.
    fn look_around(&mut self, bytes: &[u8], text: usize, wrongs: &mut Wrongs) {
        if !self.output.is_unset(text) {
            wrongs.push("the output past the text".to_string());
        }
        self.output.look_beside("bytes beside the output", wrongs);
        self.file.look_at("the file was written to", bytes, wrongs);
        self.file.look_beside("bytes beside the file", wrongs);
        self.memory.compare(wrongs);
    }
}

/// "Records are read one at a time": what the records that have a line in the
/// listing leave in the memory.
fn play(bytes: &[u8], listing: &str, memory: &mut [u32]) {
    let mut record = [0; RECORD];
    for place in file::places(bytes).into_iter().take(records(listing)) {
        if let Some(event) = file::event(&bytes[place]) {
            model::call(&mut record, memory, &event, &mut [0; 4]);
        }
    }
}

/// How many records have a line: those that begin with a number.
pub fn records(listing: &str) -> usize {
    let numbered = |line: &&str| line.starts_with(|c: char| c.is_ascii_digit());
    listing.lines().filter(numbered).count()
}
