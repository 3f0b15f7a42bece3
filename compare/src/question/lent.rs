//! What is lent to both sides for a session file, and what they made of it.

use super::{Question, Said, Tried};
use crate::guarded::{Guarded, Wrongs};
use crate::memory::Memory;
use crate::panics::caught;

/// What stands beside the file.
const GUARD: u8 = 0xA5;

/// The memory, the file and the numbers, each between guards.
pub struct Lent<Q: Question> {
    memory: Memory,
    /// The memory as it was lent.
    before: Vec<u32>,
    file: Guarded<u8>,
    numbers: Guarded<Q::Number>,
}

pub struct Found<Q: Question> {
    /// None if it panicked.
    pub model: Option<Q::Said>,
    pub ours: Q::Said,
    /// The memory was full of junk.
    pub junk: bool,
    pub wrongs: Wrongs,
}

impl<Q: Question> Lent<Q> {
    pub fn new() -> Lent<Q> {
        Lent {
            memory: Memory::new(0),
            before: Vec::new(),
            file: Guarded::new(GUARD),
            numbers: Guarded::new(Q::GUARD),
        }
    }

    /// Asks both sides.
    pub fn ask(&mut self, tried: &Tried<Q>) -> Found<Q> {
        let junk = self.memory.lend(tried.memory);
        self.before.clone_from(&self.memory.model);
        let model = caught(|| Q::model(&tried.bytes, &mut self.memory.model));
        let ours = self.ours(&tried.bytes);
        let mut wrongs = Vec::new();
        match &model {
            Some(model) => model.compare(&ours, &mut wrongs),
            None => wrongs.push("model panicked".to_string()),
        }
        let untouched = self.memory.ours.inside() == self.before;
        ours.laws(untouched, &mut wrongs);
        self.look_around(&tried.bytes, &mut wrongs);
        Found {
            model,
            ours,
            junk,
            wrongs,
        }
    }

    fn ours(&mut self, bytes: &[u8]) -> Q::Said {
        self.file.set(bytes.iter().copied());
        self.numbers.unset(Q::NUMBERS);
        Q::ours(
            self.file.inside(),
            self.memory.ours.lent(),
            self.numbers.lent(),
        )
    }

    fn look_around(&mut self, bytes: &[u8], wrongs: &mut Wrongs) {
        self.numbers.look_beside(Q::BESIDE, wrongs);
        self.file.look_at("the file was written to", bytes, wrongs);
        self.file.look_beside("bytes beside the file", wrongs);
        self.memory.compare(wrongs);
    }
}

impl<Q: Question> Found<Q> {
    /// What each side said.
    pub fn print(&self) {
        match &self.model {
            Some(model) => model.print(&self.ours),
            None => println!("the model panicked; ours answers {}", self.ours.refusal()),
        }
    }
}
