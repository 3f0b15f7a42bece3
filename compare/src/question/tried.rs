//! What is tried: a session file, and the sample memory that is lent with it.

use super::lent::Lent;
use super::Question;
use crate::guarded::Wrongs;
use crate::lending::Lending;
use crate::rng::Rng;
use crate::trials::Trial;

pub struct Tried<Q: Question> {
    pub sort: Q::Sort,
    pub bytes: Vec<u8>,
    pub memory: Lending,
}

impl<Q: Question> Trial for Tried<Q> {
    fn new(seed: u64, index: u64) -> Tried<Q> {
        let (sort, bytes) = Q::choose(seed, index);
        let mut rng = Rng::new(seed ^ Q::LENDING, index);
        let length = Q::memory(sort, &mut rng);
        Tried {
            sort,
            bytes,
            memory: Lending::new(length, &mut rng),
        }
    }

    fn name(&self) -> String {
        format!("{}; memory {}", self.sort, self.memory.length)
    }

    fn bytes(&self) -> &[u8] {
        &self.bytes
    }

    fn with_file(&self, bytes: &[u8]) -> Tried<Q> {
        Tried {
            bytes: bytes.to_vec(),
            ..*self
        }
    }

    fn alone(&self) -> Wrongs {
        Lent::new().ask(self).wrongs
    }

    fn print_sides(&self) {
        Lent::new().ask(self).print();
    }
}
