//! The events of a session while it is made. They are played on the model with
//! the largest size code in every write to BOR, so that what comes next can go
//! by what is stored where nothing is lost to a smaller size.

use compare::bits::*;
use compare::fields::*;
use compare::file::MEMORY;
use compare::model;
use compare::rng::Rng;

pub struct Board {
    pub events: Vec<Event>,
    pub record: Record,
    memory: Vec<u32>,
}

impl Board {
    /// Unpowered, with a memory for this fitted code, and the usual one at least.
    pub fn new(fitted: u32) -> Board {
        Board {
            events: Vec::new(),
            record: [0; RECORD],
            memory: vec![0; MEMORY.max(8 << fitted)],
        }
    }

    pub fn put(&mut self, event: Event) {
        let mut played = event;
        if event[..2] == [WRITE, BOR] {
            played[2] |= CODE_BITS;
        }
        model::call(&mut self.record, &mut self.memory, &played, &mut [0; 4]);
        self.events.push(event);
    }

    pub fn stored(&self) -> u32 {
        self.record[COUNT]
    }

    pub fn is_closed(&self) -> bool {
        closed(&self.record)
    }

    /// The bits that BCR keeps, as they are.
    pub fn bcr(&self) -> u32 {
        let r = &self.record;
        r[BURSTS] | r[BINARY] << 4 | r[SIMULTANEOUS] << 7 | r[SELECTION] << 8
    }

    /// The bits that BOR keeps, as they are, but for the size code.
    pub fn bor(&self) -> u32 {
        let r = &self.record;
        r[EXTERNAL] << 4 | r[ENABLED] << 5 | r[CIRCULAR] << 8
    }

    /// A write to BOR of these bits, any size code, and now and then a software
    /// clock, or bits that nobody keeps.
    pub fn put_bor(&mut self, rng: &mut Rng, bits: u32) {
        let mut value = bits | rng.below(16) | rng.flag() << 16 | rng.flag() << 17;
        if rng.chance(1, 8) {
            value |= SOFTWARE_CLOCK;
        }
        if rng.chance(1, 8) {
            value |= rng.word() & UNUSED_BOR;
        }
        self.put(write(BOR, value));
    }

    /// So many loads of any value, some with EOF.
    pub fn load(&mut self, rng: &mut Rng, times: u32) {
        for _ in 0..times {
            let eof = rng.pick(&[0, 0, 0, 0, 0, 0, 0, EOF]);
            self.put(write(0x18, value(rng) | eof));
        }
    }

    /// A load that ends a frame.
    pub fn load_last(&mut self, rng: &mut Rng) {
        self.put(write(0x18, value(rng) | EOF));
    }

    /// A clock that the settings accept, mostly; now and then it is first given
    /// what it waits for.
    pub fn clock(&mut self, rng: &mut Rng) {
        let r = self.record;
        let outside = r[EXTERNAL] == 1 && r[ALT] == 0;
        if r[BURSTS] == 1 && r[BURST] == 0 && rng.chance(1, 2) {
            self.put(simple(TRIGGER));
        }
        if outside && r[SETTLING] == 1 && rng.chance(1, 2) {
            self.put(simple(SETTLED));
        }
        let other = rng.chance(1, 16);
        let kind = if outside != other { OUTSIDE } else { TICK };
        self.put(simple(kind));
    }
}

/// Data, sometimes under bits that nobody keeps.
fn value(rng: &mut Rng) -> u32 {
    let word = rng.word();
    if rng.chance(1, 16) {
        word & !EOF
    } else {
        word & 0xFFFF
    }
}
