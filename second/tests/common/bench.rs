//! The board of bench.rs, cutter.rs and high_quarter.rs.

use second::{step, Answer, Event, Record};

/// A board with its memory, for short test lines.
pub struct Bench {
    pub record: Record,
    pub memory: Vec<u32>,
}

impl Bench {
    /// Powered up, with junk in every memory entry and 3 entries too many.
    pub fn new(fitted: u32, kit: u32) -> Bench {
        let mut bench = Bench {
            record: Record::unpowered(),
            memory: vec![0xDEAD_BEEF; (8 << fitted) + 3],
        };
        let up = Event::PowerUp {
            fitted,
            range: 1,
            filter: 2,
            kit,
            firmware: 0x123,
        };
        assert_eq!(bench.go(up), answer(0, 0, 0, 0));
        bench
    }
    pub fn go(&mut self, event: Event) -> Answer {
        step(&mut self.record, &mut self.memory, &event)
    }
    pub fn write(&mut self, offset: u32, value: u32) -> Answer {
        self.go(Event::Write { offset, value })
    }
    pub fn read(&mut self, offset: u32) -> u32 {
        let answer = self.go(Event::Read { offset });
        assert_eq!(answer.refusal, 0);
        answer.register
    }
    pub fn load(&mut self, value: u32) -> u32 {
        let answer = self.write(0x18, value);
        assert_eq!(answer.refusal, 0);
        answer.fate
    }
    pub fn tick(&mut self) -> u32 {
        let answer = self.go(Event::Tick);
        assert_eq!(answer.refusal, 0);
        answer.moved
    }
    pub fn bor_bit(&mut self, n: u32) -> bool {
        (self.read(0x0C) >> n) & 1 == 1
    }
    pub fn bcr_bit(&mut self, n: u32) -> bool {
        (self.read(0x00) >> n) & 1 == 1
    }
}

pub fn answer(refusal: u32, register: u32, moved: u32, fate: u32) -> Answer {
    Answer {
        refusal,
        register,
        moved,
        fate,
    }
}
