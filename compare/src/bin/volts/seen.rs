//! What happens in a session, told from the model's record before and after
//! each event. Only for `--coverage`; the comparison itself never asks.

use compare::fields::*;
use compare::{file, model};

const MIDDLE: u32 = 0x8000;

#[derive(Default)]
pub struct Seen {
    /// How many power-ups are accepted, and how many refused before that.
    pub accepted: u32,
    pub refused_first: u32,
    /// The range of the last accepted one.
    pub range: u32,
    /// A later one is accepted: with another range; after levels had moved.
    pub other_range: bool,
    pub moved_before: bool,
    /// A power-up is refused after an accepted one: with another good range.
    pub refused_after: bool,
    pub refused_range: bool,
    /// Another event is refused after a power-up.
    pub refused_event: bool,
    /// An initialise after levels had moved.
    pub initialised: bool,
    /// A clock brings a level to 8000h again.
    pub from_below: bool,
    pub from_above: bool,
    /// A clock moves values in two's complement, or in offset binary.
    pub complement: bool,
    pub binary: bool,
    /// The last event moves a value.
    pub moved_last: bool,
}

impl Seen {
    /// The records up to the first that has no event.
    pub fn new(bytes: &[u8], memory: usize) -> Seen {
        let mut seen = Seen::default();
        let mut memory = vec![0; memory];
        let mut record = [0; RECORD];
        for event in file::events(bytes) {
            let (before, mut answer) = (record, [0; 4]);
            model::call(&mut record, &mut memory, &event, &mut answer);
            seen.note(&event, answer, &before, &record);
        }
        seen
    }

    fn note(&mut self, event: &Event, answer: Answer, before: &Record, after: &Record) {
        let [refusal, _, moved, _] = answer;
        let away = before[LEVELS..].iter().any(|level| *level != MIDDLE);
        self.moved_last = moved > 0;
        match (event[0], refusal) {
            (POWER_UP, 0) => {
                self.other_range |= self.accepted > 0 && after[RANGE] != before[RANGE];
                self.moved_before |= self.accepted > 0 && away;
                self.accepted += 1;
                self.range = after[RANGE];
            }
            (POWER_UP, _) if self.accepted == 0 => self.refused_first += 1,
            (POWER_UP, _) => {
                self.refused_after = true;
                self.refused_range |= event[2] <= 2 && event[2] != before[RANGE];
            }
            (_, 0) if moved > 0 => self.clock(before, after),
            (_, 0) => {
                let initialises = event[..2] == [WRITE, BCR] && event[2] >> 15 & 1 == 1;
                self.initialised |= initialises && away;
            }
            (_, _) => self.refused_event |= self.accepted > 0,
        }
    }

    fn clock(&mut self, before: &Record, after: &Record) {
        self.complement |= after[BINARY] == 0;
        self.binary |= after[BINARY] == 1;
        for (before, after) in before[LEVELS..].iter().zip(&after[LEVELS..]) {
            self.from_below |= *before < MIDDLE && *after == MIDDLE;
            self.from_above |= *before > MIDDLE && *after == MIDDLE;
        }
    }
}
