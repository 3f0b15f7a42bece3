//! The proved board, event by event, over a sample memory with junk in it.

use super::levels::{Expected, Levels};
use super::order::Order;
use super::play::Play;
use compare::fields::*;
use compare::file::{self, MEMORY};
use compare::guarded::Guarded;
use compare::rng::Rng;
use compare::words::short;

/// What stands beside the memory.
const GUARD: u32 = 0xC0DE_FACE;

pub struct Board {
    record: Record,
    /// How many events there were.
    events: u32,
    pub memory: Guarded<u32>,
}

impl Board {
    pub fn new() -> Board {
        let mut board = Board {
            record: [0; RECORD],
            events: 0,
            memory: Guarded::new(GUARD),
        };
        board.fill(0);
        board
    }

    /// Fills the memory with junk: the stream of this number.
    fn fill(&mut self, stream: u32) {
        let mut junk = Rng::new(stream as u64, 1);
        self.memory.set((0..MEMORY).map(|_| junk.word()));
    }

    /// Plays the session of a good order from the unpowered record on. Answers the
    /// last levels, or what went wrong first.
    pub fn play(&mut self, order: &Order, play: &Play, session: &[u8]) -> Result<Levels, String> {
        (self.record, self.events) = ([0; RECORD], 0);
        if let Some(stream) = play.junk {
            self.fill(stream);
        }
        self.put(&play.power_up)?;
        for event in file::events(session) {
            self.put(&event)?;
        }
        // "store exactly the chosen numbers"
        self.holds(order.values(), "after the loads")?;
        for event in play.settings() {
            self.put(&event)?;
        }
        let mut expected = Expected::new(order, play);
        self.puts_out(&expected.levels, 0)?;
        for tick in 0..play.ticks(order) {
            self.put(&simple(TICK))?;
            expected.tick(tick);
            self.puts_out(&expected.levels, tick + 1)?;
        }
        self.holds(0, "after the last tick")?;
        Ok(expected.levels)
    }

    /// An event: it is accepted, and no value is lost.
    fn put(&mut self, event: &Event) -> Result<(), String> {
        self.events += 1;
        let mut answer = [u32::MAX; 4];
        let memory = self.memory.lent();
        let status = nergutsai::call(&mut self.record, memory, event, &mut answer);
        let [refusal, _, _, fate] = answer;
        let wrong = match (status, refusal, fate) {
            (0, 0, 0 | 1) => return Ok(()),
            (0, 0, _) => format!("fate {fate}"),
            (0, ..) => format!("refused {refusal}"),
            _ => format!("not understood, {status}"),
        };
        let (number, event) = (self.events, short(event));
        Err(format!("played event {number}, {event}: {wrong}"))
    }

    /// So many values are stored.
    fn holds(&self, values: usize, when: &str) -> Result<(), String> {
        let stored = self.record[COUNT];
        if stored as usize == values {
            return Ok(());
        }
        Err(format!("{when} {stored} stored, expected {values}"))
    }

    /// All levels are these, after so many ticks.
    fn puts_out(&self, expected: &Levels, ticks: usize) -> Result<(), String> {
        let levels = &self.record[LEVELS..];
        for (output, (level, expected)) in levels.iter().zip(expected).enumerate() {
            if level != expected {
                return Err(format!(
                    "tick {ticks}: output {output:02} at {level:04X}h, expected {expected:04X}h"
                ));
            }
        }
        Ok(())
    }
}
