//! Both sides, one event at a time, and what differs between them.

use crate::fields::*;
use crate::{model, ours};
use compare::panics::caught;

/// What stands around everything that is lent to the other side.
const GUARD: u32 = 0xC0DE_FACE;
const GUARDS: usize = 8;
/// What stands in an answer that has not been written.
pub const UNWRITTEN: u32 = 0xA5A5_A5A5;
/// The status of a side that panicked.
pub const PANICKED: u32 = u32::MAX;
/// Memories up to this length are compared whole after every event.
const WHOLE: usize = 4096;
/// Longer ones are compared whole after every 16th event and at the end, and
/// this near to the touched places after every event.
const EVERY: u32 = 16;
const NEAR: usize = 24;

/// What one side said to one event.
#[derive(Clone, Copy, PartialEq, Eq, Debug)]
pub struct Outcome {
    /// 0 understood, PANICKED, or what the other side returned.
    pub status: u32,
    pub answer: Answer,
}

/// The small things that are lent to the other side, each between guards.
#[repr(C)]
struct Lent {
    guard_0: [u32; GUARDS],
    record: Record,
    guard_1: [u32; GUARDS],
    answer: Answer,
    guard_2: [u32; GUARDS],
    event: Event,
    guard_3: [u32; GUARDS],
}

/// The two sides.
pub struct Pair {
    pub record: Record,
    pub memory: Vec<u32>,
    lent: Box<Lent>,
    /// Guards, the entries, guards.
    lent_memory: Vec<u32>,
    steps: u32,
    /// Compare long memories whole after every event too.
    whole: bool,
    pub model: Outcome,
    pub ours: Outcome,
    /// The rate question on the record after the event.
    pub model_rate: Figures,
    pub ours_rate: Figures,
}

impl Pair {
    pub fn new(whole: bool) -> Pair {
        let guard = [GUARD; GUARDS];
        let nothing = Outcome {
            status: 0,
            answer: [0; 4],
        };
        Pair {
            record: [0; RECORD],
            memory: Vec::new(),
            lent: Box::new(Lent {
                guard_0: guard,
                record: [0; RECORD],
                guard_1: guard,
                answer: [0; 4],
                guard_2: guard,
                event: [0; 6],
                guard_3: guard,
            }),
            lent_memory: Vec::new(),
            steps: 0,
            whole,
            model: nothing,
            ours: nothing,
            model_rate: [0; 3],
            ours_rate: [0; 3],
        }
    }

    /// Both sides start from the same record and memory.
    pub fn start(&mut self, record: &Record, memory: &[u32]) {
        self.record = *record;
        self.memory.clear();
        self.memory.extend_from_slice(memory);
        let guard = [GUARD; GUARDS];
        self.lent.guard_0 = guard;
        self.lent.record = *record;
        self.lent.guard_1 = guard;
        self.lent.guard_2 = guard;
        self.lent.guard_3 = guard;
        self.lent_memory.clear();
        self.lent_memory.extend_from_slice(&guard);
        self.lent_memory.extend_from_slice(memory);
        self.lent_memory.extend_from_slice(&guard);
        self.steps = 0;
    }

    /// One event on both sides. True if nothing differs.
    pub fn step(&mut self, event: &Event) -> bool {
        let long = self.memory.len() > WHOLE && !self.whole;
        let before = (self.record[FIRST], self.record[COUNT]);

        self.model = model_step(&mut self.record, &mut self.memory, event);

        self.lent.event = *event;
        self.lent.answer = [UNWRITTEN; 4];
        let lent = &mut *self.lent;
        let entries = GUARDS..self.lent_memory.len() - GUARDS;
        let lent_memory = &mut self.lent_memory[entries];
        self.ours.status =
            caught(|| ours::call(&mut lent.record, lent_memory, &lent.event, &mut lent.answer))
                .unwrap_or(PANICKED);
        self.ours.answer = self.lent.answer;
        self.model_rate = model::rate(&self.record);
        self.ours_rate = ours::rate(&self.lent.record);
        self.steps += 1;

        let memory_same = if long && self.steps % EVERY != 0 {
            self.same_near(before) && self.same_near((self.record[FIRST], self.record[COUNT]))
        } else {
            self.memory[..] == *self.ours_memory()
        };
        self.model == self.ours
            && self.model.status == 0
            && self.record == self.lent.record
            && self.model_rate == self.ours_rate
            && memory_same
            && self.lent.event == *event
            && self.guards_stand()
    }

    /// The end of a session. True if nothing differs.
    pub fn end(&self) -> bool {
        self.memory[..] == *self.ours_memory()
    }

    pub fn ours_record(&self) -> &Record {
        &self.lent.record
    }

    pub fn ours_memory(&self) -> &[u32] {
        &self.lent_memory[GUARDS..self.lent_memory.len() - GUARDS]
    }

    pub fn event_kept(&self, event: &Event) -> bool {
        self.lent.event == *event
    }

    pub fn guards_stand(&self) -> bool {
        let stand = |guards: &[u32]| guards.iter().all(|word| *word == GUARD);
        stand(&self.lent.guard_0)
            && stand(&self.lent.guard_1)
            && stand(&self.lent.guard_2)
            && stand(&self.lent.guard_3)
            && stand(&self.lent_memory[..GUARDS])
            && stand(&self.lent_memory[self.lent_memory.len() - GUARDS..])
    }

    /// The entries near both ends of the stored values, of the depth and of
    /// the memory.
    fn same_near(&self, (first, count): (u32, u32)) -> bool {
        let ours = self.ours_memory();
        let depth = depth(self.record[FITTED]).unwrap_or(8) as usize;
        let places = [
            0,
            first as usize % depth,
            (first as usize + count as usize) % depth,
            depth,
            self.memory.len(),
        ];
        places.iter().all(|place| {
            let low = place.saturating_sub(NEAR).min(ours.len());
            let high = (place + NEAR).min(ours.len());
            self.memory[low..high] == ours[low..high]
        })
    }
}

/// One event on the model alone.
pub fn model_step(record: &mut Record, memory: &mut [u32], event: &Event) -> Outcome {
    let mut answer = [UNWRITTEN; 4];
    let status = caught(|| model::call(record, memory, event, &mut answer)).unwrap_or(PANICKED);
    Outcome { status, answer }
}

/// A start and a list of events.
#[derive(Clone)]
pub struct Case {
    pub record: Record,
    pub memory: Vec<u32>,
    pub events: Vec<Event>,
}

impl Case {
    /// The model's record and memory after the first `n` events.
    pub fn after(&self, n: usize) -> (Record, Vec<u32>) {
        let (mut record, mut memory) = (self.record, self.memory.clone());
        for event in &self.events[..n] {
            model_step(&mut record, &mut memory, event);
        }
        (record, memory)
    }
}

/// What differs, and after which event (counted from 0).
pub struct Difference {
    pub at: usize,
    pub event: Event,
    pub model: Outcome,
    pub ours: Outcome,
    /// Field, model's value, ours.
    pub fields: Vec<(usize, u32, u32)>,
    /// Place, model's entry, ours.
    pub entries: Vec<(usize, u32, u32)>,
    /// The figures of the rate question, the model's and ours.
    pub rates: (Figures, Figures),
    pub guards_stand: bool,
    pub event_kept: bool,
    /// The signal that ended the other side.
    pub signal: Option<i32>,
}

/// What a shrunk case must keep, so that it still shows the same difference.
pub type Key = (u32, u32, u32, u32, u32, u32);

impl Difference {
    pub fn key(&self) -> Key {
        let mut event = (self.event[0], 0);
        if matches!(self.event[0], WRITE | READ) {
            let known = REGISTERS.contains(&self.event[1]);
            event.1 = if known { self.event[1] } else { u32::MAX };
        }
        // Differing refusals are mostly not about the event: any other shows
        // them as well.
        let refusals = (self.model.answer[0], self.ours.answer[0]);
        if refusals.0 != refusals.1 && self.event[0] != POWER_UP && self.signal.is_none() {
            event = (0, 0);
        }
        (
            event.0,
            event.1,
            self.model.status,
            refusals.0,
            self.ours.status,
            if self.signal.is_some() {
                u32::MAX
            } else {
                refusals.1
            },
        )
    }

    /// The names of what differs, in short.
    pub fn names(&self) -> Vec<String> {
        let mut names = Vec::new();
        if let Some(signal) = self.signal {
            return vec![format!("ours died of signal {signal}")];
        }
        if self.model.status == PANICKED {
            return vec!["model panicked".to_string()];
        }
        if self.ours.status == PANICKED {
            return vec!["ours panicked".to_string()];
        }
        if self.model.status != self.ours.status {
            names.push(format!("status {}", self.ours.status));
        }
        for (i, name) in ANSWERS.iter().enumerate() {
            let (model, ours) = (self.model.answer[i], self.ours.answer[i]);
            if ours == UNWRITTEN {
                names.push(format!("{name} not written"));
            } else if model != ours {
                names.push(if i == 1 {
                    format!("{name} {model:X}h/{ours:X}h")
                } else {
                    format!("{name} {model}/{ours}")
                });
            }
        }
        let levels = self.fields.iter().filter(|f| f.0 >= LEVELS).count();
        for (field, model, ours) in &self.fields {
            if *field < LEVELS || levels == 1 {
                names.push(format!(
                    "{} {}/{}",
                    name(*field),
                    show(*field, *model),
                    show(*field, *ours)
                ));
            }
        }
        if levels > 1 {
            names.push(format!("{levels} levels"));
        }
        match self.entries.len() {
            0 => {}
            1 => names.push(format!("memory[{}]", self.entries[0].0)),
            n => names.push(format!("{n} memory entries")),
        }
        for (i, name) in FIGURES.iter().enumerate() {
            let (model, ours) = (self.rates.0[i], self.rates.1[i]);
            if model != ours {
                names.push(format!("{name} {model}/{ours}"));
            }
        }
        if !self.guards_stand {
            names.push("words beside the lent slices".to_string());
        }
        if !self.event_kept {
            names.push("the event was written to".to_string());
        }
        names
    }
}

/// Runs a case. The first difference, if any.
pub fn run(case: &Case) -> Option<Difference> {
    let mut pair = Pair::new(true);
    pair.start(&case.record, &case.memory);
    for (at, event) in case.events.iter().enumerate() {
        if !pair.step(event) {
            return Some(difference(&pair, at, event));
        }
    }
    None
}

/// All that differs after a step that said so.
pub fn difference(pair: &Pair, at: usize, event: &Event) -> Difference {
    let fields = (0..RECORD)
        .map(|f| (f, pair.record[f], pair.ours_record()[f]))
        .filter(|(_, model, ours)| model != ours)
        .collect();
    let entries = pair
        .memory
        .iter()
        .zip(pair.ours_memory())
        .enumerate()
        .map(|(place, (model, ours))| (place, *model, *ours))
        .filter(|(_, model, ours)| model != ours)
        .collect();
    Difference {
        at,
        event: *event,
        model: pair.model,
        ours: pair.ours,
        fields,
        entries,
        rates: (pair.model_rate, pair.ours_rate),
        guards_stand: pair.guards_stand(),
        event_kept: pair.event_kept(event),
        signal: None,
    }
}
