//! The events, their answers, and one step of the board.

use crate::record::Record;
use crate::{clock, interrupt, refuse, registers};

#[derive(Clone, Copy, Debug, PartialEq, Eq)]
pub enum Event {
    PowerUp {
        fitted: u32,
        range: u32,
        filter: u32,
        kit: u32,
        firmware: u32,
    },
    Write {
        offset: u32,
        value: u32,
    },
    Read {
        offset: u32,
    },
    Tick,
    Outside,
    Trigger,
    Passed,
    Failed,
    Settled,
}

/// "Each event answers: refusal number; register value (0 unless a read);
/// values moved (0 to 20); load fate (0 none, 1 stored, 2 lost to full, 3 lost
/// to closed)."
#[derive(Clone, Copy, Debug, PartialEq, Eq)]
pub struct Answer {
    pub refusal: u32,
    pub register: u32,
    pub moved: u32,
    pub fate: u32,
}

impl Answer {
    /// Done, with nothing read, moved or loaded.
    pub(crate) fn done() -> Answer {
        Answer {
            refusal: refuse::DONE,
            register: 0,
            moved: 0,
            fate: 0,
        }
    }
}

/// One event.
#[inline(always)]
pub fn step(record: &mut Record, memory: &mut [u32], event: &Event) -> Answer {
    // "On refusal the last three are 0, the given record comes back and memory
    // is unchanged."
    let refusal = refuse::refusal(record, memory.len(), event);
    if refusal != refuse::DONE {
        return Answer {
            refusal,
            ..Answer::done()
        };
    }

    // "Initialise just sets it." (the request; done in `initialise`): only the
    // other events ask for what was before them, and power-up asks nothing of
    // the old record, whatever that is.
    let before = (!initialises(event)).then(|| interrupt::before(record));
    let mut answer = Answer::done();

    match *event {
        Event::PowerUp {
            fitted,
            range,
            filter,
            kit,
            firmware,
        } => power_up(record, fitted, range, filter, kit, firmware),
        Event::Write { offset, value } => {
            (answer.moved, answer.fate) = registers::write(record, memory, offset, value)
        }
        Event::Read { offset } => answer.register = registers::read(record, offset),
        Event::Tick => answer.moved = clock::tick(record, memory),
        Event::Outside => answer.moved = clock::outside(record, memory),
        Event::Trigger => clock::trigger(record),
        Event::Passed => calibration_end(record, false),
        Event::Failed => calibration_end(record, true),
        // "starts settling, which lasts until the settled event or initialise"
        Event::Settled => record.settling = false,
    }

    if let Some(before) = before {
        interrupt::after(&before, record);
    }
    answer
}

/// "Power-up does the same." (as initialise)
fn power_up(record: &mut Record, fitted: u32, range: u32, filter: u32, kit: u32, firmware: u32) {
    // "any old record is accepted": nothing of it is left.
    *record = Record::unpowered();
    record.powered = true;
    record.fitted = fitted;
    record.range = range;
    record.filter = filter;
    record.kit = kit;
    record.firmware = firmware;
    record.initialise();
}

/// "A calibration end clears D13, sets "calibrated" and sets D14 on failure."
fn calibration_end(record: &mut Record, failed: bool) {
    record.calibrating = false;
    record.calibrated = true;
    if failed {
        record.cal_failed = true;
    }
}

/// Power-up, and "A BCR write with D15 set".
fn initialises(event: &Event) -> bool {
    match *event {
        Event::PowerUp { .. } => true,
        Event::Write { offset, value } => offset == 0x00 && registers::bit(value, 15),
        _ => false,
    }
}
