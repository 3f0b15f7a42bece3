//! The numbers that cross the interface: the record, the event, the answer.
//! Everything in this program is kept in this form; only `model.rs` knows the
//! model's own types.

pub const RECORD: usize = 55;
pub type Record = [u32; RECORD];
pub type Event = [u32; 6];
pub type Answer = [u32; 4];
/// What the rate question answers: refusal number, whole reference and rate.
pub type Figures = [u32; 3];

pub const POWERED: usize = 0;
pub const RANGE: usize = 1;
pub const FILTER: usize = 2;
pub const KIT: usize = 3;
pub const FIRMWARE: usize = 4;
pub const FITTED: usize = 5;
pub const CODE: usize = 6;
pub const BURSTS: usize = 7;
pub const GROUND: usize = 8;
pub const BINARY: usize = 9;
pub const DIFFERENTIAL: usize = 10;
pub const BARRED: usize = 11;
pub const SIMULTANEOUS: usize = 12;
pub const SELECTION: usize = 13;
pub const EXTERNAL: usize = 14;
pub const ENABLED: usize = 15;
pub const CIRCULAR: usize = 16;
pub const CALIBRATING: usize = 17;
pub const CAL_FAILED: usize = 18;
pub const CALIBRATED: usize = 19;
pub const DIVISOR: usize = 20;
pub const NCLK: usize = 21;
pub const ALT: usize = 22;
pub const SETTLING: usize = 23;
pub const BURST: usize = 24;
pub const SOFTWARE: usize = 25;
pub const PENDING: usize = 26;
pub const OPENED: usize = 27;
pub const BUFFER_OVERFLOW: usize = 28;
pub const FRAME_OVERFLOW: usize = 29;
pub const MASK: usize = 30;
pub const CURSOR: usize = 31;
pub const REQUEST: usize = 32;
pub const FIRST: usize = 33;
pub const COUNT: usize = 34;
pub const LEVELS: usize = 35;

const NAMES: [&str; LEVELS] = [
    "powered",
    "range",
    "filter",
    "kit",
    "firmware",
    "fitted",
    "code",
    "bursts",
    "ground",
    "binary",
    "differential",
    "barred",
    "simultaneous",
    "selection",
    "external",
    "enabled",
    "circular",
    "calibrating",
    "cal_failed",
    "calibrated",
    "divisor",
    "nclk",
    "alt",
    "settling",
    "burst",
    "software",
    "pending",
    "opened",
    "buffer_overflow",
    "frame_overflow",
    "mask",
    "cursor",
    "request",
    "first",
    "count",
];

pub const ANSWERS: [&str; 4] = ["refusal", "register", "moved", "fate"];
pub const FIGURES: [&str; 3] = ["rate refusal", "reference", "rate"];

/// The fields that are 0 or 1.
pub const FLAGS: [usize; 22] = [
    POWERED,
    BURSTS,
    GROUND,
    BINARY,
    DIFFERENTIAL,
    BARRED,
    SIMULTANEOUS,
    EXTERNAL,
    ENABLED,
    CIRCULAR,
    CALIBRATING,
    CAL_FAILED,
    CALIBRATED,
    ALT,
    SETTLING,
    BURST,
    SOFTWARE,
    PENDING,
    OPENED,
    BUFFER_OVERFLOW,
    FRAME_OVERFLOW,
    REQUEST,
];

/// Event kinds.
pub const POWER_UP: u32 = 1;
pub const WRITE: u32 = 2;
pub const READ: u32 = 3;
pub const TICK: u32 = 4;
pub const OUTSIDE: u32 = 5;
pub const TRIGGER: u32 = 6;
pub const PASSED: u32 = 7;
pub const FAILED: u32 = 8;
pub const SETTLED: u32 = 9;

pub const BCR: u32 = 0x00;
pub const BOR: u32 = 0x0C;
pub const REGISTERS: [u32; 8] = [0x00, 0x04, 0x08, 0x0C, 0x10, 0x14, 0x18, 0x1C];

/// The settings of a power-up, from its second number on, and the largest number
/// that each may be.
pub const SETTINGS: [(&str, u32); 5] = [
    ("fitted", 15),
    ("range", 2),
    ("filter", 2),
    ("kit", 2),
    ("firmware", 4095),
];

pub const EOF: u32 = 0x1_0000;

pub fn name(field: usize) -> String {
    if field < LEVELS {
        NAMES[field].to_string()
    } else {
        format!("level {:02}", field - LEVELS)
    }
}

/// A field's value as it is printed.
pub fn show(field: usize, value: u32) -> String {
    match field {
        MASK => format!("{value:08X}h"),
        DIVISOR | NCLK | FIRMWARE => format!("{value:04X}h"),
        f if f >= LEVELS => format!("{value:04X}h"),
        _ if value > 0xFFFF => format!("{value} ({value:08X}h)"),
        _ => format!("{value}"),
    }
}

pub fn simple(kind: u32) -> Event {
    [kind, 0, 0, 0, 0, 0]
}

pub fn write(offset: u32, value: u32) -> Event {
    [WRITE, offset, value, 0, 0, 0]
}

pub fn read(offset: u32) -> Event {
    [READ, offset, 0, 0, 0, 0]
}

/// The depth, if the fitted code has one.
pub fn depth(fitted: u32) -> Option<u32> {
    (fitted <= 15).then(|| 8 << fitted)
}

/// The channels of a kit, as a mask.
pub fn channels(kit: u32) -> u32 {
    match kit {
        0 => 0x3F,
        1 => 0xFFF,
        _ => 0xF_FFFF,
    }
}

/// The active size of a record whose settings are in range.
pub fn size(record: &Record) -> u32 {
    8 << record[CODE].min(record[FITTED]).min(15)
}

pub fn closed(record: &Record) -> bool {
    record[CIRCULAR] == 1 && record[OPENED] == 0
}

/// The record of a fresh power-up with the settings of `of`. Only a base line
/// for printing and for shrinking: nothing is compared with it.
pub fn fresh(of: &Record) -> Record {
    let mut record = [0; RECORD];
    record[POWERED] = 1;
    for field in [RANGE, FILTER, KIT, FIRMWARE, FITTED] {
        record[field] = of[field];
    }
    record[CODE] = 15;
    record[BINARY] = 1;
    record[DIVISOR] = 0x64;
    record[MASK] = channels(of[KIT]);
    record[REQUEST] = 1;
    record[LEVELS..].fill(0x8000);
    record
}

/// The clauses of soundness that a record breaks, in words. Only for printing
/// and for `--coverage`; the comparison itself never asks.
pub fn broken_clauses(r: &Record) -> Vec<&'static str> {
    let mut broken = Vec::new();
    let mut clause = |holds: bool, text: &'static str| {
        if !holds {
            broken.push(text);
        }
    };
    clause(r[POWERED] == 1, "powered");
    clause(r[FITTED] <= 15, "fitted <= 15");
    clause(r[RANGE] <= 2, "range <= 2");
    clause(r[FILTER] <= 2, "filter <= 2");
    clause(r[KIT] <= 2, "kit <= 2");
    clause(r[FIRMWARE] <= 4095, "firmware <= 4095");
    if let Some(depth) = depth(r[FITTED]) {
        clause(r[FIRST] < depth, "first < depth");
        clause(r[COUNT] <= depth, "count <= depth");
    }
    clause(
        r[MASK] & !channels(r[KIT]) == 0,
        "no mask bit of an unfitted channel",
    );
    clause(r[CURSOR] <= 20, "cursor <= 20");
    clause(
        r[SIMULTANEOUS] == 0 || r[CURSOR] == 0 || r[CURSOR] > 20,
        "cursor 0 in simultaneous mode",
    );
    clause(r[CODE] <= 15, "size code <= 15");
    clause(r[SELECTION] <= 7, "selection <= 7");
    clause(r[NCLK] <= 511, "Nclk <= 511");
    clause(
        r[PENDING] == 0 || r[CIRCULAR] == 1,
        "pending only if circular",
    );
    clause(
        r[OPENED] == 0 || r[CIRCULAR] == 1,
        "opened only if circular",
    );
    clause(
        r[PENDING] == 0 || r[OPENED] == 0,
        "never both pending and opened",
    );
    clause(
        r[BURST] == 0 || r[BURSTS] == 1,
        "burst only with bursts enabled",
    );
    clause(
        r[SOFTWARE] == 0 || r[BURST] == 1,
        "software-started only with a burst",
    );
    clause(
        r[CALIBRATING] == 0 || r[CALIBRATED] == 0,
        "not both calibrating and calibrated",
    );
    broken
}
