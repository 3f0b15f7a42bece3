//! The five sessions that are replayed, each a session file of nearly 65,536 bytes, and its events as rows.

/// 01: "at most 65,536 bytes".
const LONGEST: usize = 65_536;

const MASK: u8 = 0x04;
const CONTROL: u8 = 0x00;
const BUFFER: u8 = 0x0C;
const DATA: u8 = 0x18;

/// BCR: offset binary; with all channels at once.
const BINARY: u32 = 0x10;
const SIMULTANEOUS: u32 = 0x80;
/// BOR: the whole buffer, clocking enabled; circular; a request to load.
const RUNNING: u32 = 0x2F;
const CIRCULAR: u32 = 0x100;
const LOAD_REQUEST: u32 = 0x200;
const EOF: u32 = 0x1_0000;

pub struct Sessions {
    pub name: &'static str,
    pub file: Vec<u8>,
    /// Six numbers an event.
    pub rows: Vec<u32>,
}

pub fn all() -> Vec<Sessions> {
    vec![
        named("streaming", streaming()),
        named("sparse", sparse()),
        named("circular", circular()),
        named("simultaneous", simultaneous()),
        named("random", random()),
    ]
}

fn named(name: &'static str, session: Session) -> Sessions {
    Sessions {
        name,
        file: session.file,
        rows: session.rows,
    }
}

/// A session file as it grows.
struct Session {
    file: Vec<u8>,
    rows: Vec<u32>,
}

impl Session {
    /// A board with a buffer of 2,048 values, twenty channels and offset binary, whose clock runs.
    fn new() -> Session {
        let mut session = Session {
            file: vec![1],
            rows: Vec::new(),
        };
        session.record(&[1, 8, 0, 0, 2, 0x00, 0x10]);
        session.write(BUFFER, RUNNING);
        session
    }

    fn record(&mut self, bytes: &[u8]) {
        self.file.extend((bytes.len() as u16).to_be_bytes());
        self.file.extend(bytes);
        self.rows.extend(row(bytes));
    }

    fn write(&mut self, offset: u8, value: u32) {
        let [a, b, c, d] = value.to_be_bytes();
        self.record(&[2, offset, a, b, c, d]);
    }

    fn load(&mut self, value: u32) {
        self.write(DATA, value);
    }

    fn tick(&mut self) {
        self.record(&[4]);
    }

    /// Whether so many bytes more still fit.
    fn takes(&self, bytes: usize) -> bool {
        self.file.len() + bytes <= LONGEST
    }
}

/// A record without its length, as six numbers.
fn row(record: &[u8]) -> [u32; 6] {
    let wide = |byte: u8| byte as u32;
    match *record {
        [1, d, range, filter, kit, high, low] => {
            let firmware = u16::from_be_bytes([high, low]) as u32;
            [1, wide(d), wide(range), wide(filter), wide(kit), firmware]
        }
        [2, offset, a, b, c, d] => [2, wide(offset), u32::from_be_bytes([a, b, c, d]), 0, 0, 0],
        [3, offset] => [3, wide(offset), 0, 0, 0, 0],
        [kind] => [wide(kind), 0, 0, 0, 0, 0],
        _ => unreachable!("every record is one of these"),
    }
}

/// A value of a slow wave.
fn sample(i: u32) -> u32 {
    (i * 37) & 0xFFFF
}

/// Values are loaded a few at a time and played to the channels one after another.
fn streaming() -> Session {
    streamed(Session::new())
}

/// The same to the last channel alone: for each value the search goes past all others.
fn sparse() -> Session {
    let mut session = Session::new();
    session.write(MASK, 1 << 19);
    streamed(session)
}

fn streamed(mut session: Session) -> Session {
    let mut i = 0;
    while session.takes(16 * 11 + 4) {
        for _ in 0..16 {
            session.load(sample(i));
            i += 1;
        }
        for _ in 0..16 {
            session.tick();
        }
        // the flags, as a host that keeps the buffer filled looks at them
        session.record(&[3, BUFFER]);
    }
    session
}

/// A frame of 1,000 values goes round; now and then one more frame is asked for and loaded.
fn circular() -> Session {
    let mut session = Session::new();
    for i in 0..999 {
        session.load(sample(i));
    }
    session.load(sample(999) | EOF);
    session.write(BUFFER, RUNNING | CIRCULAR);
    while session.takes(3 * 2_000 + 8) {
        for _ in 0..1_000 {
            session.tick();
        }
        session.write(BUFFER, RUNNING | CIRCULAR | LOAD_REQUEST);
        session.write(BUFFER, RUNNING | CIRCULAR);
        for _ in 0..1_000 {
            session.tick();
        }
    }
    session
}

/// Groups of twenty values, one for each channel, are loaded and played at once, and then go round.
fn simultaneous() -> Session {
    let mut session = Session::new();
    session.write(CONTROL, BINARY | SIMULTANEOUS);
    let mut i = 0;
    while session.takes(40 * 8 + 16 + 3 * 100) {
        for _ in 0..40 {
            session.load(sample(i));
            i += 1;
        }
        session.tick();
        session.write(BUFFER, RUNNING | CIRCULAR);
        for _ in 0..99 {
            session.tick();
        }
        session.write(BUFFER, RUNNING);
    }
    session
}

/// Events of every kind, in no order; small buffers and few channels, so that rules meet.
fn random() -> Session {
    let mut session = Session::new();
    let mut dice = Dice(1);
    while session.takes(16) {
        match dice.below(16) {
            0..=4 => session.load(dice.next() & 0x1_FFFF),
            5..=8 => session.tick(),
            9 => session.record(&[5]),
            10 => session.record(&[6]),
            11 => session.write(BUFFER, dice.next() & 0x3_F7FF),
            12 => session.write(CONTROL, dice.next() & 0x0FFF),
            13 => session.write(MASK, dice.next() & 0xF_FFFF),
            14 => session.record(&[3, 4 * dice.below(9) as u8]),
            _ => match dice.below(16) {
                0 => session.record(&[1, dice.below(6) as u8, 1, 0, 2, 0, 0x10]),
                1 => session.write(CONTROL, 0x2000),
                2..=4 => session.record(&[7]),
                5 => session.record(&[8]),
                6..=8 => session.write(0x1C, dice.next() & 0x3FF),
                9..=12 => session.record(&[9]),
                _ => session.write(0x08, dice.next() & 0xFFFF),
            },
        }
    }
    session
}

/// Numbers without order, the same in every run (xorshift).
struct Dice(u32);

impl Dice {
    fn next(&mut self) -> u32 {
        self.0 ^= self.0 << 13;
        self.0 ^= self.0 >> 17;
        self.0 ^= self.0 << 5;
        self.0
    }

    fn below(&mut self, n: u32) -> u32 {
        ((self.next() as u64 * n as u64) >> 32) as u32
    }
}
