//! Sessions: a start (record and memory) and events, chosen one at a time with
//! an eye on the model's record, so that rules meet often.

mod in_file;

use crate::fields::*;
use crate::rng::Rng;

/// How a session starts.
#[derive(Clone, Copy, PartialEq, Eq, Debug)]
pub enum Start {
    /// The unpowered record, then (mostly) a power-up.
    Unpowered,
    /// A hand-made sound record.
    Sound,
    /// A hand-made record that breaks one clause of soundness.
    Broken,
    /// The unpowered record with one field that is not 0.
    OneField,
    /// A sound record or a power-up with a fitted code of 5 to 15.
    Deep,
    /// The unpowered record, over the memory of `rehearse`: a session file.
    File,
}

pub struct Session {
    rng: Rng,
    style: Style,
    left: u32,
    /// No event yet.
    fresh: bool,
    /// Of a session file: how far the set-up after a power-up is, the events
    /// that come next (the next one last), and how many reads at the end.
    set_up: u32,
    ahead: Vec<Event>,
    last_reads: u32,
    /// Register writes are as the session prefers, not as the register is.
    eager: bool,
    pub start: Start,
    pub record: Record,
    pub memory: Vec<u32>,
}

/// The families of events, for `Style::weights`.
const FAMILIES: usize = 17;
const LOAD: usize = 0;
const F_TICK: usize = 1;
const F_OUTSIDE: usize = 2;
const F_TRIGGER: usize = 3;
const F_BOR: usize = 4;
const F_BCR: usize = 5;
const F_MASK: usize = 6;
const F_REFERENCE: usize = 7;
const F_DIVISOR: usize = 8;
const F_READ: usize = 9;
const F_CAL_END: usize = 10;
const F_SETTLED: usize = 11;
const F_ODD: usize = 12;
const F_POWER_UP: usize = 13;
const F_INITIALISE: usize = 14;
const F_CALIBRATE: usize = 15;

const USUAL: [u32; FAMILIES] = [24, 22, 12, 8, 16, 14, 4, 5, 1, 10, 2, 2, 2, 1, 1, 2, 2];

/// What a session prefers. Each session draws its own, so that some sessions
/// are all loads and clocks, others all BOR writes, and so on.
struct Style {
    weights: [u32; FAMILIES],
    total: u32,
    /// The following are chances of 16.
    eof: u32,
    junk: u32,
    bursts: u32,
    simultaneous: u32,
    binary: u32,
    external: u32,
    circular: u32,
    load_request: u32,
    software_clock: u32,
    clear: u32,
}

impl Style {
    fn new(rng: &mut Rng) -> Style {
        let mut weights = USUAL;
        for weight in &mut weights {
            *weight *= rng.pick(&[0, 1, 1, 2, 4]);
        }
        // Nothing happens without these.
        weights[LOAD] += 2;
        weights[F_TICK] += 2;
        weights[F_BOR] += 2;
        Style {
            weights,
            total: weights.iter().sum(),
            eof: rng.pick(&[0, 1, 3, 6, 6, 10, 16]),
            junk: rng.pick(&[0, 4, 16]),
            bursts: rng.pick(&[0, 4, 12, 16]),
            simultaneous: rng.pick(&[0, 4, 12, 16]),
            binary: rng.pick(&[0, 8, 16]),
            external: rng.pick(&[0, 4, 8, 14]),
            circular: rng.pick(&[0, 4, 10, 15]),
            load_request: rng.pick(&[1, 8, 15]),
            software_clock: rng.pick(&[1, 3, 8]),
            clear: rng.pick(&[0, 1, 1, 3]),
        }
    }

    fn family(&self, rng: &mut Rng) -> usize {
        let mut left = rng.below(self.total);
        for (family, weight) in self.weights.iter().enumerate() {
            if left < *weight {
                return family;
            }
            left -= weight;
        }
        LOAD
    }
}

impl Session {
    /// Session number `index` of a seed.
    pub fn new(seed: u64, index: u64) -> Session {
        let mut rng = Rng::new(seed, index);
        let style = Style::new(&mut rng);
        let start = match rng.below(1600) {
            0..=39 => Start::Deep,
            40..=249 => Start::Unpowered,
            250..=669 => Start::Broken,
            670..=769 => Start::OneField,
            _ => Start::Sound,
        };
        let mut session = Session {
            rng,
            style,
            left: 0,
            fresh: true,
            set_up: 0,
            ahead: Vec::new(),
            last_reads: 0,
            eager: false,
            start,
            record: [0; RECORD],
            memory: Vec::new(),
        };
        session.begin();
        session
    }

    fn begin(&mut self) {
        let fitted = self.fitted();
        match self.start {
            Start::Unpowered => {
                self.left = 10 + self.rng.below(110);
                let length = self.length(fitted);
                if length < 8 {
                    self.left = 1 + self.rng.below(6);
                }
                self.fill(length);
            }
            Start::Sound => {
                self.left = match self.rng.below(8) {
                    0..=2 => 1 + self.rng.below(3),
                    3..=6 => 1 + self.rng.below(14),
                    _ => 1 + self.rng.below(60),
                };
                self.record = self.sound(fitted);
                let length = self.length(fitted);
                if length < 8 << fitted {
                    self.left = self.left.min(4);
                }
                self.fill(length);
            }
            Start::Broken => {
                self.left = 1 + self.rng.below(3);
                self.record = self.sound(fitted);
                let which = self.rng.below(CLAUSES);
                self.break_clause(which);
                let length = self.length(fitted);
                self.fill(length);
            }
            Start::OneField => {
                self.left = 1 + self.rng.below(2);
                let field = self.rng.below(RECORD as u32) as usize;
                self.record[field] = if FLAGS.contains(&field) {
                    1
                } else if field >= LEVELS {
                    self.rng.pick(&[1, 0x8000, 0xFFFF])
                } else {
                    let near = self.rng.below(22).max(1);
                    self.rng
                        .pick(&[1, 1, 2, near, 0x100, 0x1_0000, 0x8000_0000, u32::MAX])
                };
                let length = self.length(fitted);
                self.fill(length);
            }
            Start::Deep => {
                self.left = 1 + self.rng.below(40);
                let fitted = self
                    .rng
                    .pick(&[5, 6, 7, 8, 9, 10, 11, 12, 13, 14, 14, 15, 15, 15]);
                if self.rng.chance(7, 8) {
                    self.record = self.sound(fitted);
                    let depth = 8 << fitted;
                    if self.rng.chance(1, 2) {
                        self.record[CODE] = self.rng.pick(&[15, fitted, fitted - 1]);
                    }
                    let any = self.rng.below(depth);
                    self.record[COUNT] =
                        self.rng
                            .pick(&[self.record[COUNT], depth, depth - 1, any, any]);
                    self.record[FIRST] = self.rng.below(depth);
                }
                let more = self.rng.pick(&[0, 0, 1, 9]);
                self.fill((8 << fitted) + more);
                if self.rng.chance(1, 8) {
                    self.memory.pop();
                }
            }
            // `of_file` has made it.
            Start::File => {}
        }
    }

    /// The next event, or none at the end. `record` is the model's.
    pub fn next(&mut self, record: &Record) -> Option<Event> {
        if self.left == 0 {
            return None;
        }
        self.left -= 1;
        let event = self.choose(record);
        if self.start == Start::File {
            self.read_back(&event);
        }
        Some(event)
    }

    fn choose(&mut self, record: &Record) -> Event {
        if matches!(self.start, Start::Broken | Start::OneField) {
            return self.anything(record);
        }
        if let Some(event) = self.last_read() {
            return event;
        }
        if record[POWERED] == 0 {
            return if self.rng.chance(5, 6) {
                self.power_up_accepted()
            } else {
                self.anything(record)
            };
        }
        if self.start == Start::Sound && self.fresh && self.rng.chance(1, 3) {
            self.fresh = false;
            return self.fitting_clock(record);
        }
        self.fresh = false;
        if self.start == Start::Deep && self.rng.chance(1, 8) {
            return read(BOR);
        }
        if self.start == Start::File {
            if let Some(event) = self.in_file(record) {
                return event;
            }
        }
        if record[CALIBRATING] == 1 && self.rng.chance(1, 4) {
            return simple(self.rng.pick(&[PASSED, PASSED, FAILED]));
        }
        if record[CALIBRATING] == 1 && self.rng.chance(1, 6) {
            return read(self.rng.pick(&[BCR, BOR]));
        }
        if record[SETTLING] == 1 && self.rng.chance(1, 8) {
            return simple(SETTLED);
        }
        if record[BURSTS] == 1 && record[BURST] == 0 && self.rng.chance(1, 8) {
            return simple(TRIGGER);
        }
        if record[ENABLED] == 0 && self.rng.chance(1, 6) {
            return write(BOR, self.bor(record) | 1 << 5);
        }
        if record[COUNT] == 0 && !closed(record) && self.rng.chance(1, 4) {
            return write(0x18, self.value());
        }
        match self.style.family(&mut self.rng) {
            LOAD => write(0x18, self.value()),
            F_TICK | F_OUTSIDE if self.rng.chance(1, 2) => self.fitting_clock(record),
            F_TICK => simple(TICK),
            F_OUTSIDE => simple(OUTSIDE),
            F_TRIGGER => simple(TRIGGER),
            F_BOR => write(BOR, self.bor(record)),
            F_BCR => write(BCR, self.bcr(record)),
            F_MASK => {
                let mut mask = self.mask(record[KIT]);
                if self.rng.chance(1, 3) {
                    // Bits of channels that are not fitted, or that nobody has.
                    mask |= self
                        .rng
                        .pick(&[!0, 1 << 6, 1 << 12, 1 << 20, 1 << 31, 0xFFF0_0000]);
                }
                write(0x04, mask)
            }
            F_REFERENCE => write(0x1C, self.reference(record)),
            F_DIVISOR => write(0x08, self.wide()),
            F_READ => {
                let register = self.rng.pick(&REGISTERS);
                read(self.rng.pick(&[BCR, BOR, BOR, register, register]))
            }
            F_CAL_END => simple(self.rng.pick(&[PASSED, FAILED])),
            F_SETTLED => simple(SETTLED),
            F_ODD => self.odd(),
            F_POWER_UP => {
                if self.rng.chance(1, 2) {
                    self.power_up_accepted()
                } else {
                    self.power_up_refused()
                }
            }
            F_INITIALISE => {
                self.set_up = 0;
                let other = self.rng.word() & self.rng.word();
                write(BCR, other | 1 << 15)
            }
            F_CALIBRATE => write(BCR, self.bcr(record) & !(1 << 15) | 1 << 13),
            _ => self.anything(record),
        }
    }

    /// A clock that the record's settings accept.
    fn fitting_clock(&mut self, record: &Record) -> Event {
        simple(if record[EXTERNAL] == 1 && record[ALT] == 0 {
            OUTSIDE
        } else {
            TICK
        })
    }

    /// Any event, every kind about as often.
    fn anything(&mut self, record: &Record) -> Event {
        match self.rng.below(12) {
            0 => self.power_up_accepted(),
            1 => self.power_up_refused(),
            2 => write(0x18, self.value()),
            3 => {
                let offset = self.rng.pick(&REGISTERS);
                let value = self.wide();
                write(offset, value)
            }
            4 => read(self.rng.pick(&REGISTERS)),
            5 => self.odd(),
            6 => write(BOR, self.bor(record)),
            7 => simple(TICK),
            8 => simple(OUTSIDE),
            9 => simple(TRIGGER),
            10 => simple(self.rng.pick(&[PASSED, FAILED])),
            _ => simple(SETTLED),
        }
    }

    // ---- values ------------------------------------------------------------

    /// A value for 18h.
    fn value(&mut self) -> u32 {
        let random = self.rng.word() & 0xFFFF;
        let data = self
            .rng
            .pick(&[random, random, random, 0, 1, 0x7FFF, 0x8000, 0x8001, 0xFFFF]);
        data | self.eof() | self.junk(0xFFFE_0000)
    }

    fn eof(&mut self) -> u32 {
        if self.rng.chance(self.style.eof, 16) {
            EOF
        } else {
            0
        }
    }

    /// Junk in some of the bits, in some sessions.
    fn junk(&mut self, bits: u32) -> u32 {
        if !self.rng.chance(self.style.junk, 16) {
            return 0;
        }
        let junk = match self.rng.below(4) {
            0 => self.rng.word() & self.rng.word(),
            1 => !0,
            _ => 1 << self.rng.below(32),
        };
        junk & bits
    }

    /// A number of up to 32 bits.
    fn wide(&mut self) -> u32 {
        let random = self.rng.word();
        let shift = self.rng.below(32);
        self.rng.pick(&[
            0,
            1,
            100,
            0xFFFF,
            0x1_0000,
            u32::MAX,
            random,
            random & 0xFFFF,
            random >> shift,
        ])
    }

    fn chance(&mut self, sixteenths: u32) -> bool {
        self.rng.chance(sixteenths, 16)
    }

    /// A stored bit in a register write: mostly as it is, else as the session
    /// prefers.
    fn stored(&mut self, now: u32, preferred: u32) -> u32 {
        if !self.eager && self.rng.chance(5, 8) {
            now
        } else {
            self.chance(preferred) as u32
        }
    }

    fn bcr(&mut self, r: &Record) -> u32 {
        let selection = if !self.eager && self.rng.chance(3, 4) {
            r[SELECTION]
        } else {
            self.rng.below(8)
        };
        let mut value = self.stored(r[BURSTS], self.style.bursts)
            | self.stored(r[GROUND], 8) << 3
            | self.stored(r[BINARY], self.style.binary) << 4
            | self.stored(r[DIFFERENTIAL], 8) << 5
            | self.stored(r[BARRED], 4) << 6
            | self.stored(r[SIMULTANEOUS], self.style.simultaneous) << 7
            | selection << 8
            | self.rng.flag() << 11;
        if r[SELECTION] == 5 && self.rng.chance(1, 4) {
            // Burst ready rises or falls by this very write.
            value ^= 1;
        }
        if self.chance(5) {
            value |= 1 << 2;
        }
        if self.rng.chance(1, 20) {
            value |= 1 << 13;
        }
        if self.rng.chance(1, 40) {
            value |= 1 << 15;
        }
        value | self.junk(0xFFFF_5002)
    }

    fn bor(&mut self, r: &Record) -> u32 {
        let code = if self.rng.chance(5, 8) {
            r[CODE] & 15
        } else {
            self.code(r[FITTED])
        };
        let enabled = if self.rng.chance(3, 4) {
            1
        } else {
            self.rng.flag()
        };
        let mut value = code
            | self.stored(r[EXTERNAL], self.style.external) << 4
            | enabled << 5
            | self.stored(r[CIRCULAR], self.style.circular) << 8
            | (self.chance(self.style.load_request) as u32) << 9
            | self.rng.flag() << 16
            | self.rng.flag() << 17;
        if self.chance(self.style.software_clock) {
            value |= 1 << 7;
        }
        if self.chance(self.style.clear) {
            value |= 1 << 11;
        }
        value | self.junk(0xFFFC_F440)
    }

    /// A value for 1Ch: often the same Nclk, or one that differs in one bit.
    fn reference(&mut self, r: &Record) -> u32 {
        let random = self.rng.below(512);
        let flipped = r[NCLK] ^ 1 << self.rng.below(9);
        let nclk = self
            .rng
            .pick(&[r[NCLK], r[NCLK], flipped, random, 0, 255, 256, 511]);
        let alt = if self.rng.chance(1, 2) {
            r[ALT]
        } else {
            self.rng.flag()
        };
        (nclk & 511) | alt << 9 | self.junk(0xFFFF_FC00)
    }

    /// A size code, often below the fitted one.
    fn code(&mut self, fitted: u32) -> u32 {
        let fitted = fitted & 15;
        let random = self.rng.below(16);
        self.rng.pick(&[
            0,
            0,
            fitted.saturating_sub(1),
            fitted.saturating_sub(2),
            fitted,
            (fitted + 1).min(15),
            15,
            random,
        ])
    }

    /// A mask of fitted channels: none, one, few, the outer ones, all, any.
    fn mask(&mut self, kit: u32) -> u32 {
        let all = channels(kit);
        let number = all.count_ones();
        let one = 1 << self.rng.below(number);
        let other = 1 << self.rng.below(number);
        let third = 1 << self.rng.below(number);
        match self.rng.below(12) {
            0 => 0,
            1 => 1,
            2 => one,
            3 | 4 => one | other,
            5 | 6 => one | other | third,
            7 => 1 << (number - 1) | one,
            8 | 9 => all,
            10 => all & !one,
            _ => all & self.rng.word(),
        }
    }

    fn fitted(&mut self) -> u32 {
        match self.rng.below(20) {
            0..=8 => 0,
            9..=14 => 1,
            15..=17 => 2,
            18 => 3,
            _ => 4,
        }
    }

    /// A power-up that the memory's length allows, if there is one.
    fn power_up_accepted(&mut self) -> Event {
        let deep = match self.start {
            Start::Deep => true,
            Start::File => self.rng.chance(1, 10),
            _ => false,
        };
        let wanted = if deep {
            self.rng.below(16)
        } else {
            self.fitted()
        };
        self.set_up = 0;
        let mut fitted = wanted;
        while fitted > 0 && self.memory.len() < 8 << fitted {
            fitted -= 1;
        }
        self.power_up(fitted)
    }

    fn power_up(&mut self, fitted: u32) -> Event {
        let random = self.rng.below(4096);
        [
            POWER_UP,
            fitted,
            self.rng.below(3),
            self.rng.below(3),
            self.rng.below(3),
            self.rng.pick(&[0, 1, 4095, random, random]),
        ]
    }

    /// A power-up with some of its settings out of range, in any combination, a
    /// memory too short, or both.
    fn power_up_refused(&mut self) -> Event {
        let fitted = self.rng.below(16);
        let mut event = self.power_up(fitted);
        if self.rng.chance(3, 4) {
            let bad = 1 + self.rng.below(31);
            for (setting, (_, limit)) in SETTINGS.into_iter().enumerate() {
                if bad >> setting & 1 == 1 {
                    event[1 + setting] = self.beyond(limit).min(self.widest(setting));
                }
            }
        }
        event
    }

    /// The largest number that a setting of a power-up has room for.
    fn widest(&self, setting: usize) -> u32 {
        match (&self.start, setting) {
            (Start::File, 0..4) => 0xFF,
            (Start::File, _) => 0xFFFF,
            _ => u32::MAX,
        }
    }

    /// An offset that is none of the eight, or a write to 10h or 14h.
    fn odd(&mut self) -> Event {
        let value = self.wide();
        if self.rng.chance(1, 4) {
            return write(self.rng.pick(&[0x10, 0x14]), value);
        }
        let register = self.rng.pick(&REGISTERS);
        let random = self.rng.word() | 1;
        let high = register | 1 << (5 + self.rng.below(27));
        let between = register + 1 + self.rng.below(3);
        let offset = self.rng.pick(&[
            between,
            between,
            0x20,
            0x24,
            0xFC,
            0x104,
            0x100 + register,
            high,
            high,
            4_000_000_000,
            u32::MAX,
            random,
        ]);
        if self.rng.chance(1, 2) {
            write(offset, value)
        } else {
            read(offset)
        }
    }

    // ---- starts ------------------------------------------------------------

    /// A memory length for a fitted code: exact, longer or too short.
    fn length(&mut self, fitted: u32) -> usize {
        let depth = 8 << fitted;
        match self.rng.below(24) {
            0 => depth - 1,
            1 => self.rng.pick(&[0, 1, 7, depth / 2]),
            2..=4 => depth + 1,
            5 => 2 * depth,
            6 => depth + self.rng.below(24) as usize,
            _ => depth,
        }
    }

    /// Entries with junk above bit 16.
    fn fill(&mut self, length: usize) {
        self.memory.clear();
        self.memory.reserve(length);
        for _ in 0..length {
            let word = self.rng.word();
            let junk = (word & 0xFFFE_0000) | 0x0200_0000;
            self.memory.push(junk | (word & 0xFFFF));
        }
        // The marks, for the places where they can matter.
        let depth = length.min(1 << 12);
        for place in 0..depth {
            self.memory[place] |= self.eof();
        }
    }

    /// A sound record with a fitted code.
    fn sound(&mut self, fitted: u32) -> Record {
        let mut r = [0; RECORD];
        let depth = 8 << fitted;
        for flag in FLAGS {
            r[flag] = self.rng.flag();
        }
        r[POWERED] = 1;
        r[FITTED] = fitted;
        for setting in [RANGE, FILTER, KIT] {
            r[setting] = self.rng.below(3);
        }
        if fitted >= 2 && self.rng.chance(1, 3) {
            // Room for a group of 20.
            r[KIT] = 2;
        }
        let random = self.rng.below(4096);
        r[FIRMWARE] = self.rng.pick(&[0, 1, 4095, random]);
        r[CODE] = self.code(fitted);
        r[SELECTION] = self.rng.below(8);
        r[DIVISOR] = self.wide();
        if self.rng.chance(3, 4) {
            r[DIVISOR] &= 0xFFFF;
        }
        let random = self.rng.below(512);
        r[NCLK] = self.rng.pick(&[0, 1, 255, 511, random]);
        r[MASK] = self.mask(r[KIT]);

        // Preferences, so that clocks move values and frames end.
        r[ENABLED] = self.rng.chance(7, 8) as u32;
        r[SIMULTANEOUS] = self.chance(self.style.simultaneous) as u32;
        r[BURSTS] = self.chance(self.style.bursts) as u32;
        r[EXTERNAL] = self.chance(self.style.external) as u32;
        r[CIRCULAR] = self.chance(self.style.circular) as u32;
        r[CALIBRATING] = self.rng.chance(1, 8) as u32;
        r[SETTLING] = self.rng.chance(1, 4) as u32;

        // A third are all set for a clock that moves something.
        let ready = self.rng.chance(1, 3);
        if ready {
            r[ENABLED] = 1;
            r[CALIBRATING] = 0;
            r[SETTLING] = 0;
            r[BURST] = self.rng.chance(7, 8) as u32;
            r[MASK] |= (r[MASK] == 0) as u32;
        }

        // The clauses that tie fields together.
        r[BURST] &= r[BURSTS];
        r[SOFTWARE] &= r[BURST];
        match self.rng.below(3) {
            0 => (r[PENDING], r[OPENED]) = (0, 0),
            1 => (r[PENDING], r[OPENED]) = (r[CIRCULAR], 0),
            _ => (r[PENDING], r[OPENED]) = (0, r[CIRCULAR]),
        }
        if r[CALIBRATING] == 1 {
            r[CALIBRATED] = 0;
        }

        if r[SIMULTANEOUS] == 0 {
            let one = self.rng.below(21);
            let active = 31 - (r[MASK] | 1).leading_zeros();
            let lowest = (r[MASK] | 1 << 20).trailing_zeros();
            r[CURSOR] = self
                .rng
                .pick(&[0, one, one, active, active + 1, lowest, 20, 20])
                .min(20);
        }

        let size = size(&r);
        let ones = r[MASK].count_ones();
        let random = self.rng.below(depth + 1);
        let near = self.rng.pick(&[
            0,
            0,
            1,
            2,
            size / 4,
            size / 4,
            3 * size / 4,
            3 * size / 4,
            size,
            size,
            depth,
            depth,
            ones,
            ones,
            ones,
            random,
            random,
        ]);
        let side = self.rng.below(3);
        r[COUNT] = (near + side).saturating_sub(1).min(depth);
        if ready && r[SIMULTANEOUS] == 1 && r[COUNT] < ones {
            r[COUNT] = ones.min(depth);
        }
        let random = self.rng.below(depth);
        let wrap = depth - r[COUNT].clamp(1, depth);
        r[FIRST] = self.rng.pick(&[
            0,
            depth - 1,
            depth - 2,
            wrap,
            size % depth,
            size - 1,
            random,
            random,
            random,
        ]);
        for level in &mut r[LEVELS..] {
            *level = self.rng.word() & 0xFFFF;
        }
        r
    }

    /// A number beyond a limit: by one, by little, far out, or such that its
    /// low 8 or 16 bits look right.
    fn beyond(&mut self, limit: u32) -> u32 {
        let right = self.rng.below(limit.min(2) + 1);
        let random = self.rng.word();
        let shift = 32 - self.rng.below(limit.leading_zeros()).max(1);
        let far = self.rng.pick(&[
            limit + 1,
            limit + 1,
            limit + 1,
            limit + 1,
            limit + 2,
            2 * limit + 2,
            0x100 + right,
            0x1_0000 + right,
            0x8000_0000 + right,
            u32::MAX,
            u32::MAX,
            1 << (shift - 1),
            random,
        ]);
        far.max(limit + 1)
    }

    /// Breaks one clause of soundness and no other.
    fn break_clause(&mut self, which: u32) {
        let depth = 8 << self.record[FITTED];
        match which {
            0 => self.record[POWERED] = 0,
            1 => {
                let wrap = 32 + self.record[FITTED];
                let far = self.beyond(15);
                self.record[FITTED] =
                    self.rng
                        .pick(&[16, 16, u32::MAX, 17, 28, 29, 30, 31, 32, wrap, far]);
            }
            2 => self.record[RANGE] = self.beyond(2),
            3 => self.record[FILTER] = self.beyond(2),
            4 => self.record[KIT] = self.beyond(2),
            5 => self.record[FIRMWARE] = self.beyond(4095),
            6 => self.record[FIRST] = self.beyond(depth - 1),
            7 => self.record[COUNT] = self.beyond(depth),
            8 => {
                let next = channels(self.record[KIT]).count_ones();
                let any = next + self.rng.below(32 - next);
                self.record[MASK] |= 1 << self.rng.pick(&[next, next, any, 31]);
            }
            9 => {
                self.record[SIMULTANEOUS] = 0;
                self.record[CURSOR] = self.beyond(20);
            }
            10 => {
                self.record[SIMULTANEOUS] = 1;
                let any = 1 + self.rng.below(20);
                self.record[CURSOR] = self.rng.pick(&[1, 1, 20, any]);
            }
            11 => self.record[CODE] = self.beyond(15),
            12 => self.record[SELECTION] = self.beyond(7),
            13 => self.record[NCLK] = self.beyond(511),
            14 => self.load_states(0, 1, 0),
            15 => self.load_states(0, 0, 1),
            16 => self.load_states(1, 1, 1),
            17 => {
                self.record[BURSTS] = 0;
                self.record[BURST] = 1;
            }
            18 => {
                self.record[BURST] = 0;
                self.record[SOFTWARE] = 1;
            }
            _ => {
                self.record[CALIBRATING] = 1;
                self.record[CALIBRATED] = 1;
            }
        }
    }

    fn load_states(&mut self, circular: u32, pending: u32, opened: u32) {
        self.record[CIRCULAR] = circular;
        self.record[PENDING] = pending;
        self.record[OPENED] = opened;
    }
}

/// The clauses that `break_clause` knows.
const CLAUSES: u32 = 20;
