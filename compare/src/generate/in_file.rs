//! Sessions for session files. They start from the unpowered record, so what a
//! hand-made record has at once must be built up; and only what is read, moved
//! or counted shows, so there are more reads.

use super::*;
use crate::file::MEMORY;

/// The reads at the end of a session file, the last one first.
const LAST_READS: [u32; 5] = [BOR, BCR, 0x1C, 0x04, 0x08];

impl Session {
    /// A session of about so many records for a session file.
    pub fn of_file(mut rng: Rng, records: u32) -> Session {
        let mut style = Style::new(&mut rng);
        for family in [F_POWER_UP, F_ODD, F_DIVISOR] {
            style.weights[family] += 2;
            style.total += 2;
        }
        let last_reads = rng.below(LAST_READS.len() as u32 + 1);
        Session {
            rng,
            style,
            left: records,
            fresh: true,
            set_up: 0,
            ahead: Vec::new(),
            last_reads,
            eager: false,
            start: Start::File,
            record: [0; RECORD],
            memory: vec![0; MEMORY],
        }
    }

    /// One of the reads at the end, if the session is there.
    pub(super) fn last_read(&self) -> Option<Event> {
        (self.left < self.last_reads).then(|| read(LAST_READS[self.left as usize]))
    }

    /// What was written to a plain register is sometimes read next.
    pub(super) fn read_back(&mut self, event: &Event) {
        let plain = event[0] == WRITE && [0x04, 0x08, 0x1C].contains(&event[1]);
        if plain && self.ahead.is_empty() && self.rng.chance(1, 3) {
            self.ahead.push(read(event[1]));
        }
    }

    /// What comes next in a file, if it is not left to the usual choice: after a
    /// power-up a mask, a mode, some loads, a buffer set-up and some clocks; then
    /// reads and rare meetings.
    pub(super) fn in_file(&mut self, record: &Record) -> Option<Event> {
        if let Some(event) = self.ahead.pop() {
            return Some(event);
        }
        if record[CALIBRATING] == 1 && self.rng.chance(1, 3) {
            return Some(simple(self.rng.pick(&[PASSED, FAILED])));
        }
        while self.set_up < 5 {
            self.set_up += 1;
            if self.rng.chance(4, 5) {
                self.set_up_step(record);
                return self.ahead.pop();
            }
        }
        if self.rng.chance(1, 4) {
            return Some(read(self.rng.pick(&[BCR, BOR])));
        }
        self.meeting(record)
    }

    fn set_up_step(&mut self, r: &Record) {
        self.eager = true;
        let (mask, bcr, bor) = (self.mask(r[KIT]), self.bcr(r), self.bor(r));
        self.eager = false;
        let ones = r[MASK].count_ones();
        match self.set_up {
            1 => self.ahead.push(write(0x04, mask)),
            2 => self.ahead.push(write(BCR, bcr)),
            3 => {
                let depth = 8 << r[FITTED];
                let loads = self
                    .rng
                    .pick(&[1, 2, ones, ones, 2 * ones, depth, depth + 1]);
                for _ in 0..loads.min(self.left * 3 / 4) {
                    let load = write(0x18, self.value());
                    self.ahead.push(load);
                }
            }
            4 => self.ahead.push(write(BOR, bor & !(1 << 11) | 1 << 5)),
            _ => {
                let clock = self.fitting_clock(r);
                let clocks = self.rng.pick(&[1, 1, 2, ones, r[COUNT].min(20)]);
                self.ahead.resize(clocks as usize, clock);
            }
        }
    }

    /// Meetings that a file comes to seldom when left to itself.
    fn meeting(&mut self, r: &Record) -> Option<Event> {
        // The registers as they are, with the request and the flags left.
        let bcr = r[BURSTS]
            | r[GROUND] << 3
            | r[BINARY] << 4
            | r[DIFFERENTIAL] << 5
            | r[BARRED] << 6
            | r[SIMULTANEOUS] << 7
            | 1 << 11;
        let bor = r[CODE] | r[EXTERNAL] << 4 | r[ENABLED] << 5 | r[CIRCULAR] << 8 | 3 << 16;
        let calibrate = write(BCR, bcr | r[SELECTION] << 8 | 1 << 13);
        let initialise = write(BCR, 1 << 15);
        let clock = self.fitting_clock(r);

        if r[CALIBRATING] == 1 && self.rng.chance(1, 3) {
            let odd = self.odd();
            let divisor = write(0x08, self.wide());
            return Some(self.rng.pick(&[odd, odd, divisor, simple(SETTLED), clock]));
        }
        if r[EXTERNAL] == 1 && r[ALT] == 1 && r[COUNT] > 0 && self.rng.chance(1, 6) {
            return Some(simple(OUTSIDE));
        }
        // The cursor shows in the next value's channel alone.
        if r[CURSOR] > 0 && self.rng.chance(1, 12) {
            let load = write(0x18, self.value());
            self.ahead.extend([clock, load]);
            return Some(write(BOR, bor | 1 << 5 | 1 << 11));
        }
        // Settling, and what must go on or stop while it lasts.
        if r[EXTERNAL] == 1 && r[SETTLING] == 0 && self.rng.chance(1, 10) {
            let nclk = r[NCLK] ^ 1 << self.rng.below(9);
            return Some(write(0x1C, nclk | r[ALT] << 9));
        }
        if r[SETTLING] == 1 && self.rng.chance(1, 3) {
            return Some(self.rng.pick(&[
                calibrate,
                initialise,
                write(BOR, bor ^ 1 << 4),
                write(BOR, bor | 1 << 7),
                write(0x1C, r[NCLK] | (1 - r[ALT]) << 9),
                simple(TICK),
                simple(OUTSIDE),
                simple(TRIGGER),
                read(BOR),
            ]));
        }
        // "calibrated" shows in the request alone, as it comes and goes.
        let select = write(BCR, bcr | 1 << 8);
        if r[SELECTION] == 1 && self.rng.chance(1, 6) {
            return Some(calibrate);
        }
        if r[CALIBRATED] == 1 && r[SELECTION] == 1 && self.rng.chance(1, 4) {
            let reference = write(0x1C, r[NCLK] ^ 1);
            self.ahead.extend([read(BCR), simple(SETTLED), reference]);
            return Some(write(BOR, bor | 1 << 4));
        }
        if r[CALIBRATED] == 1 && r[SELECTION] != 1 && self.rng.chance(1, 4) {
            return Some(select);
        }
        if r[CALIBRATED] == 1 && self.rng.chance(1, 4) {
            let calibrate = write(BCR, bcr | 1 << 8 | 1 << 13);
            self.ahead.extend([read(BCR), calibrate, select]);
            return Some(initialise);
        }
        // A frame that opens and closes.
        let request = write(BOR, bor | 1 << 9);
        if closed(r) && r[COUNT] > 0 && r[PENDING] == 0 && self.rng.chance(1, 4) {
            return Some(request);
        }
        if r[PENDING] == 1 && self.rng.chance(1, 8) {
            return Some(write(BCR, bcr | self.rng.pick(&[6, 7]) << 8));
        }
        if r[PENDING] == 1 && self.rng.chance(1, 2) {
            return Some(clock);
        }
        if r[OPENED] == 1 && self.rng.chance(1, 2) {
            let load = write(0x18, self.value());
            let clear = write(BOR, bor | 1 << 11);
            let open = write(BOR, bor & !(1 << 8));
            return Some(self.rng.pick(&[
                clock, clock, clock, load, load, load, request, initialise, clear, open,
            ]));
        }
        // Values that move.
        let few = r[SIMULTANEOUS] == 1 && r[COUNT] < r[MASK].count_ones();
        if few && !closed(r) && self.rng.chance(1, 2) {
            return Some(write(0x18, self.value()));
        }
        if r[COUNT] == 0 || r[ENABLED] == 0 || self.rng.chance(2, 3) {
            return None;
        }
        let start = write(BCR, bcr | r[SELECTION] << 8 | 1 << 2);
        Some(if r[BURSTS] == r[BURST] {
            clock
        } else {
            self.rng.pick(&[simple(TRIGGER), simple(TRIGGER), start])
        })
    }
}
