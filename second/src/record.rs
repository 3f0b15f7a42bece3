//! The board record, and when it is sound.

#[derive(Clone, Debug, PartialEq, Eq)]
pub struct Record {
    pub powered: bool,
    pub range: u32,
    pub filter: u32,
    pub kit: u32,
    pub firmware: u32,
    pub fitted: u32, // fitted code d
    pub code: u32,   // size code, BOR D3..0
    // BCR bits as stored
    pub bursts: bool,       // D0
    pub ground: bool,       // D3
    pub binary: bool,       // D4, offset binary
    pub differential: bool, // D5
    pub barred: bool,       // D6, external trigger disabled
    pub simultaneous: bool, // D7
    pub selection: u32,     // D10..8
    // BOR bits as stored
    pub external: bool, // D4
    pub enabled: bool,  // D5
    pub circular: bool, // D8
    pub calibrating: bool,
    pub cal_failed: bool, // BCR D14
    pub calibrated: bool,
    pub divisor: u32, // 08h
    pub nclk: u32,
    pub alt: bool,
    pub settling: bool,
    pub burst: bool,           // in progress
    pub software: bool,        // software-started
    pub pending: bool,         // load request pending
    pub opened: bool,          // buffer opened by a load request
    pub buffer_overflow: bool, // BOR D16
    pub frame_overflow: bool,  // BOR D17
    pub mask: u32,             // 04h
    pub cursor: u32,
    pub request: bool, // interrupt request
    pub first: u32,
    pub count: u32,
    pub levels: [u16; 20],
}

/// The largest numbers of the settings. "Power-up gives a fitted code d (0 to
/// 15), range, filter and kit codes (0 to 2) and a firmware number (0 to 4095)."
pub(crate) const LARGEST_FITTED: u32 = 15;
pub(crate) const LARGEST_OPTION: u32 = 2; // range, filter and kit
pub(crate) const LARGEST_FIRMWARE: u32 = 4095;

/// "The depth is 8·2^d values." Only asked for a d of at most 15.
pub(crate) fn depth_of(fitted: u32) -> u32 {
    8 << fitted
}

impl Record {
    /// "The unpowered record is all zero."
    pub fn unpowered() -> Record {
        Record {
            powered: false,
            range: 0,
            filter: 0,
            kit: 0,
            firmware: 0,
            fitted: 0,
            code: 0,
            bursts: false,
            ground: false,
            binary: false,
            differential: false,
            barred: false,
            simultaneous: false,
            selection: 0,
            external: false,
            enabled: false,
            circular: false,
            calibrating: false,
            cal_failed: false,
            calibrated: false,
            divisor: 0,
            nclk: 0,
            alt: false,
            settling: false,
            burst: false,
            software: false,
            pending: false,
            opened: false,
            buffer_overflow: false,
            frame_overflow: false,
            mask: 0,
            cursor: 0,
            request: false,
            first: 0,
            count: 0,
            levels: [0; 20],
        }
    }

    /// "settings in range": all five of them. Which one is bad is said of a
    /// power-up only.
    fn settings_in_range(&self) -> bool {
        self.fitted <= LARGEST_FITTED
            && self.range <= LARGEST_OPTION
            && self.filter <= LARGEST_OPTION
            && self.kit <= LARGEST_OPTION
            && self.firmware <= LARGEST_FIRMWARE
    }

    /// "A record is sound when: ..." The list below is in 01's order. It is gone
    /// through at every event and nearly always to its end: `&` and `|` ask two
    /// bits with one branch, which goes the same way each time. Inlined, it
    /// would take the caller's registers.
    #[inline(never)]
    pub fn is_sound(&self) -> bool {
        // "powered"
        if !self.powered {
            return false;
        }
        // "settings in range"
        if !self.settings_in_range() {
            return false;
        }
        // "first < depth"
        if self.first >= self.depth() {
            return false;
        }
        // "count ≤ depth"
        if self.count > self.depth() {
            return false;
        }
        // "no mask bit for a channel that isn't fitted"
        if self.mask & !self.fitted_channels() != 0 {
            return false;
        }
        // "channel cursor ≤ 20"
        if self.cursor > 20 {
            return false;
        }
        // "and 0 in simultaneous mode"
        if self.simultaneous & (self.cursor != 0) {
            return false;
        }
        // "size code ≤ 15"
        if self.code > 15 {
            return false;
        }
        // "interrupt selection ≤ 7"
        if self.selection > 7 {
            return false;
        }
        // "Nclk ≤ 511"
        if self.nclk > 511 {
            return false;
        }
        // "load pending or opened only if circular"
        if (self.pending | self.opened) & !self.circular {
            return false;
        }
        // "and never both"
        if self.pending & self.opened {
            return false;
        }
        // "burst in progress only with bursts enabled"
        if self.burst & !self.bursts {
            return false;
        }
        // "software-started only with a burst"
        if self.software & !self.burst {
            return false;
        }
        // "not both calibrating and calibrated"
        if self.calibrating & self.calibrated {
            return false;
        }
        true
    }

    /// "The depth is 8·2^d values."
    pub(crate) fn depth(&self) -> u32 {
        depth_of(self.fitted)
    }

    /// "(kit 0: 6 channels, 1: 12, 2: 20)", as a mask: one bit per channel.
    pub(crate) fn fitted_channels(&self) -> u32 {
        match self.kit {
            0 => 0x0000_003F,
            1 => 0x0000_0FFF,
            _ => 0x000F_FFFF,
        }
    }

    /// A burst is over: "software-started only with a burst".
    pub(crate) fn end_burst(&mut self) {
        self.burst = false;
        self.software = false;
    }

    /// "Emptying sets both numbers to 0 and writes nothing."
    pub(crate) fn empty_buffer(&mut self) {
        self.first = 0;
        self.count = 0;
    }

    /// "Initialise: BCR 00000810h, mask of all fitted channels (000FFFFFh for
    /// kit 2), divisor 0064h, BOR 0000340Fh, 1Ch zero, empty buffer, all 20
    /// levels 8000h, cursor 0, no burst, settling, calibration or
    /// "calibrated"."
    pub(crate) fn initialise(&mut self) {
        // "BCR 00000810h": D4 and D11, nothing else.
        self.bursts = false;
        self.ground = false;
        self.binary = true;
        self.differential = false;
        self.barred = false;
        self.simultaneous = false;
        self.selection = 0;
        // D11. "Initialise just sets it."
        self.request = true;
        self.cal_failed = false;
        // "mask of all fitted channels"
        self.mask = self.fitted_channels();
        // "divisor 0064h"
        self.divisor = 0x0064;
        // "BOR 0000340Fh": size code Fh; D10, D12 and D13 follow from an open,
        // empty buffer.
        self.code = 15;
        self.external = false;
        self.enabled = false;
        self.circular = false;
        self.pending = false;
        self.opened = false;
        self.buffer_overflow = false;
        self.frame_overflow = false;
        // "1Ch zero"
        self.nclk = 0;
        self.alt = false;
        // "empty buffer"
        self.empty_buffer();
        // "all 20 levels 8000h"
        self.levels = [0x8000; 20];
        // "cursor 0"
        self.cursor = 0;
        // "no burst, settling, calibration or "calibrated""
        self.end_burst();
        self.settling = false;
        self.calibrating = false;
        self.calibrated = false;
    }
}
