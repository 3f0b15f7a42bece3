//! What happens in a session, told from the last of its replays. Only for
//! `--coverage`.

use super::losses::{LOST_TO_CLOSED, STORED};
use super::replay::replay;
use compare::bits::*;
use compare::fields::*;

#[derive(Default)]
pub struct Seen {
    /// The accepted power-ups, by their places among the events, and how many
    /// are refused before the first.
    pub power_ups: Vec<usize>,
    pub refused_first: u32,
    pub refused_after: bool,
    /// A later one is accepted with another fitted code.
    pub other_fitted: bool,
    /// An initialise, where values are stored.
    pub initialised: bool,
    /// Accepted writes to BOR, and the bits that were set in any of them.
    pub bors: u32,
    pub bor_bits: u32,
    /// A software clock moves values; a clear drops some.
    pub software_clock: bool,
    pub cleared: bool,
    /// One is taken that makes the size less than what is stored.
    pub bor_below_stored: bool,
    /// One is refused: before a power-up, and while calibrating.
    pub bor_unpowered: bool,
    pub bor_calibrating: bool,
    /// The size code 15 of a power-up, or of an initialise, lets in more than
    /// the code that is replayed would; and after a refused write to BOR.
    pub fifteen_of_power_up: bool,
    pub fifteen_of_initialise: bool,
    pub fifteen_past_refused: bool,
    /// Loads that are stored, and whether one is lost to a closed buffer or
    /// refused.
    pub loads: u32,
    pub lost_to_closed: bool,
    pub load_refused: bool,
    /// The most values stored at once by loads under a size code that was
    /// written.
    pub most: u32,
    /// More such loads than the size are stored: clocks made room.
    pub room_by_clocks: bool,
    /// A clock moves a group; it moves values in a burst; it moves them round.
    pub group: bool,
    pub burst: bool,
    pub round: bool,
    now: Now,
}

/// Since the last power-up, initialise or clear.
#[derive(Default)]
struct Now {
    place: usize,
    /// A size code was written; else it is the 15 of an initialise, or of a
    /// power-up, and a write may have been refused since.
    written: bool,
    initialise: bool,
    refused: bool,
    loads: u32,
}

impl Seen {
    pub fn new(events: &[Event], memory: usize, code: u32) -> Seen {
        let mut seen = Seen::default();
        let mut memory = vec![0; memory];
        replay(events, code, &mut memory, |event, answer, before, after| {
            seen.note(event, answer, before, after, code);
            seen.now.place += 1;
            true
        });
        seen
    }

    fn note(&mut self, event: &Event, answer: Answer, before: &Record, after: &Record, code: u32) {
        let [refusal, _, moved, fate] = answer;
        match (event[0], event[1], refusal) {
            (POWER_UP, _, 0) => {
                let again = !self.power_ups.is_empty();
                self.other_fitted |= again && before[FITTED] != after[FITTED];
                self.power_ups.push(self.now.place);
                self.empty(false);
            }
            (POWER_UP, _, _) if self.power_ups.is_empty() => self.refused_first += 1,
            (POWER_UP, _, _) => self.refused_after = true,
            (WRITE, BCR, 0) if event[2] & INITIALISE != 0 => {
                self.initialised |= before[COUNT] > 0;
                self.empty(true);
            }
            (WRITE, BOR, 0) => self.bor(event[2], moved, before, after),
            (WRITE, BOR, _) => {
                self.bor_unpowered |= refusal == 3;
                self.bor_calibrating |= refusal == 6;
                self.now.refused = true;
            }
            (WRITE, 0x18, 0) => self.load(fate, after, code),
            (WRITE, 0x18, _) => self.load_refused = true,
            _ if moved > 0 => {
                self.group |= moved > 1;
                self.burst |= before[BURST] == 1;
                self.round |= closed(before);
            }
            _ => {}
        }
    }

    /// The buffer is empty, by a power-up or an initialise.
    fn empty(&mut self, initialise: bool) {
        self.now = Now {
            place: self.now.place,
            initialise,
            ..Now::default()
        };
    }

    fn bor(&mut self, value: u32, moved: u32, before: &Record, after: &Record) {
        self.bors += 1;
        self.bor_bits |= value;
        self.software_clock |= moved > 0;
        self.bor_below_stored |= after[COUNT] > size(after);
        self.now.written = true;
        if value & CLEAR != 0 {
            self.cleared |= before[COUNT] > 0;
            self.now.loads = 0;
        }
    }

    fn load(&mut self, fate: u32, after: &Record, code: u32) {
        self.lost_to_closed |= fate == LOST_TO_CLOSED;
        if fate != STORED {
            return;
        }
        self.loads += 1;
        if !self.now.written {
            let more = after[COUNT] > 8 << code.min(after[FITTED]);
            self.fifteen_of_initialise |= more && self.now.initialise;
            self.fifteen_of_power_up |= more && !self.now.initialise;
            self.fifteen_past_refused |= more && self.now.refused;
            return;
        }
        self.now.loads += 1;
        self.most = self.most.max(after[COUNT]);
        self.room_by_clocks |= self.now.loads > size(after);
    }
}
