//! Request 2026-07, "The cutter": the bytes, the refusals and their order, and
//! what a board stores and plays of a cut.

mod common {
    pub mod bench;
    pub mod bits;
    pub mod dice;
    pub mod more_bits;
    pub mod outputs;
    pub mod stored;
}

use common::bench::{answer, Bench};
use common::bits::{BINARY, CALIBRATE, CIRCULAR, EOF, EXTERNAL, INITIALISE, SOFT_CLOCK};
use common::dice::Dice;
use common::more_bits::{BURSTS, CLEAR, ENABLED, LOAD_REQUEST};
use common::outputs::{self, bytes};
use second::{listing, rows_of, Event, Written};

// BCR
const SIMULTANEOUS: u32 = 1 << 7;

/// Three groups of four channels. The first digit is the group, the second the
/// channel.
const RECORDING: [u16; 12] = [
    0x00A0, 0x01A1, 0x02A2, 0x03A3, // group 0
    0x10B0, 0x11B1, 0x12B2, 0x13B3, // group 1
    0x20C0, 0x21C1, 0x22C2, 0x23C3, // group 2
];

/// What the cutter is given, but for the output and the place.
#[derive(Clone, Copy, Debug)]
struct Cut<'a> {
    recording: &'a [u16],
    channels: u32,
    first: u64,
    last: u64,
    mask: u32,
}

/// All of RECORDING.
const WHOLE: Cut = Cut {
    recording: &RECORDING,
    channels: 4,
    first: 0,
    last: 2,
    mask: 0b1111,
};
/// Four numbers of it: channels 1 and 3 of the groups 1 and 2.
const FOUR: Cut = Cut {
    first: 1,
    mask: 0b1010,
    ..WHOLE
};
/// One number of it.
const ONE: Cut = Cut {
    first: 2,
    mask: 0b0100,
    ..WHOLE
};

impl Cut<'_> {
    fn call(&self, out: &mut [u8], place: usize) -> Written {
        second::cut(
            self.recording,
            self.channels,
            self.first,
            self.last,
            self.mask,
            out,
            place,
        )
    }

    #[track_caller]
    fn writes(&self, length: usize, place: usize, session: &[u8]) {
        outputs::writes(|out, at| self.call(out, at), length, place, session);
    }

    #[track_caller]
    fn refuses(&self, length: usize, place: usize, refusal: u32) {
        outputs::refuses(self, |out, at| self.call(out, at), length, place, refusal);
    }

    /// This session is written, also with bytes to spare on both sides, and not
    /// with one byte too few.
    #[track_caller]
    fn gives(&self, session: &[u8]) {
        let length = session.len();
        self.writes(length, 0, session);
        self.writes(length + 12, 5, session);
        self.refuses(length - 1, 0, 21);
    }

    /// 22 or 23, whatever the output is: "then 20 and 21".
    #[track_caller]
    fn is_bad(&self, refusal: u32) {
        for (length, place) in [(400, 0), (400, 33), (8, 0), (0, 0)] {
            self.refuses(length, place, refusal);
        }
        for (length, place) in [(8, 9), (0, 1), (400, 401), (8, usize::MAX)] {
            self.refuses(length, place, refusal);
        }
    }

    /// The chosen numbers of a good cut "in recording order", each behind its
    /// channel.
    fn values(&self) -> Vec<(usize, u16)> {
        let mut values = Vec::new();
        for group in self.first as usize..=self.last as usize {
            for channel in 0..self.channels as usize {
                if self.mask & 1 << channel != 0 {
                    let number = self.recording[group * self.channels as usize + channel];
                    values.push((channel, number));
                }
            }
        }
        values
    }

    /// The values as they are stored: "EOF on the very last and on no other".
    fn stored(&self) -> Vec<u32> {
        let mut stored: Vec<u32> = self.values().iter().map(|value| value.1.into()).collect();
        *stored.last_mut().unwrap() += EOF;
        stored
    }

    /// The events of the session, "six numbers each".
    fn rows(&self) -> Vec<[u32; 6]> {
        let mut rows = vec![[2, 0x04, self.mask, 0, 0, 0]];
        rows.extend(self.stored().iter().map(|value| [2, 0x18, *value, 0, 0, 0]));
        rows
    }

    /// The session byte by byte.
    fn session(&self) -> Vec<u8> {
        let mut session = vec![0x01];
        for [kind, offset, value, ..] in self.rows() {
            session.extend([0, 6, kind as u8, offset as u8]);
            session.extend((0..4).rev().map(|byte| (value >> (8 * byte)) as u8));
        }
        session
    }

    /// The session that the cutter writes.
    fn file(&self) -> Vec<u8> {
        let mut file = vec![0; 1 + 8 * (1 + self.values().len())];
        let written = self.call(&mut file, 0);
        assert_eq!((written.refusal, written.place), (0, file.len()));
        file
    }

    /// 22, 23 or 0, worked out in numbers that are wide enough for all.
    fn refusal(&self) -> u32 {
        let [length, channels, last] =
            [self.recording.len() as u64, self.channels.into(), self.last].map(u128::from);
        if !(1..=20).contains(&channels) || length % channels != 0 {
            return 22;
        }
        let outside = (channels..32).any(|channel| self.mask & 1 << channel != 0);
        let past = (last + 1) * channels > length;
        if self.mask == 0 || outside || past || self.first > self.last {
            return 23;
        }
        0
    }
}

impl Bench {
    /// The events of a cut: all are accepted, and nothing is lost.
    #[track_caller]
    fn run(&mut self, cut: &Cut) {
        let rows = rows_of(&cut.file()).unwrap();
        assert_eq!(rows, cut.rows().as_flattened());
        for row in rows.chunks(6) {
            let fate = u32::from(row[1] == 0x18);
            assert_eq!(self.write(row[1], row[2]), answer(0, 0, 0, fate));
        }
    }

    /// "Channel k of a group plays on output k.": after each clock the outputs are
    /// what the recording and the coding say, and those that are not chosen are
    /// as they were. With D7 of the BCR a clock plays a group, else a value.
    #[track_caller]
    fn plays(&mut self, cut: &Cut, bcr: u32, clock: impl Fn(&mut Bench) -> u32) {
        let together = if bcr & SIMULTANEOUS != 0 {
            cut.mask.count_ones()
        } else {
            1
        };
        let coding = if bcr & BINARY != 0 { 0 } else { 0x8000 };
        let mut levels = self.record.levels;
        for values in cut.values().chunks(together as usize) {
            for (channel, number) in values {
                levels[*channel] = number.wrapping_add(coding);
            }
            assert_eq!(clock(self), together);
            assert_eq!(self.record.levels, levels, "{cut:?}");
        }
    }

    /// Nothing is stored, and another tick changes nothing.
    #[track_caller]
    fn has_played_all(&mut self) {
        assert!(self.stored().is_empty() && self.bor_bit(12));
        let levels = self.record.levels;
        assert_eq!((self.tick(), self.record.levels), (0, levels));
    }
}

// ---- what is written -------------------------------------------------------

#[test]
fn four_numbers() {
    FOUR.gives(&bytes(
        "01 0006 02 04 0000000A
         0006 02 18 000011B1 0006 02 18 000013B3
         0006 02 18 000021C1 0006 02 18 000123C3",
    ));
}

#[test]
fn one_number() {
    // The only one is the very last.
    ONE.gives(&bytes("01 0006 02 04 00000004 0006 02 18 000122C2"));
}

#[test]
fn whole_recording() {
    WHOLE.gives(&bytes(
        "01 0006 02 04 0000000F
         0006 02 18 000000A0 0006 02 18 000001A1
         0006 02 18 000002A2 0006 02 18 000003A3
         0006 02 18 000010B0 0006 02 18 000011B1
         0006 02 18 000012B2 0006 02 18 000013B3
         0006 02 18 000020C0 0006 02 18 000021C1
         0006 02 18 000022C2 0006 02 18 000123C3",
    ));
}

#[test]
fn each_end() {
    // "groups a to b (from 0, both taken)": the first group, the last and the one
    // in between, each alone, and the lowest and the highest channel.
    for (group, session) in [
        (0, "01 0006020400000009 00060218000000A0 00060218000103A3"),
        (1, "01 0006020400000009 00060218000010B0 00060218000113B3"),
        (2, "01 0006020400000009 00060218000020C0 00060218000123C3"),
    ] {
        let cut = Cut {
            first: group,
            last: group,
            mask: 0b1001,
            ..WHOLE
        };
        cut.gives(&bytes(session));
    }
}

#[test]
fn one_channel_in_a_group() {
    let cut = Cut {
        recording: &[0x0000, 0xFFFF, 0x8000],
        channels: 1,
        first: 0,
        last: 2,
        mask: 1,
    };
    cut.gives(&bytes(
        "01 0006020400000001 0006021800000000 000602180000FFFF 0006021800018000",
    ));
}

#[test]
fn twenty_channels_in_a_group() {
    let recording: Vec<u16> = (0..40).map(|i| 0x1111 + i).collect();
    let cut = Cut {
        recording: &recording,
        channels: 20,
        first: 1,
        last: 1,
        mask: 1 << 19,
    };
    cut.gives(&bytes("01 0006020400080000 0006021800011138"));
    // The manual: "To select Channels 3, 16 and 18 as active, for example, the
    // Channel Selection register would have the value 0005_0008h."
    let cut = Cut {
        mask: 1 << 3 | 1 << 16 | 1 << 18,
        ..cut
    };
    cut.gives(&bytes(
        "01 0006020400050008 0006021800001128 0006021800001135 0006021800011137",
    ));
    let cut = Cut {
        first: 0,
        mask: 0xF_FFFF,
        ..cut
    };
    assert_eq!(cut.stored()[..39], Vec::from_iter(0x1111..0x1138));
    cut.gives(&cut.session());
}

#[test]
fn every_number_as_it_is() {
    let recording: Vec<u16> = (0..=0xFFFF).collect();
    let cut = Cut {
        recording: &recording,
        channels: 1,
        first: 0,
        last: 0xFFFF,
        mask: 1,
    };
    let mut expected = vec![0x01, 0, 6, 2, 0x04, 0, 0, 0, 1];
    for number in recording.iter().map(|number| number.to_be_bytes()) {
        let mark = u8::from(number == [0xFF, 0xFF]);
        expected.extend([0, 6, 2, 0x18, 0, mark, number[0], number[1]]);
    }
    assert_eq!(expected.len(), 1 + 8 * (1 + 65_536));
    cut.gives(&expected);
}

#[test]
fn more_than_a_board_holds() {
    // Neither a depth nor what `rehearse` reads is a bound.
    let cut = Cut {
        recording: &vec![0x9000; 300_000],
        channels: 1,
        first: 0,
        last: 299_999,
        mask: 1,
    };
    cut.gives(&cut.session());
}

#[test]
fn side_by_side() {
    // The next session from where the last one stopped.
    let mut out = vec![0xA5; 100];
    let mut place = 3;
    let mut expected = vec![0xA5; 3];
    for cut in [ONE, FOUR, ONE] {
        place = cut.call(&mut out, place).place;
        expected.extend(cut.session());
        assert_eq!((&out[..place], place), (&expected[..], expected.len()));
    }
    assert_eq!(place, 3 + 17 + 41 + 17);
    assert!(out[place..].iter().all(|byte| *byte == 0xA5));
}

// ---- 22 --------------------------------------------------------------------

#[test]
fn channels_in_a_group() {
    // 101h is 1 in its lowest byte, and so on.
    let numbers = [0, 21, 22, 24, 32, 33, 64, 0x101, 0x1_0001, 0x8000_0001];
    for channels in numbers.into_iter().chain([u32::MAX - 1, u32::MAX]) {
        // No group, one, two, and no whole number of them.
        let group = if channels < 1_000 { channels } else { 1 };
        for length in [0, group, 2 * group, 2 * group + 1] {
            let cut = Cut {
                recording: &vec![0x9000; length as usize],
                channels,
                first: 0,
                last: 0,
                mask: 1,
            };
            cut.is_bad(22);
        }
    }
}

#[test]
fn no_whole_number_of_groups() {
    let recording = [0x9000; 65];
    for channels in 1..=20 {
        for length in 1..=65 {
            let cut = Cut {
                recording: &recording[..length],
                channels,
                first: 0,
                last: 0,
                mask: 1,
            };
            if length % channels as usize == 0 {
                cut.gives(&bytes("01 0006020400000001 0006021800019000"));
            } else {
                cut.is_bad(22);
            }
        }
    }
}

// ---- 23 --------------------------------------------------------------------

#[test]
fn no_channel() {
    for channels in 1..=20 {
        let cut = Cut {
            recording: &[0x9000; 20][..channels as usize],
            channels,
            first: 0,
            last: 0,
            mask: 0,
        };
        cut.is_bad(23);
    }
}

#[test]
fn channels_outside_the_group() {
    for channels in 1..=20 {
        let cut = Cut {
            recording: &[0x9000; 20][..channels as usize],
            channels,
            first: 0,
            last: 0,
            mask: (1 << channels) - 1,
        };
        cut.gives(&cut.session());
        for channel in 0..channels {
            let mask = 1 << channel;
            let cut = Cut { mask, ..cut };
            cut.gives(&cut.session());
        }
        // Alone, beside all that are inside, and all of them.
        for channel in channels..32 {
            let outside = 1 << channel;
            for mask in [outside, outside | cut.mask, !cut.mask, u32::MAX] {
                Cut { mask, ..cut }.is_bad(23);
            }
        }
    }
}

#[test]
fn groups_reversed() {
    for first in 0..3 {
        for last in 0..3 {
            let cut = Cut {
                first,
                last,
                ..WHOLE
            };
            if first <= last {
                cut.gives(&cut.session());
            } else {
                cut.is_bad(23);
            }
        }
    }
}

#[test]
fn groups_out_of_range() {
    // Two groups of every size. The widest numbers, and those whose product with
    // the channels is small again once it has wrapped.
    for channels in 1..=20 {
        let size = u64::from(channels);
        let cut = Cut {
            recording: &[0x9000; 40][..2 * channels as usize],
            channels,
            first: 0,
            last: 1,
            mask: 1,
        };
        cut.gives(&cut.session());
        let mut numbers = vec![2, 3, 4, 39, 40, u64::MAX / size, u64::MAX - 1, u64::MAX];
        numbers.extend((8..64).flat_map(|n| [1 << n, (1 << n) + 1, (1 << n) - 1]));
        numbers.extend((1..size).map(|n| ((u128::from(n) << 64).div_ceil(size.into())) as u64));
        for number in numbers {
            for (first, last) in [(0, number), (1, number), (number, number)] {
                Cut { first, last, ..cut }.is_bad(23);
            }
            for (first, last) in [(number, 0), (number, 1), (number, number - 1)] {
                Cut { first, last, ..cut }.is_bad(23);
            }
            for (first, last) in [(number - 1, number), (number, u64::MAX)] {
                Cut { first, last, ..cut }.is_bad(23);
            }
        }
    }
}

#[test]
fn empty_recording() {
    // No group to choose.
    for channels in 1..=20 {
        for first in [0, 1, u64::MAX] {
            for last in [0, 1, u64::MAX] {
                for mask in [0, 1, (1 << channels) - 1, u32::MAX] {
                    let cut = Cut {
                        recording: &[],
                        channels,
                        first,
                        last,
                        mask,
                    };
                    cut.is_bad(23);
                }
            }
        }
    }
}

// ---- 20 and 21 -------------------------------------------------------------

#[test]
fn places() {
    let session = ONE.session();
    assert_eq!(session.len(), 17);
    ONE.writes(40, 0, &session);
    ONE.writes(40, 22, &session);
    // Exactly long enough, and short by one byte.
    ONE.writes(40, 23, &session);
    ONE.refuses(40, 24, 21);
    // One byte left, and none: the output's end is not past the end.
    ONE.refuses(40, 39, 21);
    ONE.refuses(40, 40, 21);
    ONE.refuses(0, 0, 21);
    // Past it: 20 before 21.
    ONE.refuses(40, 41, 20);
    ONE.refuses(0, 1, 20);
    for place in [isize::MAX as usize, usize::MAX - 16, usize::MAX] {
        ONE.refuses(40, place, 20);
        ONE.refuses(0, place, 20);
    }
}

#[test]
fn every_room_too_short() {
    for cut in [ONE, FOUR, WHOLE] {
        let session = cut.session();
        for place in [0, 1, 30] {
            for room in 0..session.len() {
                cut.refuses(place + room, place, 21);
            }
            cut.writes(place + session.len(), place, &session);
        }
    }
}

// ---- 22 before 23 ----------------------------------------------------------

#[test]
fn groups_before_choice() {
    let groups: [(&[u16], u32); 8] = [
        (&RECORDING, 0),
        (&RECORDING, 21),
        (&RECORDING, u32::MAX),
        (&RECORDING, 5),
        (&RECORDING[1..], 4),
        (&[], 0),
        (&[], 21),
        (&[0x9000; 21], 21),
    ];
    let choices = [
        // no channel, or one outside
        (0, 2, 0),
        (0, 2, 1 << 4),
        (0, 2, 1 << 20 | 1),
        (0, 2, 1 << 31),
        (0, 2, u32::MAX),
        // groups
        (1, 0, 1),
        (0, 3, 1),
        (3, 3, 1),
        (0, u64::MAX, 1),
        (u64::MAX, 0, 1),
        (u64::MAX, u64::MAX, 1),
        // both
        (1, 0, 0),
        (u64::MAX, u64::MAX, u32::MAX),
    ];
    for (first, last, mask) in choices {
        let cut = Cut {
            first,
            last,
            mask,
            ..WHOLE
        };
        cut.is_bad(23);
        for (recording, channels) in groups {
            Cut {
                recording,
                channels,
                ..cut
            }
            .is_bad(22);
        }
    }
    for (recording, channels) in groups {
        Cut {
            recording,
            channels,
            ..ONE
        }
        .is_bad(22);
    }
}

// ---- random cuts -----------------------------------------------------------

impl Dice {
    /// Up to so many groups, and how many channels they have.
    fn recording(&mut self, most: u32) -> (Vec<u16>, u32) {
        let channels = 1 + self.roll(20);
        let length = channels * (1 + self.roll(most));
        let recording = (0..length).map(|_| self.any() as u16).collect();
        (recording, channels)
    }

    /// A good cut of a recording.
    fn cut<'a>(&mut self, recording: &'a [u16], channels: u32) -> Cut<'a> {
        let groups = recording.len() as u32 / channels;
        let first = self.roll(groups);
        let last = first + self.roll(groups - first);
        // Few channels or about half of them, at least one; or all.
        let all = (1 << channels) - 1;
        let some = match self.roll(4) {
            0 => self.any() & self.any() & self.any(),
            1 => u32::MAX,
            _ => self.any(),
        };
        Cut {
            recording,
            channels,
            first: first.into(),
            last: last.into(),
            mask: some & all | 1 << self.roll(channels),
        }
    }

    /// A board "with the channels fitted and depth enough".
    fn board(&mut self, cut: &Cut) -> Bench {
        let kits = [6, 12, 20];
        let smallest = kits.iter().position(|fitted| cut.mask >> fitted == 0);
        let kit = smallest.unwrap() as u32;
        let values = cut.values().len() as u32;
        let least = (0..16).find(|fitted| 8 << *fitted >= values).unwrap();
        Bench::new(least + self.roll(16 - least), kit + self.roll(3 - kit))
    }
}

#[test]
fn random_cuts() {
    let mut dice = Dice(0x0020_2607);
    for _ in 0..2_000 {
        let (recording, channels) = dice.recording(10);
        let cut = dice.cut(&recording, channels);
        let session = cut.session();
        assert_eq!(session.len(), 1 + 8 * (1 + cut.values().len()));
        assert_eq!(cut.refusal(), 0);
        let place = dice.roll(30) as usize;
        let stop = place + session.len();
        cut.writes(stop + dice.roll(30) as usize, place, &session);
        cut.refuses(stop - 1, place, 21);
        cut.refuses(place, place, 21);
        cut.refuses(place, place + 1 + dice.roll(30) as usize, 20);
        // "Reading back gives the events"
        assert_eq!(rows_of(&session).unwrap(), cut.rows().as_flattened());
    }
}

#[test]
fn random_refusals() {
    // Good cuts in which a few numbers are changed.
    let mut dice = Dice(0x0022_0023);
    let mut met = [0; 3];
    for _ in 0..20_000 {
        let (recording, channels) = dice.recording(5);
        let mut cut = dice.cut(&recording, channels);
        for _ in 0..dice.roll(4) {
            match dice.roll(7) {
                0 => cut.channels = dice.roll(24),
                1 => cut.recording = &recording[dice.roll(recording.len() as u32) as usize..],
                2 => cut.mask = dice.any() >> dice.roll(32),
                3 => cut.first = dice.roll(6).into(),
                4 => cut.last = dice.roll(6).into(),
                5 => cut.first ^= 1 << dice.roll(64),
                _ => cut.last ^= 1 << dice.roll(64),
            }
        }
        match cut.refusal() {
            0 => {
                cut.gives(&cut.session());
                met[0] += 1;
            }
            refusal => {
                cut.is_bad(refusal);
                met[refusal as usize - 21] += 1;
            }
        }
    }
    assert!(met.iter().all(|times| *times > 1_000), "{met:?}");
}

// ---- what a board stores ---------------------------------------------------

#[test]
fn stores_the_chosen_numbers() {
    let mut b = Bench::new(0, 0);
    b.run(&FOUR);
    assert_eq!(b.stored(), [0x11B1, 0x13B3, 0x21C1, 0x1_23C3]);
    assert_eq!(b.read(0x04), 0b1010);
    assert_eq!(b.memory[4], 0xDEAD_BEEF);
    assert_eq!(b.record.levels, [0x8000; 20]);
}

#[test]
fn just_enough_depth() {
    // Groups of sixteen channels, every second of them chosen: as many values as
    // there is depth for, at every depth, and one load more.
    let mask = 0x5555;
    for fitted in 0..16 {
        let groups = 1 << fitted;
        let recording: Vec<u16> = (0..16 * groups).map(|i| (i * 40_503) as u16).collect();
        let cut = Cut {
            recording: &recording,
            channels: 16,
            first: 0,
            last: groups - 1,
            mask,
        };
        for bcr in [BINARY, SIMULTANEOUS] {
            let mut b = Bench::new(fitted, 2);
            b.run(&cut);
            assert_eq!(b.stored(), cut.stored());
            assert!(b.bor_bit(15) && !b.bor_bit(16) && !b.bor_bit(17));
            assert_eq!(b.load(1), 2);
            b.write(0x00, bcr);
            b.write(0x0C, ENABLED);
            b.plays(&cut, bcr, Bench::tick);
            b.has_played_all();
        }
    }
}

#[test]
fn not_enough_depth() {
    // The cutter knows no depth. Twelve values at a depth of 8: the last four are
    // lost, and the mark with them.
    let mut b = Bench::new(0, 0);
    for (i, row) in WHOLE.rows().iter().enumerate() {
        let fate = match i {
            0 => 0,
            1..=8 => 1,
            _ => 2,
        };
        assert_eq!(b.write(row[1], row[2]), answer(0, 0, 0, fate));
    }
    assert_eq!(b.stored(), WHOLE.stored()[..8]);
    assert!(b.bor_bit(16));
}

#[test]
fn channels_not_fitted() {
    // Nor a kit. Channels 5 and 6 with six fitted: all is stored, and channel 6
    // plays on output 5.
    let cut = Cut {
        recording: &[0x1000, 0x1001, 0x1002, 0x1003, 0x1004, 0x1005, 0x1006],
        channels: 7,
        first: 0,
        last: 0,
        mask: 1 << 5 | 1 << 6,
    };
    let mut b = Bench::new(0, 0);
    b.run(&cut);
    assert_eq!(b.stored(), [0x1005, 0x1_1006]);
    assert_eq!(b.read(0x04), 1 << 5);
    b.write(0x0C, ENABLED);
    assert_eq!((b.tick(), b.record.levels[5]), (1, 0x1005));
    assert_eq!((b.tick(), b.record.levels[5]), (1, 0x1006));
    assert_eq!(b.record.levels[6], 0x8000);
}

// ---- what a board plays ----------------------------------------------------

#[test]
fn channel_k_plays_on_output_k() {
    let mut dice = Dice(0x0004_0018);
    let mut met = [0; 8];
    for _ in 0..3_000 {
        let (recording, channels) = dice.recording(12);
        let cut = dice.cut(&recording, channels);
        let mut b = dice.board(&cut);
        b.run(&cut);
        let stored = cut.stored();
        assert_eq!(b.stored(), stored);
        assert!(b.memory[stored.len()..].iter().all(|e| *e == 0xDEAD_BEEF));
        assert_eq!(b.read(0x04), cut.mask);

        let bcr = dice.any() & !(BURSTS | CALIBRATE | INITIALISE);
        let bor = dice.any() & !(EXTERNAL | CIRCULAR | CLEAR) | ENABLED;
        let order = dice.roll(2);
        let mut writes = [(0x00, bcr), (0x0C, bor)];
        if order == 1 {
            writes.reverse();
        }
        for (offset, value) in writes {
            assert_eq!(b.write(offset, value), answer(0, 0, 0, 0));
        }
        assert_eq!(b.stored(), stored);
        assert_eq!(b.record.levels, [0x8000; 20]);
        assert!(!b.bor_bit(16) && !b.bor_bit(17));

        b.plays(&cut, bcr, Bench::tick);
        b.has_played_all();
        let (mode, coding) = (bcr & SIMULTANEOUS != 0, bcr & BINARY != 0);
        met[usize::from(mode) + 2 * usize::from(coding) + 4 * order as usize] += 1;
    }
    assert!(met.iter().all(|times| *times > 250), "{met:?}");
}

#[test]
fn written_out() {
    // Value by value and group by group, in both codings.
    let mut b = Bench::new(0, 0);
    b.run(&FOUR);
    b.write(0x0C, ENABLED);
    for expected in [
        [0x8000, 0x11B1, 0x8000, 0x8000, 0x8000],
        [0x8000, 0x11B1, 0x8000, 0x13B3, 0x8000],
        [0x8000, 0x21C1, 0x8000, 0x13B3, 0x8000],
        [0x8000, 0x21C1, 0x8000, 0x23C3, 0x8000],
    ] {
        assert_eq!(b.tick(), 1);
        assert_eq!(b.record.levels[..5], expected);
    }
    b.run(&FOUR);
    b.write(0x00, SIMULTANEOUS);
    for expected in [
        [0x8000, 0x91B1, 0x8000, 0x93B3, 0x8000],
        [0x8000, 0xA1C1, 0x8000, 0xA3C3, 0x8000],
    ] {
        assert_eq!(b.tick(), 2);
        assert_eq!(b.record.levels[..5], expected);
    }
    b.has_played_all();
}

#[test]
fn cuts_one_after_the_other() {
    // Each begins at its lowest channel, and the outputs that it has not chosen
    // keep what an earlier one left.
    let mut dice = Dice(0x0007_0007);
    for _ in 0..200 {
        let (recording, channels) = dice.recording(6);
        let mut b = Bench::new(4, 2);
        b.write(0x0C, ENABLED | 0xF);
        for _ in 0..6 {
            let bcr = dice.any() & (SIMULTANEOUS | BINARY);
            b.write(0x00, bcr);
            let cut = dice.cut(&recording, channels);
            b.run(&cut);
            b.plays(&cut, bcr, Bench::tick);
            b.has_played_all();
        }
    }
}

#[test]
fn software_clocks() {
    // Not only ticks.
    for bcr in [BINARY, SIMULTANEOUS] {
        for cut in [ONE, FOUR, WHOLE] {
            let mut b = Bench::new(1, 0);
            b.run(&cut);
            b.write(0x00, bcr);
            b.write(0x0C, EXTERNAL | ENABLED);
            b.plays(&cut, bcr, |b| {
                b.write(0x0C, EXTERNAL | ENABLED | SOFT_CLOCK).moved
            });
            b.has_played_all();
        }
    }
}

#[test]
fn one_burst() {
    // The mark on the very last value ends a burst, and no other does.
    for mode in [0, SIMULTANEOUS] {
        for cut in [ONE, FOUR, WHOLE] {
            let bcr = BINARY | BURSTS | mode;
            let mut b = Bench::new(1, 0);
            b.run(&cut);
            b.write(0x00, bcr);
            b.write(0x0C, ENABLED);
            assert_eq!(b.tick(), 0);
            b.go(Event::Trigger);
            b.plays(&cut, bcr, |b| {
                assert!(!b.bcr_bit(1));
                b.tick()
            });
            assert!(b.bcr_bit(1));
            b.has_played_all();
        }
    }
}

#[test]
fn one_frame() {
    // A closed buffer repeats a cut. With a load request its mark opens the
    // buffer for another cut, which follows the next time the mark passes.
    let closed = ENABLED | CIRCULAR | 0xF;
    let old = Cut { last: 0, ..WHOLE };
    let new = Cut { first: 1, ..WHOLE };
    for bcr in [BINARY, SIMULTANEOUS] {
        let mut b = Bench::new(1, 0);
        b.run(&old);
        b.write(0x00, bcr);
        b.write(0x0C, closed);
        let in_closed = |b: &mut Bench| {
            assert!(!b.bor_bit(10));
            b.tick()
        };
        let in_opened = |b: &mut Bench| {
            assert!(b.bor_bit(10));
            b.tick()
        };
        b.plays(&old, bcr, in_closed);
        b.plays(&old, bcr, in_closed);
        assert_eq!(b.stored(), old.stored());
        b.write(0x0C, closed | LOAD_REQUEST);
        b.plays(&old, bcr, in_closed);
        b.run(&new);
        b.plays(&old, bcr, in_opened);
        assert_eq!(b.stored(), new.stored());
        b.plays(&new, bcr, in_closed);
        b.plays(&new, bcr, in_closed);
        assert_eq!(b.stored(), new.stored());
    }
}

#[test]
fn in_a_session() {
    // The records of a cut between a power-up and two ticks.
    let file = [
        bytes("01 0007 01 00 01 00 00 0010"),
        FOUR.file().split_off(1),
        bytes("0006 02 00 00000090 0006 02 0C 00000020 0001 04 0001 04"),
    ]
    .concat();
    let expected = "REHEARSAL 1
1 0 00000000 0 0 0
2 0 00000000 0 0 0
3 0 00000000 0 1 1
4 0 00000000 0 1 2
5 0 00000000 0 1 3
6 0 00000000 0 1 4
7 0 00000000 0 0 4
8 0 00000000 0 0 4
9 0 00000000 2 0 2
10 0 00000000 2 0 0
LEVELS 8000 21C1 8000 23C3 8000 8000 8000 8000 8000 8000 8000 8000 8000 8000 8000 8000 8000 8000 8000 8000
";
    assert_eq!(listing(&file), expected);
    // Alone it powers nothing up: each event is refused.
    let listing = listing(&FOUR.file());
    let events: Vec<_> = listing.lines().skip(1).take(5).collect();
    let refused = (1..=5).map(|n| format!("{n} 3 00000000 0 0 0"));
    assert_eq!(events, Vec::from_iter(refused));
}
