//! Request 2026-06, "High quarter starts at three quarters": the flag (BOR D14)
//! and interrupt 4.

mod common {
    pub mod bench;
    pub mod bits;
    pub mod dice;
    pub mod more_bits;
}

use common::bench::{answer, Bench};
use common::bits::{BINARY, CALIBRATE, CIRCULAR, EOF, EXTERNAL, INITIALISE, SOFT_CLOCK};
use common::dice::Dice;
use common::more_bits::{BURSTS, CLEAR, ENABLED, LOAD_REQUEST};
use second::{listing, Event, Record};

// BCR
const SIMULTANEOUS: u32 = 1 << 7;
const REQUEST: u32 = 1 << 11;
/// The write that selects interrupt 4 and clears the request.
const HIGH: u32 = BINARY | 4 << 8;

/// The sizes of the codes 0 to 15, the manual's Table 3.4-6.
const SIZES: [u32; 16] = [
    8, 16, 32, 64, 128, 256, 512, 1024, 2048, 4096, 8192, 16384, 32768, 65536, 131072, 262144,
];
/// Three quarters of them.
const THREE_QUARTERS: [u32; 16] = [
    6, 12, 24, 48, 96, 192, 384, 768, 1536, 3072, 6144, 12288, 24576, 49152, 98304, 196608,
];

/// BOR D15..12 at size 8 with 0 to 8 values stored: full, high quarter, low
/// quarter, empty. 01's case "low at 1, not 2; ...; full at 8, not 7", and "At
/// size 8 it rises at 6, not at 5".
const FLAGS_OF_SIZE_8: [u32; 9] = [
    0b0011, 0b0010, 0b0000, 0b0000, 0b0000, 0b0000, 0b0100, 0b0100, 0b1100,
];

impl Bench {
    /// Loads up to this count.
    fn fill(&mut self, count: u32) {
        while self.record.count < count {
            assert_eq!(self.load(0x9000), 1);
        }
    }
    /// Ticks down to this count, one value each.
    fn play_down(&mut self, count: u32) {
        while self.record.count > count {
            assert_eq!(self.tick(), 1);
        }
    }
    /// BOR D15..12.
    fn flags(&mut self) -> u32 {
        (self.read(0x0C) >> 12) & 0xF
    }
    fn high(&mut self) -> bool {
        self.bor_bit(14)
    }
    fn requested(&mut self) -> bool {
        self.bcr_bit(11)
    }
    /// "D11 = 0 clears the request"; the selection stays 4.
    fn clear_request(&mut self) {
        self.write(0x00, HIGH);
        assert!(!self.requested());
    }
    /// A buffer operations write that sets the size code; clocking stays
    /// enabled.
    fn set_code(&mut self, code: u32) {
        assert_eq!(self.write(0x0C, ENABLED | code), answer(0, 0, 0, 0));
    }
}

/// An empty board with clocking enabled, this size code, and interrupt 4
/// selected without a request.
fn selected(fitted: u32, code: u32) -> Bench {
    let mut b = Bench::new(fitted, 0);
    b.set_code(code);
    b.clear_request();
    b
}

// ---- the flag --------------------------------------------------------------

#[test]
fn size_8_filled() {
    let mut b = Bench::new(0, 0);
    for (count, flags) in (0..).zip(FLAGS_OF_SIZE_8) {
        b.fill(count);
        assert_eq!(b.flags(), flags, "at {count}");
    }
    // A lost value changes none of them.
    assert_eq!((b.load(1), b.flags()), (2, 0b1100));
}

#[test]
fn size_8_played_down() {
    // From 6, from 7 and from 8: still set at 6, clear at 5.
    for top in [6, 7, 8] {
        let mut b = Bench::new(0, 0);
        b.set_code(0);
        b.fill(top);
        for count in (0..=top).rev() {
            b.play_down(count);
            assert_eq!(
                b.flags(),
                FLAGS_OF_SIZE_8[count as usize],
                "at {count} from {top}"
            );
        }
    }
}

#[test]
fn every_size() {
    // "at least 3·size": at exactly three quarters, not at one less. Low quarter
    // "at 4·count < size" and full "at count ≥ size" did not move.
    for code in 0..16 {
        let (size, three_quarters) = (SIZES[code], THREE_QUARTERS[code]);
        let mut b = Bench::new(15, 0);
        b.set_code(code as u32);
        for (count, flags) in [
            (0, 0b0011),
            (1, 0b0010),
            (size / 4 - 1, 0b0010),
            (size / 4, 0b0000),
            (size / 2, 0b0000),
            (three_quarters - 1, 0b0000),
            (three_quarters, 0b0100),
            (three_quarters + 1, 0b0100),
            (size - 1, 0b0100),
            (size, 0b1100),
        ] {
            b.fill(count);
            assert_eq!(b.flags(), flags, "code {code} at {count}");
        }
        for (count, flags) in [
            (three_quarters, 0b0100),
            (three_quarters - 1, 0b0000),
            (size / 4, 0b0000),
            (size / 4 - 1, 0b0010),
        ] {
            b.play_down(count);
            assert_eq!(b.flags(), flags, "code {code} down at {count}");
        }
    }
}

#[test]
fn every_count() {
    // Nothing between is left out, up to size 1024.
    for code in 0..8 {
        let mut b = Bench::new(7, 0);
        b.set_code(code as u32);
        for count in 0..=SIZES[code] {
            b.fill(count);
            assert_eq!(b.high(), count >= THREE_QUARTERS[code], "{code} {count}");
        }
    }
}

#[test]
fn lesser_of_size_code_and_d() {
    // The flag is of the active size: "m is the lesser of size code and d".
    for fitted in 0..6 {
        for code in 0..16 {
            let mut b = Bench::new(fitted, 0);
            b.set_code(code);
            let three_quarters = THREE_QUARTERS[code.min(fitted) as usize];
            b.fill(three_quarters - 1);
            assert!(!b.high(), "d {fitted} code {code}");
            b.fill(three_quarters);
            assert!(b.high(), "d {fitted} code {code}");
        }
    }
}

#[test]
fn as_power_up_leaves_the_size() {
    // "BOR 0000340Fh": the whole depth, without any buffer operations write.
    for fitted in 0..16 {
        let mut b = Bench::new(fitted, 0);
        b.fill(THREE_QUARTERS[fitted as usize] - 1);
        assert_eq!(b.read(0x0C), 0x0000_040F);
        b.fill(THREE_QUARTERS[fitted as usize]);
        assert_eq!(b.read(0x0C), 0x0000_440F);
    }
}

#[test]
fn more_than_the_size() {
    // "A smaller size drops nothing.": 10 and 24 stored at size 8.
    let mut b = Bench::new(2, 0);
    b.fill(10);
    b.set_code(0);
    assert_eq!(b.flags(), 0b1100);
    b.set_code(2);
    b.fill(24);
    assert_eq!(b.flags(), 0b0100);
    b.set_code(0);
    assert_eq!((b.flags(), b.record.count), (0b1100, 24));
}

#[test]
fn listed() {
    // Loads at depth 8, and 0Ch read after the 5th, 6th, 7th and 8th.
    let load: &[u8] = &[0, 6, 2, 0x18, 0x00, 0x00, 0x12, 0x34];
    let read: &[u8] = &[0, 2, 3, 0x0C];
    let records = [
        &[1, 0, 7, 1, 0, 0, 0, 0, 0x00, 0x00],
        load,
        load,
        load,
        load,
        load,
        read,
        load,
        read,
        load,
        read,
        load,
        read,
    ];
    let expected = "REHEARSAL 1
1 0 00000000 0 0 0
2 0 00000000 0 1 1
3 0 00000000 0 1 2
4 0 00000000 0 1 3
5 0 00000000 0 1 4
6 0 00000000 0 1 5
7 0 0000040F 0 0 5
8 0 00000000 0 1 6
9 0 0000440F 0 0 6
10 0 00000000 0 1 7
11 0 0000440F 0 0 7
12 0 00000000 0 1 8
13 0 0000C40F 0 0 8
LEVELS 8000 8000 8000 8000 8000 8000 8000 8000 8000 8000 8000 8000 8000 8000 8000 8000 8000 8000 8000 8000
";
    assert_eq!(listing(&records.concat()), expected);
}

// ---- interrupt 4: "false to true sets the request after all else" ----------

#[test]
fn sixth_value_of_size_8() {
    let mut b = selected(0, 0);
    for count in 1..=5 {
        b.fill(count);
        assert!(!b.requested(), "at {count}");
    }
    for count in 6..=8 {
        b.fill(count);
        assert!(b.requested(), "at {count}");
    }
}

#[test]
fn value_of_every_size() {
    for (code, three_quarters) in (0..).zip(THREE_QUARTERS) {
        let mut b = selected(15, code);
        b.fill(three_quarters - 1);
        assert!(!b.requested(), "code {code}");
        b.fill(three_quarters);
        assert!(b.requested(), "code {code}");
    }
}

#[test]
fn true_stays_true() {
    // The request was cleared at 6: neither more values nor a lost one nor fewer
    // down to 6 ask again.
    let mut b = selected(0, 0);
    b.fill(6);
    b.clear_request();
    for count in [7, 8] {
        b.fill(count);
        assert!(!b.requested(), "at {count}");
    }
    assert_eq!((b.load(1), b.requested()), (2, false));
    for count in [7, 6] {
        b.play_down(count);
        assert!(!b.requested(), "down at {count}");
    }
}

#[test]
fn reached_anew() {
    // Played down from 6, 7 or 8 to 5 or less, with the request cleared before.
    for top in [6, 7, 8] {
        for bottom in [5, 4, 0] {
            let mut b = selected(0, 0);
            b.fill(top);
            b.clear_request();
            b.play_down(bottom);
            b.fill(5);
            assert!(!b.requested());
            b.fill(6);
            assert!(b.requested(), "{top} {bottom}");
        }
    }
}

#[test]
fn fall_clears_the_request() {
    // "true to false clears it": at 5, not at 6.
    for top in [6, 7, 8] {
        let mut b = selected(0, 0);
        b.fill(top);
        b.play_down(6);
        assert!(b.requested(), "from {top}");
        b.play_down(5);
        assert!(!b.requested(), "from {top}");
        b.fill(6);
        assert!(b.requested(), "from {top}");
    }
}

#[test]
fn newly_selected() {
    // A true condition newly selected raises nothing, at exactly 6 neither.
    let mut b = Bench::new(0, 0);
    b.set_code(0);
    b.write(0x00, BINARY);
    b.fill(6);
    assert!(!b.requested());
    for value in [HIGH, BINARY, HIGH | REQUEST] {
        b.write(0x00, value);
        assert!(!b.requested());
    }
    b.play_down(5);
    b.fill(6);
    assert!(b.requested());
    // Another selection leaves the request.
    b.write(0x00, BINARY | 2 << 8 | REQUEST);
    assert!(b.requested());
}

// ---- interrupt 4: a write that changes the size ----------------------------

#[test]
fn size_moved_over_the_count() {
    // "If an event leaves the selection unchanged": a buffer operations write is
    // an event, and the size is in the condition. 5 are below three quarters of
    // 16 and of 8; 6 are three quarters of 8.
    let mut b = selected(1, 1);
    b.fill(5);
    b.set_code(0);
    assert_eq!((b.high(), b.requested()), (false, false));
    b.set_code(1);
    b.fill(6);
    assert_eq!((b.high(), b.requested()), (false, false));
    b.set_code(0);
    assert_eq!((b.high(), b.requested()), (true, true));
    // The same size once more.
    b.clear_request();
    b.set_code(0);
    assert_eq!((b.high(), b.requested()), (true, false));
    // Back and forth: "true to false clears it".
    b.set_code(1);
    assert_eq!((b.high(), b.requested()), (false, false));
    b.set_code(0);
    assert_eq!((b.high(), b.requested()), (true, true));
    b.set_code(1);
    assert_eq!((b.high(), b.requested()), (false, false));
}

#[test]
fn every_size_moved_over_the_count() {
    // From the next larger size to this one, at exactly its three quarters and
    // at one less.
    for code in 0..15 {
        let mut b = selected(15, code + 1);
        b.fill(THREE_QUARTERS[code as usize] - 1);
        b.set_code(code);
        assert!(!b.requested(), "code {code}");
        b.set_code(code + 1);
        b.fill(THREE_QUARTERS[code as usize]);
        assert!(!b.requested(), "code {code}");
        b.set_code(code);
        assert!(b.requested(), "code {code}");
    }
}

#[test]
fn size_on_one_side_of_the_count() {
    // 12 are three quarters of 16, and more than those of 8.
    let mut b = selected(2, 1);
    b.fill(12);
    assert!(b.requested());
    for code in [0, 1] {
        b.set_code(code);
        assert!(b.requested());
    }
    b.clear_request();
    for code in [0, 1] {
        b.set_code(code);
        assert!(b.high() && !b.requested());
    }
    // Codes from d upward are one size: 24 are three quarters of it.
    b.set_code(2);
    b.fill(24);
    b.clear_request();
    for code in 2..16 {
        b.set_code(code);
        assert!(b.high() && !b.requested());
    }
}

#[test]
fn size_and_software_clock() {
    // One write makes the size 8 and moves a value: "after all else".
    let clocked = EXTERNAL | ENABLED;
    for (count, high) in [(7, true), (6, false)] {
        let mut b = selected(1, 1);
        b.write(0x0C, clocked | 1);
        b.fill(count);
        assert!(!b.high());
        assert_eq!(b.write(0x0C, clocked | SOFT_CLOCK), answer(0, 0, 1, 0));
        assert_eq!((b.high(), b.requested()), (high, high), "{count}");
    }
    // The size stays 8: from 7 to 6, then to 5.
    let mut b = selected(0, 0);
    b.write(0x0C, clocked);
    b.fill(7);
    for high in [true, false] {
        assert_eq!(b.write(0x0C, clocked | SOFT_CLOCK), answer(0, 0, 1, 0));
        assert_eq!((b.high(), b.requested()), (high, high));
    }
}

// ---- interrupt 4: other ways to change the count, or not to ----------------

#[test]
fn group_of_channels() {
    // From 8: groups of 2 leave 6, groups of 3 leave 5.
    for (mask, high) in [(0b11, true), (0b111, false)] {
        let mut b = selected(0, 0);
        b.write(0x04, mask);
        b.write(0x00, HIGH | SIMULTANEOUS);
        b.fill(8);
        assert!(b.requested());
        assert_eq!(b.tick(), mask.count_ones());
        assert_eq!((b.high(), b.requested()), (high, high));
    }
}

#[test]
fn cleared_buffer() {
    let mut b = selected(0, 0);
    b.fill(6);
    b.write(0x0C, ENABLED | CLEAR);
    assert_eq!((b.flags(), b.requested()), (0b0011, false));
    b.fill(5);
    assert!(!b.requested());
    b.fill(6);
    assert!(b.requested());
    // With a smaller size in the same write there is nothing left to be high.
    let mut b = selected(1, 1);
    b.fill(6);
    b.write(0x0C, ENABLED | CLEAR);
    assert!(!b.high() && !b.requested());
}

#[test]
fn initialise() {
    // "Initialise just sets it.", and nothing is selected afterwards.
    let mut b = selected(0, 0);
    b.fill(6);
    b.clear_request();
    b.write(0x00, INITIALISE);
    assert_eq!((b.flags(), b.requested()), (0b0011, true));
    b.write(0x00, BINARY);
    b.fill(6);
    assert!(b.high() && !b.requested());
}

#[test]
fn closed_buffer() {
    // Recirculated values leave the count as it is; a value lost to closed is no
    // sixth one.
    for (count, high) in [(6, true), (5, false)] {
        let mut b = selected(0, 0);
        b.fill(count);
        b.clear_request();
        b.write(0x0C, ENABLED | CIRCULAR);
        for _ in 0..10 {
            assert_eq!(b.tick(), 1);
            assert_eq!((b.high(), b.requested()), (high, false));
        }
        assert_eq!(b.load(1), 3);
        assert_eq!((b.high(), b.requested()), (high, false));
    }
}

#[test]
fn opened_buffer() {
    // The fifth value has the EOF that opens; the sixth is loaded then.
    let mut b = selected(0, 0);
    b.fill(4);
    b.load(0x9000 | EOF);
    b.write(0x0C, ENABLED | CIRCULAR | LOAD_REQUEST);
    for _ in 0..5 {
        assert_eq!(b.tick(), 1);
    }
    assert!(b.record.opened && !b.high() && !b.requested());
    b.fill(6);
    assert!(b.high() && b.requested());
    b.play_down(5);
    assert!(!b.high() && !b.requested());
}

#[test]
fn burst() {
    let mut b = selected(0, 0);
    b.write(0x00, HIGH | BURSTS);
    b.fill(6);
    assert_eq!(b.tick(), 0);
    assert!(b.high() && b.requested());
    b.go(Event::Trigger);
    assert!(b.high() && b.requested());
    assert_eq!(b.tick(), 1);
    assert!(!b.high() && !b.requested());
}

#[test]
fn refused_load() {
    // "6 any other write while calibrating": no sixth value.
    let mut b = selected(0, 0);
    b.fill(5);
    b.write(0x00, HIGH | CALIBRATE);
    assert_eq!(b.write(0x18, 0x9000), answer(6, 0, 0, 0));
    assert!(!b.high() && !b.requested());
    b.go(Event::Passed);
    assert!(!b.requested());
    b.fill(6);
    assert!(b.high() && b.requested());
}

// ---- what does not follow --------------------------------------------------

#[test]
fn sixth_value_with_each_selection() {
    // The load changes the count, and the request with selection 4 only.
    for selection in 0..8 {
        let mut b = Bench::new(0, 0);
        b.fill(5);
        b.write(0x00, BINARY | selection << 8);
        let fifth = b.record.clone();
        b.fill(6);
        let sixth = Record {
            count: 6,
            request: selection == 4,
            ..fifth
        };
        assert_eq!(b.record, sixth, "selection {selection}");
    }
}

#[test]
fn low_quarter_interrupt() {
    // Interrupt 3 is still "4·count < size": at size 8 it asks at 1, not at 2.
    let mut b = Bench::new(0, 0);
    b.set_code(0);
    b.fill(8);
    b.write(0x00, BINARY | 3 << 8);
    for count in (2..8).rev() {
        b.play_down(count);
        assert!(!b.requested(), "at {count}");
    }
    b.play_down(1);
    assert!(b.requested());
    b.fill(2);
    assert!(!b.requested());
}

// ---- long random sessions --------------------------------------------------

#[test]
fn random_sessions() {
    // D14 is three quarters or more at every moment, and D11 what its changes
    // and the writes make of the request.
    let mut dice = Dice(0x2026_0006_1234_5677);
    let (mut exactly, mut raised, mut fallen) = (0, 0, 0);
    for session in 0..300 {
        let fitted = session % 4;
        let mut code = dice.roll(5);
        let mut b = selected(fitted, code);
        let (mut high, mut requested) = (false, false);
        for _ in 0..400 {
            match dice.roll(32) {
                0..=15 => {
                    b.load(dice.any());
                }
                16..=27 => {
                    b.tick();
                }
                28 | 29 => {
                    code = dice.roll(5);
                    b.set_code(code);
                }
                30 => {
                    b.write(0x00, HIGH);
                    requested = false;
                }
                _ => {
                    b.write(0x00, HIGH | REQUEST);
                }
            }
            let three_quarters = THREE_QUARTERS[code.min(fitted) as usize];
            let now = b.record.count >= three_quarters;
            if now != high {
                requested = now;
            }
            exactly += u32::from(b.record.count == three_quarters);
            raised += u32::from(now && !high);
            fallen += u32::from(!now && high);
            high = now;
            assert_eq!((b.high(), b.requested()), (high, requested));
        }
    }
    assert!(exactly > 1_000 && raised > 1_000 && fallen > 1_000);
}
