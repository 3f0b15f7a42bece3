//! Request 2026-05, "The smallest size that plays": the code named, what counts
//! as a loss, the memory, and the refusals.

mod common {
    pub mod bits;
    pub mod dice;
    pub mod more_bits;
    pub mod sessions;
}

use common::bits::{BINARY, CALIBRATE, CIRCULAR, EOF, EXTERNAL, INITIALISE, SOFT_CLOCK};
use common::dice::Dice;
use common::more_bits::{BURSTS, CLEAR, ENABLED, LOAD_REQUEST};
use common::sessions::{refused_power_ups, session, too_long, write, DAMAGES};
use common::sessions::{JUNK, OUTSIDE, PASSED, SETTLED, TICK, TRIGGER};
use second::{list, smallest_size};

const READ: [u32; 6] = [3, 0x0C, 0, 0, 0, 0];
const LOAD: [u32; 6] = write(0x18, 0x9000);

/// Depth 8·2^d, all twenty channels fitted.
const fn power_up(fitted: u32) -> [u32; 6] {
    [1, fitted, 0, 0, 2, 0]
}

/// A buffer operations write.
const fn operate(value: u32) -> [u32; 6] {
    write(0x0C, value)
}

/// So many loads.
fn loads(number: usize) -> Vec<[u32; 6]> {
    vec![LOAD; number]
}

/// One replay, as the listing of a session that has this code in its buffer
/// operations writes: whether there is a line with fate 2.
fn loses(rows: &[[u32; 6]], code: u32, memory: &mut [u32]) -> bool {
    let mut rows = rows.to_vec();
    for row in &mut rows {
        if row[0] == 2 && row[1] == 0x0C {
            row[2] = row[2] / 16 * 16 + code;
        }
    }
    let mut out = Vec::new();
    list(&session(&rows), memory, &mut out);
    let listing = String::from_utf8(out).unwrap();
    let lines: Vec<_> = listing.lines().collect();
    // the head, a line for each event, the levels
    assert_eq!(lines.len(), rows.len() + 2);
    let mut events = lines[1..=rows.len()].iter();
    events.any(|line| line.split(' ').nth(4) == Some("2"))
}

/// The code is named over this memory, no lower code plays, all higher ones do,
/// and the memory is left as by replaying all codes up to it.
#[track_caller]
fn names_over(rows: &[[u32; 6]], lent: &[u32], code: u32) {
    let mut memory = lent.to_vec();
    let mut left = lent.to_vec();
    assert_eq!(smallest_size(&session(rows), &mut memory), (0, code));
    for lower in 0..code {
        assert!(loses(rows, lower, &mut left), "{lower} plays");
    }
    assert!(!loses(rows, code, &mut left));
    assert_eq!(memory, left);
    for higher in code + 1..16 {
        assert!(!loses(rows, higher, &mut left), "{higher} does not play");
    }
}

/// No code plays over this memory, and it is left as by replaying all sixteen.
#[track_caller]
fn none_over(rows: &[[u32; 6]], lent: &[u32]) {
    let mut memory = lent.to_vec();
    let mut left = lent.to_vec();
    assert_eq!(smallest_size(&session(rows), &mut memory), (19, 0));
    for code in 0..16 {
        assert!(loses(rows, code, &mut left), "{code} plays");
    }
    assert_eq!(memory, left);
}

/// The code is named, over a memory of 128 entries.
#[track_caller]
fn names(rows: &[[u32; 6]], code: u32) {
    names_over(rows, &[JUNK; 128], code);
    names_over(rows, &[0; 128], code);
}

/// No code plays, over a memory of 128 entries.
#[track_caller]
fn none(rows: &[[u32; 6]]) {
    none_over(rows, &[JUNK; 128]);
    none_over(rows, &[0; 128]);
}

/// "10 to 13 first, with the memory untouched"; "each names code 0".
#[track_caller]
fn refuses(file: &[u8], number: u32) {
    for lent in [0, JUNK] {
        let mut memory = [lent; 128];
        assert_eq!(smallest_size(file, &mut memory), (number, 0));
        assert_eq!(memory, [lent; 128]);
    }
    assert_eq!(smallest_size(file, &mut []), (number, 0));
}

// ---- the code named --------------------------------------------------------

#[test]
fn just_large_enough() {
    // One value more than a size holds takes the next code.
    for code in 0..4 {
        let mut rows = vec![power_up(4), operate(0)];
        rows.extend(loads(8 << code));
        names(&rows, code);
        rows.push(LOAD);
        names(&rows, code + 1);
    }
}

#[test]
fn up_to_fifteen() {
    // 8·2^14 and one more, in a memory of 8·2^15.
    let mut rows = vec![power_up(15), operate(0)];
    rows.extend(loads(131_072));
    let mut memory = vec![JUNK; 262_144];
    assert_eq!(smallest_size(&session(&rows), &mut memory), (0, 14));
    assert!(memory[..131_072].iter().all(|entry| *entry == 0x9000));
    assert!(memory[131_072..].iter().all(|entry| *entry == JUNK));
    rows.push(LOAD);
    assert_eq!(smallest_size(&session(&rows), &mut memory), (0, 15));
    assert_eq!(memory[131_071..131_074], [0x9000, 0x9000, JUNK]);
}

#[test]
fn three() {
    // 40 loads with some ticks in between: up to 36 values wait, or 33, which are
    // more than 8·2^2, or 32.
    for (ticks, code) in [(4, 3), (7, 3), (8, 2)] {
        let mut rows = vec![power_up(4), operate(ENABLED)];
        rows.extend(loads(30));
        rows.extend(vec![TICK; ticks]);
        rows.extend(loads(10));
        names(&rows, code);
    }
}

#[test]
fn none_of_the_sixteen() {
    for fitted in 0..4 {
        let mut rows = vec![power_up(fitted), operate(0)];
        rows.extend(loads(8 << fitted));
        names(&rows, fitted);
        rows.push(LOAD);
        none(&rows);
    }
}

#[test]
fn own_codes() {
    // Those of the session mean nothing.
    for own in 0..16 {
        let mut rows = vec![power_up(3), operate(ENABLED + own)];
        rows.extend(loads(9));
        rows.extend([TICK, operate(15 - own)]);
        rows.extend(loads(24));
        names(&rows, 2);
    }
}

#[test]
fn values_kept_over_a_smaller_size() {
    // "A smaller size drops nothing.": the write comes when values are there.
    for (waiting, code) in [(6, 0), (7, 0), (8, 1), (15, 1), (16, 2), (31, 2), (32, 3)] {
        let mut rows = vec![power_up(3)];
        rows.extend(loads(waiting));
        rows.push(operate(0));
        // no value lost yet
        names(&rows, 0);
        rows.push(LOAD);
        names(&rows, code);
    }
}

#[test]
fn fitted_codes_kept() {
    // Each power-up has its own depth.
    let mut rows = vec![power_up(0), operate(0)];
    rows.extend(loads(8));
    rows.extend([power_up(3), operate(0)]);
    rows.extend(loads(17));
    rows.extend([power_up(1), operate(0)]);
    rows.extend(loads(16));
    names(&rows, 2);
    rows.push(LOAD);
    none(&rows);
}

// ---- the size code that no write sets --------------------------------------

#[test]
fn fifteen_of_power_up() {
    // It stays until the first write at 0Ch: 64 loads fit, whichever code is
    // tried, and the 65th never does.
    let mut rows = vec![power_up(3)];
    rows.extend(loads(64));
    names(&rows, 0);
    rows.push(LOAD);
    none(&rows);
    // A write after them.
    rows.pop();
    rows.push(operate(0));
    names(&rows, 0);
    // Another power-up has it again.
    rows.push(power_up(3));
    rows.extend(loads(64));
    names(&rows, 0);
    // Before the last load.
    rows.insert(rows.len() - 1, operate(0));
    names(&rows, 3);
}

#[test]
fn fifteen_of_initialise() {
    let initialise = write(0x00, INITIALISE);
    let mut rows = vec![power_up(3), operate(0), initialise];
    rows.extend(loads(64));
    names(&rows, 0);
    // Until the next write,
    rows.insert(66, operate(0));
    names(&rows, 3);
    // and initialise ends it: the buffer is empty and the size 64 again.
    rows.push(initialise);
    rows.extend(loads(64));
    names(&rows, 3);
    rows.remove(66);
    names(&rows, 0);
    // Refused (6) while calibrating: then the written code stays.
    let mut rows = vec![power_up(3), operate(0), write(0x00, BINARY | CALIBRATE)];
    rows.extend([initialise, PASSED]);
    rows.extend(loads(64));
    names(&rows, 3);
}

#[test]
fn refused_operations_write() {
    // Whatever code it has, the 15 stays. Before the power-up it is refused 3,
    let mut rows = vec![operate(3), power_up(3)];
    rows.extend(loads(64));
    names(&rows, 0);
    // and while calibrating 6.
    let mut rows = vec![power_up(3), write(0x00, BINARY | CALIBRATE)];
    rows.extend([operate(3), operate(ENABLED), PASSED]);
    rows.extend(loads(64));
    names(&rows, 0);
    // The write before it decides.
    rows.insert(1, operate(0));
    names(&rows, 3);
    // At another offset, refused or not, it is no such write.
    for offset in [0x08, 0x0B, 0x0D, 0x0E, 0x0F, 0x10, 0x4C, 0x8C] {
        let mut rows = vec![power_up(3), write(offset, 0)];
        rows.extend(loads(64));
        names(&rows, 0);
    }
}

// ---- the other bits --------------------------------------------------------

/// A hundred times a load and then this event, on one channel of a buffer of 64.
fn hundred(operations: u32, event: [u32; 6]) -> Vec<[u32; 6]> {
    let mut rows = vec![power_up(3), write(0x04, 1), operate(operations)];
    rows.extend([LOAD, event].repeat(100));
    rows
}

#[test]
fn clock_bits() {
    // D5, and D4, the bit next to the size code: each clock plays with its own
    // setting and with no other, so that 64 of the hundred values fill it.
    names(&hundred(ENABLED, TICK), 0);
    names(&hundred(ENABLED | EXTERNAL, OUTSIDE), 0);
    none(&hundred(ENABLED | EXTERNAL, TICK));
    none(&hundred(ENABLED, OUTSIDE));
    for clock in [TICK, OUTSIDE] {
        none(&hundred(0, clock));
        none(&hundred(EXTERNAL, clock));
    }
    // D7 needs both.
    let all = ENABLED | EXTERNAL | SOFT_CLOCK;
    names(&hundred(0, operate(all)), 0);
    for missing in [ENABLED, EXTERNAL, SOFT_CLOCK] {
        none(&hundred(0, operate(all - missing)));
    }
    // The reserved and the read-only bits change nothing, nor do the two flags.
    names(&hundred(0, operate(0xFFFF_F0FF)), 0);
}

#[test]
fn clear_bit() {
    // D11, after each eight loads or after each nine.
    for (number, code) in [(8, 0), (9, 1), (16, 1), (17, 2)] {
        let mut part = loads(number);
        part.push(operate(CLEAR));
        let mut rows = vec![power_up(3), operate(0)];
        rows.extend(part.repeat(10));
        names(&rows, code);
        for row in &mut rows[2..] {
            if row[1] == 0x0C {
                row[2] = 0;
            }
        }
        none(&rows);
    }
}

#[test]
fn circular_bits() {
    // D8 closes. With D9 the end of the frame opens it again, three values in.
    let mut closed = vec![power_up(3), write(0x04, 1)];
    closed.extend([1, 2, 3 | EOF].map(|value| write(0x18, value)));
    closed.push(operate(ENABLED | CIRCULAR));
    closed.extend([TICK; 3]);
    let mut opened = closed.clone();
    opened[5] = operate(ENABLED | CIRCULAR | LOAD_REQUEST);
    for (number, code) in [(5, 0), (6, 1), (13, 1), (14, 2), (61, 3)] {
        names(&[closed.clone(), loads(number)].concat(), 0);
        names(&[opened.clone(), loads(number)].concat(), code);
    }
    names(&[closed, loads(62)].concat(), 0);
    none(&[opened, loads(62)].concat());
}

// ---- what counts as a loss -------------------------------------------------

#[test]
fn lost_to_closed() {
    // Fate 3 does not count: empty,
    let mut rows = vec![power_up(0), operate(CIRCULAR)];
    rows.extend(loads(100));
    names(&rows, 0);
    // and full as well ("a load gives fate 3 only").
    let mut rows = [vec![power_up(0)], loads(8)].concat();
    rows.push(operate(CIRCULAR));
    rows.extend(loads(100));
    names(&rows, 0);
    // Open again.
    rows.push(operate(0));
    names(&rows, 0);
    rows.push(LOAD);
    none(&rows);
}

#[test]
fn overflow_flag() {
    // A loss counts also when its flag, D16, is cleared by the next write or by
    // initialise.
    for clears in [operate(0), operate(CLEAR), write(0x00, INITIALISE)] {
        let mut rows = vec![power_up(3), operate(0)];
        rows.extend(loads(9));
        rows.extend([clears, READ]);
        names(&rows, 1);
    }
}

#[test]
fn loss_before_another_power_up() {
    let mut rows = vec![power_up(2), operate(0)];
    rows.extend(loads(17));
    rows.extend([power_up(0), operate(0), LOAD]);
    names(&rows, 2);
    let mut rows = [vec![power_up(0)], loads(9)].concat();
    rows.extend([power_up(3), operate(0), LOAD]);
    none(&rows);
}

#[test]
fn no_accepted_power_up() {
    // Nothing is lost. No event at all,
    names(&[], 0);
    // other events only,
    let others = [TICK, OUTSIDE, TRIGGER, PASSED, SETTLED, READ, operate(3)];
    names(&others, 0);
    names(&loads(100), 0);
    // refused power-ups only: 1, 14 to 17 and 2.
    let refused = refused_power_ups(5);
    for power_up in refused {
        names(&[vec![power_up, operate(0)], loads(300)].concat(), 0);
    }
    names(&[refused.to_vec(), loads(300)].concat(), 0);
}

#[test]
fn refused_power_up() {
    // The values and the size code of the record before it stay.
    for refused in refused_power_ups(5) {
        let mut rows = vec![power_up(3), operate(0)];
        rows.extend(loads(9));
        rows.push(refused);
        names(&rows, 1);
        rows.extend(loads(9));
        names(&rows, 2);
        rows.extend(loads(46));
        names(&rows, 3);
        rows.push(LOAD);
        none(&rows);
    }
}

#[test]
fn length_of_the_memory() {
    // The lent memory decides which power-ups are accepted, not the 16,384
    // values of `rehearse`.
    let mut rows = vec![power_up(0), operate(0)];
    rows.extend([power_up(1), operate(0)]);
    rows.extend(loads(9));
    names_over(&rows, &[JUNK; 16], 1);
    none_over(&rows, &[JUNK; 15]);
    none_over(&rows, &[JUNK; 8]);
    names_over(&rows, &[JUNK; 7], 0);
    names_over(&rows, &[], 0);
    // 8·2^12 are 32,768.
    let mut rows = vec![power_up(12), operate(0)];
    rows.extend(loads(9));
    names_over(&rows, &[JUNK; 32_768], 1);
    names_over(&rows, &[JUNK; 32_767], 0);
}

// ---- the memory ------------------------------------------------------------

#[test]
fn memory_of_each_replay() {
    // 33 values in a closed buffer, the first mark on the 9th, 17th or 33rd, and
    // a burst of sixty ticks, which ends at that mark. It is lost up to code 0, 1
    // or 2: there all sixty ticks move a value behind the others, past the
    // places that the higher codes come to.
    for (longest, mark) in [(0, 9), (1, 17), (2, 33)] {
        let value = |i: usize| i as u32 + 1 + if i + 1 == mark { EOF } else { 0 };
        let mut rows = vec![power_up(4), write(0x04, 1), operate(0)];
        rows.extend((0..33).map(|i| write(0x18, value(i))));
        rows.push(write(0x00, BINARY | BURSTS));
        rows.extend([operate(ENABLED | CIRCULAR), TRIGGER]);
        rows.extend([TICK; 60]);

        let held = 8 << longest;
        for lent in [0, JUNK] {
            let mut memory = [lent; 131];
            assert_eq!(smallest_size(&session(&rows), &mut memory), (0, 3));
            for (place, entry) in memory.into_iter().enumerate() {
                let expected = if place < 33 + mark {
                    // code 3
                    value(place % 33)
                } else if place < held + 60 {
                    // the highest code that lost the mark
                    value(place % held)
                } else {
                    // "Entries from depth upward are never touched", nor are
                    // those below that no replay comes to.
                    lent
                };
                assert_eq!(entry, expected, "{longest} {place}");
            }
        }
        names(&rows, 3);

        // The same when all sixteen have been replayed, but for the last eight
        // loads that fit.
        let mut memory = [JUNK; 131];
        let mut over = memory;
        assert_eq!(smallest_size(&session(&rows), &mut memory), (0, 3));
        rows.push(power_up(0));
        rows.extend(loads(9));
        assert_eq!(smallest_size(&session(&rows), &mut over), (19, 0));
        assert_eq!(over[..8], [0x9000; 8]);
        assert_eq!(over[8..], memory[8..]);
        none(&rows);
    }
}

#[test]
fn memory_when_none_plays() {
    // Two values too many, then nine ticks with a load after each: with code 0
    // the first of these goes to place 8, with all others to place 0.
    let mut rows = vec![power_up(1), write(0x04, 1), operate(ENABLED)];
    rows.extend((1..=18).map(|value| write(0x18, value)));
    rows.extend((19..28).flat_map(|value| [TICK, write(0x18, value)]));
    let mut memory = [JUNK; 18];
    assert_eq!(smallest_size(&session(&rows), &mut memory), (19, 0));
    let whole = [
        19, 20, 21, 22, 23, 24, 25, 26, 27, 10, 11, 12, 13, 14, 15, 16, JUNK, JUNK,
    ];
    assert_eq!(memory, whole);
    none(&rows);
}

#[test]
fn bits_above_the_mark() {
    // "the rest of a written entry is 0", over junk too.
    let mut rows = vec![power_up(0), operate(0)];
    rows.extend([0xFFFF_FFFF, 0xABCC_5678].map(|value| write(0x18, value)));
    let mut memory = [JUNK; 9];
    assert_eq!(smallest_size(&session(&rows), &mut memory), (0, 0));
    assert_eq!(memory[..3], [0x1_FFFF, 0x5678, JUNK]);
    assert_eq!(memory[2..], [JUNK; 7]);
}

// ---- the refusals ----------------------------------------------------------

#[test]
fn no_session() {
    // 10: whatever stands behind the first byte.
    let mut file = session(&[vec![power_up(0), operate(0)], loads(9)].concat());
    file[0] = 0x02;
    refuses(&file, 10);
    refuses(&[], 10);
    refuses(&[0x00], 10);
}

#[test]
fn file_refusals_come_first() {
    // 11, 12 and 13, behind sessions that name 0 or 3 without them, and behind
    // one that is refused 19.
    let sessions = [
        vec![],
        vec![TICK, LOAD],
        vec![power_up(0), operate(0), LOAD],
        [vec![power_up(3), operate(0)], loads(33)].concat(),
        [vec![power_up(0), operate(0)], loads(9)].concat(),
    ];
    for rows in &sessions {
        let file = session(rows);
        for (damage, number) in DAMAGES {
            refuses(&[&file, damage].concat(), number);
        }
        // In the middle, also with damage of another number behind it: the
        // first one decides.
        for (damage, number) in &DAMAGES[3..] {
            for (behind, _) in DAMAGES {
                let file = [&file, *damage, &file[1..], behind].concat();
                refuses(&file, *number);
            }
        }
    }
}

// ---- long sessions ---------------------------------------------------------

#[test]
fn longer_than_rehearse_reads() {
    let mut rows = vec![power_up(3), operate(0)];
    rows.extend(loads(16));
    rows.extend(vec![READ; 30_000]);
    let mut file = session(&rows);
    too_long(&file, &mut [0; 64]);
    let answer = |file: &[u8]| smallest_size(file, &mut [JUNK; 64]);
    assert_eq!(answer(&file), (0, 1));

    // What is lost at its far end counts, and so does damage there.
    rows.extend(loads(17));
    file = session(&rows);
    assert_eq!(answer(&file), (0, 3));
    rows.extend(loads(32));
    assert_eq!(answer(&session(&rows)), (19, 0));
    file.pop();
    refuses(&file, 11);
}

// ---- random sessions -------------------------------------------------------

impl Dice {
    fn row(&mut self) -> [u32; 6] {
        match self.roll(160) {
            0..=44 => TICK,
            45..=124 => write(0x18, self.any()),
            125..=134 => OUTSIDE,
            135..=137 => [6 + self.roll(4), 0, 0, 0, 0, 0],
            138 => [3, self.roll(9) * 4, 0, 0, 0, 0],
            // clocking enabled, neither circular nor cleared
            139..=150 => operate(self.any() & 0x3_068F | ENABLED),
            151..=153 => operate(self.any() & 0x3_0FFF | ENABLED),
            154 | 155 => write(0x00, self.any() & 0x0FFC),
            156 => write(0x04, self.any()),
            157 => write(0x00, self.any()),
            158 => write(self.roll(9) * 4, self.any()),
            _ => [
                1,
                self.roll(5),
                self.roll(4),
                self.roll(3),
                self.roll(3),
                self.roll(4096),
            ],
        }
    }
}

#[test]
fn random_sessions() {
    // Most begin with a large buffer. Fitted code 4 takes more than is lent.
    let mut dice = Dice(0x0020_2605);
    let mut met = [0; 5];
    for _ in 0..500 {
        let mut rows = Vec::new();
        if dice.roll(8) != 0 {
            rows.extend([power_up(3), operate(ENABLED)]);
        }
        rows.extend((0..dice.roll(300)).map(|_| dice.row()));
        let lent: Vec<u32> = (0..70).map(|_| dice.any()).collect();

        let mut file = session(&rows);
        match smallest_size(&file, &mut lent.clone()) {
            (0, code) => {
                names_over(&rows, &lent, code);
                met[code as usize] += 1;
            }
            _ => {
                none_over(&rows, &lent);
                met[4] += 1;
            }
        }

        // The same with damage behind it.
        file.extend([0x00, 0x01, 0x0A]);
        let mut memory = lent.clone();
        assert_eq!(smallest_size(&file, &mut memory), (13, 0));
        assert_eq!(memory, lent);
    }
    assert!(met.iter().all(|times| *times > 30), "{met:?}");
}
