//! Request 2026-03, "Lowest, highest and last volts": the numbers, what counts,
//! and the refusals.

mod common {
    pub mod bits;
    pub mod dice;
    pub mod sessions;
}

use common::bits::{BINARY, CALIBRATE, CIRCULAR, EOF, EXTERNAL, INITIALISE, SOFT_CLOCK};
use common::dice::Dice;
use common::sessions::{refused_power_ups, session, too_long, write, DAMAGES};
use common::sessions::{JUNK, OUTSIDE, PASSED, SETTLED, TICK, TRIGGER};
use second::{step, volts, Event, Record, Volts};

// BOR: clocking enabled, size code 15
const ENABLED: u32 = 0x2F;
// BCR
const SIMULTANEOUS: u32 = 1 << 7;

const READ: [u32; 6] = [3, 0x10, 0, 0, 0, 0];

/// Accepted: depth 8, all twenty channels fitted.
fn power_up(range: u32) -> [u32; 6] {
    [1, 0, range, 0, 2, 0]
}

/// Plays these levels on one channel, one after the other.
fn play(channel: u32, levels: &[u32]) -> Vec<[u32; 6]> {
    let mut rows = vec![write(0x04, 1 << channel), write(0x0C, ENABLED)];
    for level in levels {
        rows.extend([write(0x18, *level), TICK]);
    }
    rows
}

/// "times 65,536 each is the level less 32,768, times 5, 10 or 20 for range 0, 1,
/// 2. Zero is positive zero." An f64 holds each f32 times 65,536 exactly.
#[track_caller]
fn exact(volts: f32, level: u32, range: u32) {
    let product = (i64::from(level) - 32_768) * [5, 10, 20][range as usize];
    assert_eq!(f64::from(volts) * 65_536.0, product as f64);
    assert_eq!(volts.is_sign_negative(), product < 0);
}

/// The table has the volts of these levels (lowest, highest, last) on its first
/// channels, and those of 8000h, zero volts, on the others.
#[track_caller]
fn shows(table: &[Volts; 20], range: u32, channels: &[[u32; 3]]) {
    for (channel, volts) in table.iter().enumerate() {
        let levels = channels.get(channel).unwrap_or(&[0x8000; 3]);
        exact(volts.lowest, levels[0], range);
        exact(volts.highest, levels[1], range);
        exact(volts.last, levels[2], range);
    }
}

/// The events, over a memory of 8 entries, are not refused and show that table.
#[track_caller]
fn gives(rows: &[[u32; 6]], range: u32, channels: &[[u32; 3]]) {
    let (refusal, table) = volts(&session(rows), &mut [JUNK; 8]);
    assert_eq!(refusal, 0);
    shows(&table, range, channels);
}

/// The file is refused, with sixty positive zeros, and the memory is afterwards
/// as the run left it.
#[track_caller]
fn refuses(file: &[u8], lent: &[u32], left: &[u32], number: u32) {
    let mut memory = lent.to_vec();
    let (refusal, table) = volts(file, &mut memory);
    assert_eq!((refusal, memory.as_slice()), (number, left));
    for channel in table {
        for volts in [channel.lowest, channel.highest, channel.last] {
            assert_eq!(volts.to_bits(), 0);
        }
    }
}

// ---- the numbers -----------------------------------------------------------

#[test]
fn every_level_in_every_range() {
    // Sixteen levels at a time, played by one tick. 8000h counts as well, right
    // after the power-up.
    for range in 0..3 {
        for start in (0..65_536).step_by(16) {
            let levels = start..start + 16;
            let mut rows = vec![
                [1, 1, range, 0, 2, 0],
                write(0x00, BINARY | SIMULTANEOUS),
                write(0x04, 0xFFFF),
                write(0x0C, ENABLED),
            ];
            rows.extend(levels.clone().map(|level| write(0x18, level)));
            rows.push(TICK);
            let (refusal, table) = volts(&session(&rows), &mut [0; 16]);
            assert_eq!(refusal, 0);
            let channels: Vec<_> = levels
                .map(|level| [level.min(0x8000), level.max(0x8000), level])
                .collect();
            shows(&table, range, &channels);
        }
    }
}

#[test]
fn written_out() {
    // Both ends of the manual's ±2.5 V, ±5 V and ±10 V, and one level beside the
    // middle, as the decimal numbers that they are.
    for (range, level, expected) in [
        (0, 0x0000, -2.5),
        (0, 0x7FFF, -0.000_076_293_945_312_5),
        (0, 0x8001, 0.000_076_293_945_312_5),
        (0, 0xFFFF, 2.499_923_706_054_687_5),
        (1, 0x0000, -5.0),
        (1, 0x7FFF, -0.000_152_587_890_625),
        (1, 0x8001, 0.000_152_587_890_625),
        (1, 0xFFFF, 4.999_847_412_109_375),
        (2, 0x0000, -10.0),
        (2, 0x7FFF, -0.000_305_175_781_25),
        (2, 0x8001, 0.000_305_175_781_25),
        (2, 0xFFFF, 9.999_694_824_218_75),
    ] {
        let rows = [vec![power_up(range)], play(0, &[level])].concat();
        let (refusal, table) = volts(&session(&rows), &mut [0; 8]);
        assert_eq!(refusal, 0);
        let [lowest, highest, last] =
            [table[0].lowest, table[0].highest, table[0].last].map(f64::from);
        assert_eq!(last, expected);
        assert_eq!((lowest, highest), (last.min(0.0), last.max(0.0)));
    }
}

#[test]
fn lowest_highest_and_last() {
    // Each of the three is another level, whichever comes first, in the middle
    // and at the end.
    for (levels, expected) in [
        ([0x7000, 0x9000, 0x8800], [0x7000, 0x9000, 0x8800]),
        ([0x9000, 0x7000, 0x7800], [0x7000, 0x9000, 0x7800]),
        ([0x9000, 0x9800, 0x8800], [0x8000, 0x9800, 0x8800]),
        ([0x7000, 0x6800, 0x7800], [0x6800, 0x8000, 0x7800]),
        ([0x8800, 0x7000, 0x9000], [0x7000, 0x9000, 0x9000]),
        ([0x7800, 0x9000, 0x7000], [0x7000, 0x9000, 0x7000]),
        ([0x0000, 0xFFFF, 0x8000], [0x0000, 0xFFFF, 0x8000]),
    ] {
        for range in 0..3 {
            let rows = [vec![power_up(range)], play(0, &levels)].concat();
            gives(&rows, range, &[expected]);
        }
    }
}

#[test]
fn positive_zero() {
    // Coming back from below and from above, in offset binary and in two's
    // complement (where the data 0000h are the level 8000h).
    for (coding, zero) in [(BINARY, 0x8000), (0, 0x0000)] {
        for level in [0x7FFF, 0x8001, 0x0000, 0xFFFF] {
            let data = if coding == 0 { level ^ 0x8000 } else { level };
            let mut rows = vec![power_up(2), write(0x00, coding)];
            rows.extend(play(0, &[data, zero]));
            gives(&rows, 2, &[[level.min(0x8000), level.max(0x8000), 0x8000]]);
        }
    }
    // Never played: sixty of them.
    let (refusal, table) = volts(&session(&[power_up(1)]), &mut [0; 8]);
    assert_eq!(refusal, 0);
    for channel in table {
        for volts in [channel.lowest, channel.highest, channel.last] {
            assert_eq!(volts.to_bits(), 0);
        }
    }
}

#[test]
fn twenty_channels() {
    // Every channel has its own numbers. One tick per value, ascending.
    let first = |channel: u32| 0x8000 - 0x100 * (channel + 1);
    let second = |channel: u32| 0x8000 + 0x10 * channel;
    for (kit, fitted) in [(0, 6), (1, 12), (2, 20)] {
        let mut rows = vec![
            [1, 3, 1, 0, kit, 0],
            write(0x04, 0xFFFF_FFFF),
            write(0x0C, ENABLED),
        ];
        for level in (0..fitted).map(first).chain((0..fitted).map(second)) {
            rows.extend([write(0x18, level), TICK]);
        }
        let (refusal, table) = volts(&session(&rows), &mut [JUNK; 64]);
        assert_eq!(refusal, 0);
        let channels: Vec<_> = (0..fitted)
            .map(|channel| [first(channel), second(channel), second(channel)])
            .collect();
        // Those that are not fitted hold 8000h.
        shows(&table, 1, &channels);
    }
}

// ---- what counts -----------------------------------------------------------

#[test]
fn every_way_to_move() {
    // Outside and software clocks, and recirculated values.
    let mut rows = vec![
        power_up(0),
        write(0x04, 1),
        write(0x18, 0x1111),
        write(0x18, 0xEEEE),
        write(0x18, 0x9999 | EOF),
        write(0x0C, ENABLED | EXTERNAL | CIRCULAR),
        OUTSIDE,
    ];
    gives(&rows, 0, &[[0x1111, 0x8000, 0x1111]]);
    rows.push(write(0x0C, ENABLED | EXTERNAL | CIRCULAR | SOFT_CLOCK));
    gives(&rows, 0, &[[0x1111, 0xEEEE, 0xEEEE]]);
    rows.push(OUTSIDE);
    gives(&rows, 0, &[[0x1111, 0xEEEE, 0x9999]]);
    // The tick is not accepted; the next value is the first one again.
    rows.extend([TICK, OUTSIDE]);
    gives(&rows, 0, &[[0x1111, 0xEEEE, 0x1111]]);
}

#[test]
fn stored_values_do_not_count() {
    // Only levels do: values that wait, that are lost or that are cleared away
    // were never on an output.
    let mut rows = vec![power_up(0), write(0x04, 1)];
    rows.extend([write(0x18, 0x9000); 8]);
    rows.push(write(0x18, 0xFFFF));
    gives(&rows, 0, &[]);
    // "goes on past refused events and lost values"
    rows.extend([write(0x0C, ENABLED), TICK]);
    gives(&rows, 0, &[[0x8000, 0x9000, 0x9000]]);
    rows.extend([write(0x18, 0x0000), write(0x0C, ENABLED | 1 << 11), TICK]);
    gives(&rows, 0, &[[0x8000, 0x9000, 0x9000]]);
}

#[test]
fn events_before_power_up() {
    // All levels of the unpowered record are 0000h. They do not count.
    let mut rows = vec![TICK, READ, write(0x18, 0x9000), [1, 16, 2, 0, 0, 0]];
    rows.push(power_up(1));
    gives(&rows, 1, &[]);
    rows.extend(play(0, &[0xC000]));
    gives(&rows, 1, &[[0x8000, 0xC000, 0xC000]]);
}

#[test]
fn another_power_up() {
    // Nothing of the first is left, in each range after each.
    for before in 0..3 {
        for after in 0..3 {
            let mut rows = [vec![power_up(before)], play(0, &[0x0000, 0xFFFF])].concat();
            rows.extend(play(1, &[0xFFFF, 0x0000, 0x4000]));
            let all = [[0x0000, 0xFFFF, 0xFFFF], [0x0000, 0xFFFF, 0x4000]];
            gives(&rows, before, &all);
            // As the last event,
            rows.push(power_up(after));
            gives(&rows, after, &[]);
            // and with levels of its own.
            rows.extend(play(0, &[0x9000, 0x7000, 0x8800]));
            gives(&rows, after, &[[0x7000, 0x9000, 0x8800]]);
        }
    }
}

#[test]
fn refused_power_up() {
    // It starts nothing afresh, and its range means nothing.
    let mut rows = [vec![power_up(1)], play(0, &[0x0000, 0xFFFF, 0x9000])].concat();
    for refused in [
        [1, 16, 2, 0, 2, 0],
        [1, 0, 3, 0, 2, 0],
        [1, 0, 2, 3, 2, 0],
        [1, 0, 2, 0, 3, 0],
        [1, 0, 2, 0, 2, 4096],
        // d = 1 needs 16 entries
        [1, 1, 2, 0, 2, 0],
    ] {
        rows.push(refused);
        gives(&rows, 1, &[[0x0000, 0xFFFF, 0x9000]]);
    }
    rows.extend(play(0, &[0x7000]));
    gives(&rows, 1, &[[0x0000, 0xFFFF, 0x7000]]);
    // Before an accepted one it means nothing either.
    gives(&[[1, 1, 2, 0, 2, 0], power_up(0)], 0, &[]);
}

#[test]
fn initialise() {
    // It is an event like others: its levels count, and nothing starts afresh.
    let mut rows = [vec![power_up(2)], play(0, &[0x0000, 0xFFFF])].concat();
    rows.push(write(0x00, INITIALISE));
    gives(&rows, 2, &[[0x0000, 0xFFFF, 0x8000]]);
    rows.extend(play(0, &[0x9000]));
    gives(&rows, 2, &[[0x0000, 0xFFFF, 0x9000]]);
    // Refused (6) while calibrating: then not even the last level changes.
    rows.extend([
        write(0x00, BINARY | CALIBRATE),
        write(0x00, INITIALISE),
        PASSED,
    ]);
    gives(&rows, 2, &[[0x0000, 0xFFFF, 0x9000]]);
}

#[test]
fn other_events() {
    // Refused or not, an event that moves nothing shows nothing new.
    let mut rows = [vec![power_up(0)], play(0, &[0x7000, 0x9000])].concat();
    for event in [
        READ,
        [3, 0x02, 0, 0, 0, 0],
        write(0x02, 0xFFFF),
        write(0x10, 0xFFFF),
        PASSED,
        SETTLED,
        TRIGGER,
        OUTSIDE,
        // nothing stored
        TICK,
        // mask 0
        write(0x04, 0),
        write(0x18, 0xFFFF),
        TICK,
        // Calibrating: the manual's outputs "fluctuate", 01's levels do not.
        write(0x00, BINARY | CALIBRATE),
        write(0x04, 1),
        TICK,
        PASSED,
    ] {
        rows.push(event);
        gives(&rows, 0, &[[0x7000, 0x9000, 0x9000]]);
    }
}

// ---- the memory ------------------------------------------------------------

#[test]
fn memory_lent() {
    // As the run left it: "Entries from depth upward are never touched".
    let rows = [vec![power_up(0)], play(0, &[0x9000, 0x7000 | EOF])].concat();
    let mut memory = [JUNK; 11];
    let (refusal, table) = volts(&session(&rows), &mut memory);
    assert_eq!(refusal, 0);
    shows(&table, 0, &[[0x7000, 0x9000, 0x7000]]);
    assert_eq!(memory[..3], [0x9000, 0x7000 | EOF, JUNK]);
    assert_eq!(memory[2..], [JUNK; 9]);
}

#[test]
fn length_of_the_memory() {
    // The lent memory decides which power-ups are accepted, not the 16,384
    // values of `rehearse`.
    let file = session(&[[1, 15, 0, 0, 0, 0]]);
    let enough = vec![JUNK; 262_144];
    let mut memory = enough.clone();
    let (refusal, table) = volts(&file, &mut memory);
    assert_eq!(refusal, 0);
    shows(&table, 0, &[]);
    assert!(memory == enough);
    refuses(&file, &enough[1..], &enough[1..], 18);
    refuses(&session(&[power_up(0)]), &[JUNK; 7], &[JUNK; 7], 18);
    refuses(&session(&[power_up(0)]), &[], &[], 18);
}

// ---- the refusals ----------------------------------------------------------

#[test]
fn no_accepted_power_up() {
    let lent = [JUNK; 9];
    // no event at all
    refuses(&[0x01], &lent, &lent, 18);
    refuses(&[0x01], &[], &[], 18);
    // other events only
    let others = [TICK, OUTSIDE, TRIGGER, PASSED, SETTLED, READ];
    refuses(&session(&others), &lent, &lent, 18);
    let loads = play(0, &[0x9000, 0x7000]);
    refuses(&session(&loads), &lent, &lent, 18);
    // refused power-ups only: 1, 14 to 17 and 2
    let refused = refused_power_ups(1);
    for power_up in refused {
        refuses(&session(&[power_up]), &lent, &lent, 18);
    }
    let all = [refused.to_vec(), loads].concat();
    refuses(&session(&all), &lent, &lent, 18);
    // One that is accepted, even as the last event, and it is not 18.
    gives(&[all, vec![power_up(2)]].concat(), 2, &[]);
}

#[test]
fn no_session() {
    // 10: nothing runs, whatever stands behind the first byte.
    let lent = [JUNK; 9];
    let mut file = session(&[vec![power_up(0)], play(0, &[0x9000])].concat());
    file[0] = 0x02;
    refuses(&file, &lent, &lent, 10);
    refuses(&[], &lent, &lent, 10);
    refuses(&[0x00], &lent, &lent, 10);
}

#[test]
fn file_refusals_come_first() {
    // 11, 12 and 13, at the end of sessions that are refused 18 without them,
    // and of sessions with an accepted power-up and numbers to show.
    let lent = [JUNK; 9];
    let none = session(&play(0, &[0x9000]));
    let refused = session(&[[1, 16, 0, 0, 0, 0], TICK]);
    let accepted = session(&[power_up(0)]);
    let played = session(&[vec![power_up(0)], play(0, &[0x9000, 0x7000])].concat());
    let mut left = lent;
    left[..2].copy_from_slice(&[0x9000, 0x7000]);
    for (damage, number) in DAMAGES {
        let damaged = |file: &[u8]| [file, damage].concat();
        refuses(&damaged(&[0x01]), &lent, &lent, number);
        refuses(&damaged(&none), &lent, &lent, number);
        refuses(&damaged(&refused), &lent, &lent, number);
        refuses(&damaged(&accepted), &lent, &lent, number);
        refuses(&damaged(&played), &lent, &left, number);
    }
    // 12 and 13 stop the run: the power-up and the loads behind do not happen.
    for (damage, number) in &DAMAGES[5..] {
        let file = [&[0x01], *damage, &played[1..]].concat();
        refuses(&file, &lent, &lent, *number);
        let file = [&played, *damage, &played[1..]].concat();
        refuses(&file, &lent, &left, *number);
    }
}

// ---- long sessions ---------------------------------------------------------

#[test]
fn longer_than_rehearse_reads() {
    let mut rows = [vec![power_up(1)], play(0, &[0x0000])].concat();
    rows.extend(vec![READ; 30_000]);
    rows.extend(play(0, &[0xFFFF, 0x9000]));
    let mut file = session(&rows);
    too_long(&file, &mut [0; 8]);

    gives(&rows, 1, &[[0x0000, 0xFFFF, 0x9000]]);
    // Damaged at its far end: the last tick is cut off.
    file.pop();
    let left = [0x0000, 0xFFFF, 0x9000, JUNK, JUNK, JUNK, JUNK, JUNK];
    refuses(&file, &[JUNK; 8], &left, 11);
    // Without a power-up.
    refuses(&session(&rows[1..]), &[JUNK; 8], &[JUNK; 8], 18);
}

// ---- random sessions -------------------------------------------------------

impl Dice {
    fn row(&mut self) -> [u32; 6] {
        match self.roll(40) {
            0..=13 => TICK,
            14..=25 => write(0x18, self.any()),
            26..=28 => OUTSIDE,
            29 | 30 => [6 + self.roll(4), 0, 0, 0, 0, 0],
            31 => [3, self.roll(9) * 4, 0, 0, 0, 0],
            32 | 33 => write(0x0C, self.any() & 0x3_07FF | 0x20),
            34 | 35 => write(0x00, self.any() & 0x0FFC),
            36 => write(0x04, self.any() & self.any()),
            37 => write(0x00, self.any()),
            38 => write(self.roll(9) * 4, self.any()),
            _ => [
                1,
                self.roll(4),
                self.roll(4),
                self.roll(3),
                self.roll(3),
                self.roll(4096),
            ],
        }
    }
}

fn event([kind, a, b, c, d, e]: [u32; 6]) -> Event {
    match kind {
        1 => Event::PowerUp {
            fitted: a,
            range: b,
            filter: c,
            kit: d,
            firmware: e,
        },
        2 => Event::Write {
            offset: a,
            value: b,
        },
        3 => Event::Read { offset: a },
        4 => Event::Tick,
        5 => Event::Outside,
        6 => Event::Trigger,
        7 => Event::Passed,
        8 => Event::Failed,
        _ => Event::Settled,
    }
}

#[test]
fn random_sessions() {
    // The whole history is kept and looked through afterwards.
    let mut dice = Dice(0x0020_2603);
    let mut met = [0; 4];
    for _ in 0..2_000 {
        let rows: Vec<_> = (0..dice.roll(400)).map(|_| dice.row()).collect();
        let lent: Vec<u32> = (0..40).map(|_| dice.any()).collect();

        let mut record = Record::unpowered();
        let mut left = lent.clone();
        let mut history = Vec::new();
        let mut power_ups = Vec::new();
        for (at, row) in rows.iter().enumerate() {
            let answer = step(&mut record, &mut left, &event(*row));
            history.push(record.levels);
            if row[0] == 1 && answer.refusal == 0 {
                power_ups.push(at);
            }
        }

        let mut file = session(&rows);
        match power_ups.last() {
            None => {
                refuses(&file, &lent, &left, 18);
                met[0] += 1;
            }
            Some(last) => {
                let range = rows[*last][2];
                let channels: Vec<_> = (0..20)
                    .map(|channel| {
                        let counting = history[*last..].iter().map(|levels| levels[channel]);
                        let lowest = counting.clone().min().unwrap();
                        let highest = counting.max().unwrap();
                        [lowest, highest, record.levels[channel]].map(u32::from)
                    })
                    .collect();
                let mut memory = lent.clone();
                let (refusal, table) = volts(&file, &mut memory);
                assert_eq!((refusal, &memory), (0, &left));
                shows(&table, range, &channels);
                met[if power_ups.len() == 1 { 1 } else { 2 }] += 1;
                met[3] += channels.iter().filter(|[low, high, _]| low < high).count();
            }
        }
        // The same with damage behind it.
        file.extend([0x00, 0x01, 0x0A]);
        refuses(&file, &lent, &left, 13);
    }
    assert!(met.iter().all(|times| *times > 300), "{met:?}");
}
