//! Lowest, highest and last volts, request 2026-03: "Give, for a whole session,
//! one record per channel holding three f32 numbers in volts: lowest, highest,
//! last." While the session runs there are only levels, whole numbers.

use crate::event::Event;
use crate::record::Record;
use crate::refuse;
use crate::run::run;

/// The three numbers of a channel.
#[derive(Clone, Copy, Debug, PartialEq)]
pub struct Volts {
    pub lowest: f32,
    pub highest: f32,
    pub last: f32,
}

/// The refusal number, 0 when there is none, and the volts of the twenty
/// channels. "The sample memory is as the run left it."
pub fn volts(file: &[u8], memory: &mut [u32]) -> (u32, [Volts; 20]) {
    match table(file, memory) {
        Ok(table) => (refuse::DONE, table),
        // "all of them return all zeros"
        Err(refusal) => {
            let zeros = Volts {
                lowest: 0.0,
                highest: 0.0,
                last: 0.0,
            };
            (refusal, [zeros; 20])
        }
    }
}

/// The volts of the twenty channels, or the refusal.
fn table(file: &[u8], memory: &mut [u32]) -> Result<[Volts; 20], u32> {
    let mut extremes: Option<Extremes> = None;
    let mut record = Record::unpowered();
    let end = run(file, memory, &mut record, |event, answer, record| {
        let accepted = answer.refusal == refuse::DONE;
        if accepted && matches!(event, Event::PowerUp { .. }) {
            // "Levels right after an accepted power-up"; "another accepted
            // power-up starts afresh"
            extremes = Some(Extremes::afresh(&record.levels));
        } else if let Some(extremes) = &mut extremes {
            // "and after each later event count"
            extremes.count(&record.levels);
        }
    });
    // "file refusals 10 to 13 come first"
    end.map_err(|(refusal, _)| refusal)?;
    // "18 when the session has no accepted power-up"
    let extremes = extremes.ok_or(refuse::NO_POWER_UP)?;

    // The range is the last accepted power-up's: nothing else changes it.
    let in_volts = |level| exact_volts(level, record.range);
    Ok(std::array::from_fn(|channel| Volts {
        lowest: in_volts(extremes.lowest[channel]),
        highest: in_volts(extremes.highest[channel]),
        last: in_volts(record.levels[channel]),
    }))
}

/// The lowest and the highest of the levels that count, channel by channel.
struct Extremes {
    lowest: [u16; 20],
    highest: [u16; 20],
}

impl Extremes {
    /// Only these levels count so far.
    fn afresh(levels: &[u16; 20]) -> Extremes {
        Extremes {
            lowest: *levels,
            highest: *levels,
        }
    }

    /// These levels count too.
    #[inline]
    fn count(&mut self, levels: &[u16; 20]) {
        for (lowest, level) in self.lowest.iter_mut().zip(levels) {
            *lowest = (*lowest).min(*level);
        }
        for (highest, level) in self.highest.iter_mut().zip(levels) {
            *highest = (*highest).max(*level);
        }
    }
}

/// "The volts are exact: times 65,536 each is the level less 32,768, times 5, 10
/// or 20 for range 0, 1, 2." The product is at most 655,360, so an f32 (24 bits)
/// holds it, and 65,536 is a power of two: neither step rounds. "Zero is
/// positive zero.": the whole number 0 has no sign.
fn exact_volts(level: u16, range: u32) -> f32 {
    let factor = match range {
        0 => 5,
        1 => 10,
        _ => 20,
    };
    let product = (i32::from(level) - 32_768) * factor;
    product as f32 / 65_536.0
}
