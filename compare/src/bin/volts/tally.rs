//! `--coverage`: what happened in the sessions, and what was answered.

use super::asked::Volts;
use super::seen::Seen;
use super::table::Table;
use compare::counts::Counts;
use compare::file::LONGEST;
use compare::question::{self, Tried};

#[derive(Default)]
pub struct Tally {
    refusals: Counts,
    runs: Counts,
    tables: Counts,
}

/// The refusals that there are.
const REFUSALS: [u32; 6] = [0, 10, 11, 12, 13, 18];

impl question::Tally<Volts> for Tally {
    fn note(&mut self, tried: &Tried<Volts>, table: &Table) {
        let seen = Seen::new(&tried.bytes, tried.memory.length);
        self.refusal(table.refusal, &seen, tried.bytes.len());
        self.run(table.refusal, &seen);
        self.table(table, &seen);
    }

    fn parts(&self) -> Vec<(&'static str, &Counts)> {
        vec![
            ("answers:", &self.refusals),
            ("sessions with a table:", &self.runs),
            ("tables:", &self.tables),
        ]
    }
}

impl Tally {
    fn refusal(&mut self, refusal: u32, seen: &Seen, length: usize) {
        let counts = &mut self.refusals;
        counts.begin();
        for one in REFUSALS {
            let name = format!("refusal {one}");
            let long = ("longer than 65,536 bytes", length > LONGEST);
            let meetings = [
                ("after an accepted power-up", seen.accepted > 0),
                ("with no accepted power-up before", seen.accepted == 0),
                long,
            ];
            let refused = seen.refused_first > 0;
            let without = [
                ("no power-up at all", !refused),
                ("power-ups refused", refused),
                ("no record", length == 1),
            ];
            let meetings = match one {
                0 => &[long][..],
                11..=13 => &meetings,
                18 => &without,
                _ => &[],
            };
            counts.hits(&name, refusal == one, meetings);
        }
    }

    fn run(&mut self, refusal: u32, seen: &Seen) {
        let counts = &mut self.runs;
        counts.begin();
        let lines = [
            (
                "a power-up refused before the first accepted",
                seen.refused_first > 0,
            ),
            ("a second power-up accepted", seen.accepted > 1),
            ("the same, with another range", seen.other_range),
            ("the same, after levels had moved", seen.moved_before),
            ("a third power-up accepted", seen.accepted > 2),
            (
                "a power-up refused after an accepted one",
                seen.refused_after,
            ),
            ("the same, with another good range", seen.refused_range),
            ("another event refused after a power-up", seen.refused_event),
            ("initialise after levels had moved", seen.initialised),
            ("8000h reached again from below", seen.from_below),
            ("8000h reached again from above", seen.from_above),
            ("values moved in two's complement", seen.complement),
            ("values moved in offset binary", seen.binary),
            ("the last event moves a value", seen.moved_last),
        ];
        for (name, happened) in lines {
            counts.hit(format_args!("{name}"), refusal == 0 && happened);
        }
    }

    fn table(&mut self, table: &Table, seen: &Seen) {
        let counts = &mut self.tables;
        counts.begin();
        let any = |of: &dyn Fn([f32; 3]) -> bool| table.refusal == 0 && table.channels().any(of);
        let lines = [
            ("lowest not 0", any(&|[lowest, _, _]| lowest != 0.0)),
            ("highest not 0", any(&|[_, highest, _]| highest != 0.0)),
            ("last not 0", any(&|[_, _, last]| last != 0.0)),
            (
                "last 0, the others not",
                any(&|[lowest, highest, last]| lowest != 0.0 && highest != 0.0 && last == 0.0),
            ),
            (
                "last 0, lowest not",
                any(&|[lowest, _, last]| lowest != 0.0 && last == 0.0),
            ),
            (
                "last neither the lowest nor the highest nor 0",
                any(&|[lowest, highest, last]| lowest < last && last < highest && last != 0.0),
            ),
        ];
        for (name, happened) in lines {
            counts.hit(format_args!("{name}"), happened);
        }
        for range in 0..3 {
            let of = seen.range == range;
            let step = 2.5 * (1 << range) as f32 / 32_768.0;
            counts.hit(format_args!("range {range}"), table.refusal == 0 && of);
            for level in [0x0000, 0x7FFF, 0x8001, 0xFFFF] {
                let volts = (level - 0x8000) as f32 * step;
                let name = format_args!("range {range}, {volts} volts (level {level:04X}h)");
                counts.hit(name, of && any(&|three| three.contains(&volts)));
            }
        }
    }
}
