//! `--coverage`: what happened in the sessions, and what was answered.

use super::aim::least;
use super::answer::{Answer, LAST, NO_CODE};
use super::asked::Sizes;
use super::losses::Losses;
use super::seen::Seen;
use compare::bits::*;
use compare::counts::Counts;
use compare::file::{self, LONGEST};
use compare::question::{self, Tried};

#[derive(Default)]
pub struct Tally {
    refusals: Counts,
    codes: Counts,
    runs: Counts,
    replays: Counts,
}

/// The refusals that there are.
const REFUSALS: [u32; 6] = [0, 10, 11, 12, 13, NO_CODE];
/// Up to this code some buffers are filled to the last value.
const FILLED: u32 = 11;

impl question::Tally<Sizes> for Tally {
    fn note(&mut self, tried: &Tried<Sizes>, answer: &Answer) {
        let answer = *answer;
        let last = match answer.refusal {
            NO_CODE => LAST,
            _ => answer.code,
        };
        let events = file::events(&tried.bytes);
        let memory = tried.memory.length;
        let seen = Seen::new(&events, memory, last);
        let losses = Losses::new(&events, memory, last);
        self.refusal(answer, &seen, &losses, tried.bytes.len());
        self.code(answer, &seen, tried.bytes.len());
        self.run(answer, &seen);
        self.replay(answer, &seen, &losses, events.len());
    }

    fn parts(&self) -> Vec<(&'static str, &Counts)> {
        vec![
            ("answers:", &self.refusals),
            ("codes:", &self.codes),
            ("sessions with an answer:", &self.runs),
            ("replays:", &self.replays),
        ]
    }
}

impl Tally {
    fn refusal(&mut self, answer: Answer, seen: &Seen, losses: &Losses, length: usize) {
        let counts = &mut self.refusals;
        counts.begin();
        let accepted = !seen.power_ups.is_empty();
        let long = ("longer than 65,536 bytes", length > LONGEST);
        let of_file = [
            ("after an accepted power-up", accepted),
            ("after loads that would be stored", seen.loads > 0),
            ("with no accepted power-up before", !accepted),
            long,
        ];
        let of_none = [
            ("with one value lost at code 15", losses.last == 1),
            ("with a second power-up", seen.power_ups.len() > 1),
            ("without a write to BOR", seen.bors == 0),
            long,
        ];
        for one in REFUSALS {
            let name = format!("refusal {one}");
            let meetings = match one {
                0 => &[long][..],
                11..=13 => &of_file,
                NO_CODE => &of_none,
                _ => &[],
            };
            counts.hits(&name, answer.refusal == one, meetings);
        }
    }

    fn code(&mut self, answer: Answer, seen: &Seen, length: usize) {
        let counts = &mut self.codes;
        counts.begin();
        let accepted = !seen.power_ups.is_empty();
        let refused = seen.refused_first > 0;
        for code in 0..=LAST {
            let named = answer.refusal == 0 && answer.code == code;
            let name = format!("code {code}");
            let (few, all) = (least(code), 8 << code);
            counts.hit(format_args!("{name}"), named);
            let mut most = |most: u32| {
                let name = format_args!("{name}, at most {most} stored at once");
                counts.hit(name, named && seen.most == most);
            };
            if code == 0 {
                most(0);
            }
            most(few);
            if code <= FILLED {
                most(all);
            }
            if code == 0 {
                let meetings = [
                    ("no power-up at all", !refused),
                    ("power-ups refused", refused),
                    ("no record", length == 1),
                ];
                for (meeting, met) in meetings {
                    let name = format_args!("{name}, {meeting}");
                    counts.hit(name, named && !accepted && met);
                }
            }
        }
    }

    fn run(&mut self, answer: Answer, seen: &Seen) {
        let counts = &mut self.runs;
        counts.begin();
        let bit = |bit: u32| seen.bor_bits & bit != 0;
        let lines = [
            (
                "a power-up refused before the first accepted",
                seen.refused_first > 0 && !seen.power_ups.is_empty(),
            ),
            (
                "a power-up refused after an accepted one",
                seen.refused_after,
            ),
            ("a second power-up accepted", seen.power_ups.len() > 1),
            ("the same, with another fitted code", seen.other_fitted),
            ("initialise, where values are stored", seen.initialised),
            ("two writes to BOR", seen.bors > 1),
            ("a write to BOR with D4 set", bit(EXTERNAL_BIT)),
            ("a write to BOR with D5 set", bit(ENABLED_BIT)),
            ("a write to BOR with D7 set", bit(SOFTWARE_CLOCK)),
            ("the same, which moves values", seen.software_clock),
            ("a write to BOR with D8 set", bit(CIRCULAR_BIT)),
            ("a write to BOR with D9 set", bit(REQUEST_BIT)),
            ("a write to BOR with D11 set", bit(CLEAR)),
            ("the same, where values are stored", seen.cleared),
            ("a write to BOR before any power-up", seen.bor_unpowered),
            ("a write to BOR while calibrating", seen.bor_calibrating),
            ("a write to BOR below what is stored", seen.bor_below_stored),
            (
                "the 15 of a power-up lets in more than the code",
                seen.fifteen_of_power_up,
            ),
            (
                "the 15 of an initialise lets in more than the code",
                seen.fifteen_of_initialise,
            ),
            (
                "either of them, past a refused write to BOR",
                seen.fifteen_past_refused,
            ),
            ("a load lost to a closed buffer", seen.lost_to_closed),
            ("a load refused", seen.load_refused),
            (
                "more loads than the size: clocks made room",
                seen.room_by_clocks,
            ),
            ("a clock moves a group of values", seen.group),
            ("a clock moves values in a burst", seen.burst),
            ("a clock moves values round", seen.round),
        ];
        for (name, happened) in lines {
            counts.hit(format_args!("{name}"), !answer.is_of_file() && happened);
        }
    }

    fn replay(&mut self, answer: Answer, seen: &Seen, losses: &Losses, events: usize) {
        let counts = &mut self.replays;
        counts.begin();
        let named = answer.refusal == 0;
        let nearly = &losses.nearly[..];
        let last_up = seen.power_ups.last().copied().unwrap_or(0);
        let again = seen.power_ups.len() > 1;
        let all = |of: &dyn Fn(&usize) -> bool| !nearly.is_empty() && nearly.iter().all(of);
        let lines = [
            ("one value lost at the code before", nearly.len() == 1),
            (
                "the same, by the last event",
                all(&|place| *place + 1 == events),
            ),
            (
                "lost at the code before under the last power-up alone",
                again && all(&|place| *place > last_up),
            ),
            (
                "lost at the code before under an earlier one alone",
                again && all(&|place| *place < last_up),
            ),
        ];
        for (name, happened) in lines {
            counts.hit(format_args!("{name}"), named && happened);
        }
        let lines = [
            ("an EOF lost to a full buffer", losses.end_of_frame),
            (
                "a load stored at a lower code, and lost to a closed buffer",
                losses.closed_later,
            ),
            (
                "lower codes leave traces in the memory",
                losses.lower_traces,
            ),
            ("traces of what comes after a loss", losses.traces_past_loss),
            (
                "the same for refusal 19",
                answer.refusal == NO_CODE && losses.traces_past_loss,
            ),
        ];
        for (name, happened) in lines {
            counts.hit(format_args!("{name}"), !answer.is_of_file() && happened);
        }
    }
}
