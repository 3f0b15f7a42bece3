//! What the replays of a session lose and leave behind, one code after the
//! other. Only for `--coverage`.

use super::replay::replay;
use compare::fields::*;

/// Load fates.
pub const STORED: u32 = 1;
pub const LOST_TO_FULL: u32 = 2;
pub const LOST_TO_CLOSED: u32 = 3;

#[derive(Default)]
pub struct Losses {
    /// A lower code loses a value with EOF.
    pub end_of_frame: bool,
    /// A load that the last code loses to a closed buffer is stored at a lower
    /// one.
    pub closed_later: bool,
    /// The memory would be another if the last code were replayed alone; if each
    /// replay stopped at its first loss.
    pub lower_traces: bool,
    pub traces_past_loss: bool,
    /// The places among the events where the code before the last one loses.
    pub nearly: Vec<usize>,
    /// How many the last one loses: some for refusal 19 alone.
    pub last: usize,
}

impl Losses {
    /// Replays codes 0 to this one.
    pub fn new(events: &[Event], memory: usize, last: u32) -> Losses {
        let mut losses = Losses::default();
        let (mut all, mut stopped, mut alone) = (vec![0; memory], vec![0; memory], vec![0; memory]);
        let mut stored_once = vec![false; events.len()];
        for code in 0..=last {
            let fates = fates(events, code, &mut all);
            let lost = |place: &usize| fates[*place] == LOST_TO_FULL;
            let places: Vec<usize> = (0..fates.len()).filter(lost).collect();
            let ends = |place: &usize| events[*place][2] & EOF != 0;
            losses.end_of_frame |= places.iter().any(ends);
            for (stored_once, fate) in stored_once.iter_mut().zip(&fates) {
                losses.closed_later |= code == last && *fate == LOST_TO_CLOSED && *stored_once;
                *stored_once |= *fate == STORED;
            }
            losses.last = places.len();
            if code + 1 == last {
                losses.nearly = places;
            }
            replay(events, code, &mut stopped, |_, [.., fate], _, _| {
                fate != LOST_TO_FULL
            });
        }
        fates(events, last, &mut alone);
        losses.lower_traces = alone != all;
        losses.traces_past_loss = stopped != all;
        losses
    }
}

/// The load fate of each event.
fn fates(events: &[Event], code: u32, memory: &mut [u32]) -> Vec<u32> {
    let mut fates = Vec::with_capacity(events.len());
    replay(events, code, memory, |_, [.., fate], _, _| {
        fates.push(fate);
        true
    });
    fates
}

#[cfg(test)]
mod tests {
    use super::*;

    /// Power-up with depth 16, clocking enabled, and so many loads.
    fn losses(loads: usize, last: u32) -> Losses {
        let mut events = vec![[POWER_UP, 1, 0, 0, 0, 0], write(BOR, 0x20)];
        events.resize(2 + loads, write(0x18, EOF | 1));
        Losses::new(&events, 16, last)
    }

    #[test]
    fn the_code_before_loses_what_is_past_its_size() {
        let nine = losses(9, 1);
        assert_eq!((&nine.nearly[..], nine.last), (&[10][..], 0));
        assert!(nine.end_of_frame);
        assert!(!nine.lower_traces && !nine.traces_past_loss);
        let none = losses(8, 0);
        assert!(none.nearly.is_empty() && none.last == 0 && !none.end_of_frame);
        assert_eq!(losses(18, 15).last, 2);
    }
}
