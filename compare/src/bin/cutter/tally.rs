//! `--coverage`: how often each refusal happened, and each meeting of them.

use super::call::Call;
use super::choose::NO_CHANNELS;
use super::faults::Faults;
use super::lent::Found;
use super::order::{Order, LARGEST_GROUP};
use super::plays::Plays;
use super::recording::CORNERS;
use compare::counts::Counts;
use compare::room::Spot;

#[derive(Default)]
pub struct Tally {
    calls: Counts,
    plays: Plays,
}

/// What is known of a call.
struct Seen<'a> {
    refusal: Option<u32>,
    order: &'a Order,
    faults: Faults,
    spot: Spot,
}

impl Seen<'_> {
    fn refused(&self, refusal: u32) -> bool {
        self.refusal == Some(refusal)
    }
}

impl Tally {
    pub fn note(&mut self, call: &Call, found: &Found) {
        let seen = Seen {
            refusal: found.sides.model.refusal,
            order: &call.order,
            faults: Faults::of(&call.order),
            spot: Spot {
                length: call.order.length(),
                room: call.room,
                place: call.place,
            },
        };
        self.calls.begin();
        self.written(&seen);
        self.groupings(&seen);
        self.choices(&seen);
        self.groups(&seen);
        self.outputs(&seen);
        if let (Some(play), Some(played)) = (&call.play, found.played) {
            self.plays.note(&call.order, play, played);
        }
    }

    fn written(&mut self, seen: &Seen) {
        let order = seen.order;
        let chosen = order.chosen();
        let gaps = chosen.windows(2).any(|two| two[1] > two[0] + 1);
        let all = chosen.len() == order.channels as usize;
        let whole = order.taken() == order.groups();
        let meetings = [
            ("one channel in a group", order.channels == 1),
            ("20 channels in a group", order.channels == LARGEST_GROUP),
            ("one group", order.taken() == 1),
            ("the whole recording", whole && order.groups() > 1),
            ("groups before it", order.first > 0),
            (
                "groups behind it",
                order.last.saturating_add(1) < order.groups(),
            ),
            ("all channels", all && chosen.len() > 1),
            ("a choice with gaps", gaps),
            ("a single channel of several", chosen.len() == 1 && !all),
            ("without channel 0", order.mask & 1 == 0),
        ];
        let meetings = [&meetings[..], &seen.spot.written()].concat();
        let written = seen.refused(0) && seen.faults.none();
        self.calls.hits("written", written, &meetings);
        for corner in CORNERS {
            let name = format_args!("written, the last number {corner:04X}h");
            let last = chosen.last().copied().unwrap_or(0);
            let met = written && order.number(order.last, last) == corner;
            self.calls.hit(name, met);
        }
    }

    fn groupings(&mut self, seen: &Seen) {
        let (order, faults) = (seen.order, seen.faults);
        let numbers = order.recording.len();
        let low_byte = order.channels & 0xFF;
        let short = numbers < order.channels as usize;
        let only_channels = !faults.length && !faults.choice();
        let meetings = [
            (
                "the low byte of the channels good",
                order.channels > 0xFF && (1..=LARGEST_GROUP).contains(&low_byte),
            ),
            ("nothing wrong but the channels", only_channels),
            (
                "nothing wrong but 21 channels",
                only_channels && order.channels == 21,
            ),
            (
                "nothing wrong but a part of a group",
                !faults.channels && !faults.choice(),
            ),
            ("a part of a group over", !faults.channels),
            ("less than one group", !faults.channels && short),
            ("an empty recording", numbers == 0),
            ("an empty choice too", faults.empty),
            ("a channel outside too", faults.outside),
            ("groups out of range too", faults.past),
            ("groups reversed too", faults.reversed),
            ("a place past the end too", seen.spot.is_past()),
            ("too little room too", seen.spot.is_tight()),
        ];
        let refused = seen.refused(22);
        self.calls.hits("refused 22", refused, &meetings);
        for channels in NO_CHANNELS {
            let name = format_args!("refused 22, {channels} channels in a group");
            self.calls.hit(name, refused && order.channels == channels);
        }
    }

    fn choices(&mut self, seen: &Seen) {
        let (order, faults) = (seen.order, seen.faults);
        let next = 1u32.checked_shl(order.channels).unwrap_or(0);
        let Faults { past, reversed, .. } = faults;
        let groups = past || reversed;
        let meetings = [
            ("an empty choice", faults.empty),
            ("an empty choice, groups good", faults.empty && !groups),
            ("a bit just outside", order.mask & next != 0),
            ("only a bit just outside", order.mask == next),
            ("a bit of no channel", order.mask >> LARGEST_GROUP != 0),
            ("all ones", order.mask == u32::MAX),
            ("a channel outside, groups good", faults.outside && !groups),
            (
                "a channel outside, out of range too",
                faults.outside && past,
            ),
            (
                "a channel outside, reversed too",
                faults.outside && reversed,
            ),
            ("a place past the end too", seen.spot.is_past()),
            ("too little room too", seen.spot.is_tight()),
        ];
        self.calls.hits("refused 23", seen.refused(23), &meetings);
    }

    /// "groups out of range or reversed", where the choice is good.
    fn groups(&mut self, seen: &Seen) {
        let (order, faults) = (seen.order, seen.faults);
        let (first, last, groups) = (order.first, order.last, order.groups());
        let Faults { past, reversed, .. } = faults;
        let low = last as u32 as usize;
        let numbers = last.wrapping_add(1).wrapping_mul(order.channels as usize);
        let only_reversed = reversed && !past;
        let meetings = [
            ("an empty recording", groups == 0),
            ("out of range, not reversed", past && !reversed),
            ("out of range and reversed", past && reversed),
            ("the last group just outside", last == groups),
            (
                "both groups just outside",
                first == groups && last == groups,
            ),
            ("the largest last group", last == usize::MAX),
            (
                "both groups the largest",
                first == usize::MAX && first == last,
            ),
            ("the last group's low 32 bits inside", past && low < groups),
            (
                "the numbers up to it wrap round to inside",
                past && last < usize::MAX && numbers <= order.recording.len(),
            ),
            ("reversed by one", only_reversed && first - last == 1),
            ("reversed by more", only_reversed && first - last > 1),
            ("reversed, both inside", only_reversed && first < groups),
            (
                "reversed, the first just outside",
                only_reversed && first == groups,
            ),
            (
                "reversed, the first group's low 32 bits inside",
                only_reversed && first > u32::MAX as usize && first as u32 as usize <= last,
            ),
            (
                "reversed, the largest first group",
                only_reversed && first == usize::MAX,
            ),
        ];
        let refused = seen.refused(23) && !faults.empty && !faults.outside;
        self.calls
            .hits("refused 23, a good choice", refused, &meetings);
    }

    fn outputs(&mut self, seen: &Seen) {
        let spot = seen.spot;
        self.calls
            .hits("refused 20", seen.refused(20), &spot.past());
        self.calls
            .hits("refused 21", seen.refused(21), &spot.tight());
    }

    pub fn print(&self) {
        println!("calls:");
        self.calls.print();
        self.plays.print();
    }
}
