//! `--coverage`: how often each refusal happened, and each meeting of them.

use super::call::Call;
use super::faults::{self, Fault};
use super::lent::Found;
use super::rows::{events, most, session, ROW, UNKNOWN};
use compare::counts::Counts;
use compare::fields::*;
use compare::file::widths;
use compare::room::Spot;

#[derive(Default)]
pub struct Tally {
    counts: Counts,
}

/// What is known of a call.
struct Seen {
    refusal: Option<u32>,
    rows: usize,
    events: Vec<Event>,
    /// The bad events: where they stand, and what is wrong first.
    faults: Vec<(usize, Fault)>,
    spot: Spot,
}

impl Seen {
    fn refused(&self, refusal: u32) -> bool {
        self.refusal == Some(refusal)
    }

    /// There is something wrong with a later event too.
    fn later(&self, what: Fault) -> bool {
        self.faults.iter().skip(1).any(|(_, fault)| *fault == what)
    }

    /// The event that decides, or one without fault.
    fn bad(&self) -> Event {
        let first = self.faults.first();
        first.map_or(simple(TICK), |(at, _)| self.events[*at])
    }
}

impl Tally {
    pub fn note(&mut self, call: &Call, found: &Found) {
        let events: Vec<Event> = events(&call.rows).collect();
        let bad = |(at, event)| Some((at, faults::first(event)?));
        let seen = Seen {
            refusal: found.sides.model.refusal,
            rows: call.rows.len(),
            faults: events.iter().enumerate().filter_map(bad).collect(),
            events,
            spot: Spot {
                length: session(&call.rows),
                room: call.room,
                place: call.place,
            },
        };
        self.counts.begin();
        self.written(&seen);
        self.slices(&seen);
        self.kinds(&seen);
        self.fields(&seen);
        self.first_of_several(&seen);
        self.outputs(&seen);
    }

    fn written(&mut self, seen: &Seen) {
        let written = seen.refused(0);
        let empty = [("no events", seen.events.is_empty())];
        let meetings = [&empty[..], &seen.spot.written()].concat();
        self.counts.hits("written", written, &meetings);
        for kind in POWER_UP..=SETTLED {
            let there = seen.events.iter().any(|event| event[0] == kind);
            self.counts
                .hit(format_args!("written, kind {kind}"), written && there);
            for (i, width) in widths(kind).unwrap_or(&[]).iter().enumerate() {
                for value in [0, most(*width)] {
                    let name = format_args!("written, kind {kind}, field {} of {value}", i + 1);
                    let there = |event: &Event| event[0] == kind && event[i + 1] == value;
                    self.counts
                        .hit(name, written && seen.events.iter().any(there));
                }
            }
        }
    }

    fn slices(&mut self, seen: &Seen) {
        let refused = seen.refused(32);
        let meetings = [
            ("less than an event", seen.events.is_empty()),
            ("a bad event before the cut", !seen.faults.is_empty()),
            ("a place past the end", seen.spot.is_past()),
            ("too little room", seen.spot.is_tight()),
        ];
        self.counts.hits("refused 32", refused, &meetings);
        for more in 1..ROW {
            let name = format_args!("refused 32, {more} over whole events");
            self.counts.hit(name, refused && seen.rows % ROW == more);
        }
    }

    fn kinds(&mut self, seen: &Seen) {
        let (refused, bad) = (seen.refused(13), seen.bad());
        let meetings = [
            ("30 in the same event", bad[1..] != [0; 5]),
            ("30 in a later event", seen.later(Fault::Field)),
            ("13 in a later event", seen.later(Fault::Kind)),
            ("a place past the end", seen.spot.is_past()),
            ("too little room", seen.spot.is_tight()),
        ];
        self.counts.hits("refused 13", refused, &meetings);
        for kind in UNKNOWN {
            let name = format_args!("refused 13, kind {kind}");
            self.counts.hit(name, refused && bad[0] == kind);
        }
    }

    fn fields(&mut self, seen: &Seen) {
        let (refused, bad) = (seen.refused(30), seen.bad());
        let meetings = [
            ("13 in a later event", seen.later(Fault::Kind)),
            ("30 in a later event", seen.later(Fault::Field)),
            ("a place past the end", seen.spot.is_past()),
            ("too little room", seen.spot.is_tight()),
        ];
        self.counts.hits("refused 30", refused, &meetings);
        for kind in POWER_UP..=SETTLED {
            let refused = refused && bad[0] == kind;
            let widths = widths(kind).unwrap_or(&[]);
            for (at, number) in bad.into_iter().enumerate().skip(1) {
                let Some(width) = widths.get(at - 1) else {
                    let name = format_args!("refused 30, kind {kind}, no field {at}, not 0");
                    self.counts.hit(name, refused && number > 0);
                    continue;
                };
                // Four bytes hold any number.
                let Some(least) = most(*width).checked_add(1) else {
                    continue;
                };
                for (how, met) in [("", number == least), ("more than ", number > least)] {
                    let name = format_args!("refused 30, kind {kind}, field {at}, {how}{least}");
                    self.counts.hit(name, refused && met);
                }
            }
        }
    }

    fn first_of_several(&mut self, seen: &Seen) {
        let refused = seen.refused(13) || seen.refused(30);
        let events = seen.events.len();
        let at = seen.faults.first().map_or(0, |(at, _)| *at);
        let meetings = [
            ("the only event", events == 1),
            ("the first event of several", events > 1 && at == 0),
            ("an event in the middle", at > 0 && at + 1 < events),
            ("the last event of several", at > 0 && at + 1 == events),
        ];
        self.counts.hits("refused 13 or 30", refused, &meetings);
    }

    fn outputs(&mut self, seen: &Seen) {
        let empty = [("no events", seen.events.is_empty())];
        let past = [&empty[..], &seen.spot.past()].concat();
        self.counts.hits("refused 20", seen.refused(20), &past);
        let tight = [&empty[..], &seen.spot.tight()].concat();
        self.counts.hits("refused 21", seen.refused(21), &tight);
    }

    pub fn print(&self) {
        println!("calls:");
        self.counts.print();
    }
}
