//! `--coverage`: what was played, and on which boards.

use super::lent::Played;
use super::order::{Order, LARGEST_GROUP};
use super::play::Play;
use compare::bits::*;
use compare::counts::Counts;
use compare::fields::channels;
use compare::power_ups::DEEPEST;

#[derive(Default)]
pub struct Plays {
    counts: Counts,
}

impl Plays {
    pub fn note(&mut self, order: &Order, play: &Play, played: Played) {
        self.counts.begin();
        self.modes(order, play);
        self.settings(play);
        self.lengths(play, played);
        self.depths(order, play);
        self.kits(order, play);
    }

    fn modes(&mut self, order: &Order, play: &Play) {
        let several = order.mask.count_ones() > 1;
        for (mode, simultaneous) in [("simultaneous", true), ("sequential", false)] {
            for (coding, binary) in [("offset binary", true), ("two's complement", false)] {
                let name = format!("{mode}, {coding}");
                let met = (play.is_simultaneous(), play.is_binary()) == (simultaneous, binary);
                let meetings = [("several channels", several)];
                self.counts.hits(&name, met, &meetings);
            }
        }
    }

    fn settings(&mut self, play: &Play) {
        self.lines(&[
            ("BCR before BOR", !play.bor_first),
            ("BOR before BCR", play.bor_first),
            ("BOR D7, a software clock", play.bor & SOFTWARE_CLOCK != 0),
            ("BOR D9, a load request", play.bor & REQUEST_BIT != 0),
            (
                "BCR D2, a software trigger",
                play.bcr & SOFTWARE_TRIGGER != 0,
            ),
        ]);
    }

    fn lengths(&mut self, play: &Play, played: Played) {
        self.lines(&[
            ("one tick", played.ticks == 1),
            ("more than 1,000 ticks", played.ticks > 1_000),
            ("as a file too", played.as_file),
            ("junk in the whole memory", play.junk.is_some()),
        ]);
    }

    /// "and depth enough"
    fn depths(&mut self, order: &Order, play: &Play) {
        let (values, depth) = (order.values(), 8usize << play.power_up[1]);
        for code in 0..=DEEPEST {
            let all = 8usize << code;
            let name = format_args!("a depth of {all}, filled to the last value");
            self.counts.hit(name, depth == all && values == all);
        }
        let size = 8usize << (play.bor & CODE_BITS);
        self.lines(&[
            ("one value fewer than the depth", values + 1 == depth),
            ("a size code below the values", size < values),
        ]);
    }

    /// "with the channels fitted"
    fn kits(&mut self, order: &Order, play: &Play) {
        for kit in 0..=2 {
            let fitted = channels(kit).count_ones();
            let met = play.power_up[4] == kit;
            let last = order.mask >> (fitted - 1) == 1;
            let more = order.channels > fitted;
            let meetings = [
                ("its last channel chosen", last),
                ("a group of more channels", more),
            ];
            // No group has more channels than the largest kit.
            let meetings = &meetings[..if fitted < LARGEST_GROUP { 2 } else { 1 }];
            self.counts.hits(&format!("kit {kit}"), met, meetings);
        }
    }

    fn lines(&mut self, lines: &[(&str, bool)]) {
        for (name, met) in lines {
            self.counts.hit(format_args!("{name}"), *met);
        }
    }

    pub fn print(&self) {
        println!("plays:");
        self.counts.print();
    }
}
