//! The levels that a cut plays, told from the recording, the order, the coding and
//! the mode alone: "Channel k of a group plays on output k."

use super::order::Order;
use super::play::Play;

/// All twenty, as the record has them.
pub type Levels = [u32; 20];

pub struct Expected<'a> {
    order: &'a Order,
    play: &'a Play,
    chosen: Vec<usize>,
    pub levels: Levels,
}

impl Expected<'_> {
    /// Before the first tick: "all 20 levels 8000h".
    pub fn new<'a>(order: &'a Order, play: &'a Play) -> Expected<'a> {
        Expected {
            order,
            play,
            chosen: order.chosen(),
            levels: [0x8000; 20],
        }
    }

    /// After the next tick, which has this number, from 0: a whole group, or one
    /// channel of it. "Other channels hold."
    pub fn tick(&mut self, tick: usize) {
        if self.play.is_simultaneous() {
            for i in 0..self.chosen.len() {
                self.put(tick, self.chosen[i]);
            }
        } else {
            let channels = self.chosen.len();
            self.put(tick / channels, self.chosen[tick % channels]);
        }
    }

    /// A number of this group of those that are cut, on its own output.
    fn put(&mut self, group: usize, channel: usize) {
        let number = self.order.number(self.order.first + group, channel);
        let level = if self.play.is_binary() {
            number
        } else {
            number.wrapping_add(0x8000)
        };
        self.levels[channel] = level as u32;
    }
}
