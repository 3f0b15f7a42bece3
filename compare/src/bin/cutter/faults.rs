//! What is wrong with an order, told from the sentence of 02 alone, in numbers
//! that are wide enough for all.

use super::order::{Order, LARGEST_GROUP};

#[derive(Clone, Copy)]
pub struct Faults {
    /// "22 channels in a group not 1 to 20"
    pub channels: bool,
    /// "or length no whole number of groups"
    pub length: bool,
    /// "23 empty choice"
    pub empty: bool,
    /// "a channel outside the group"
    pub outside: bool,
    /// "or groups out of range"
    pub past: bool,
    /// "or reversed"
    pub reversed: bool,
}

impl Faults {
    pub fn of(order: &Order) -> Faults {
        let length = order.recording.len() as u128;
        let channels = order.channels as u128;
        let outside = |channel| order.mask >> channel & 1 == 1 && channel >= order.channels;
        Faults {
            channels: !(1..=LARGEST_GROUP).contains(&order.channels),
            length: channels > 0 && !length.is_multiple_of(channels),
            empty: order.mask == 0,
            outside: (0..u32::BITS).any(outside),
            past: channels == 0 || (order.last as u128 + 1) * channels > length,
            reversed: order.first > order.last,
        }
    }

    /// Those of 22.
    pub fn grouping(&self) -> bool {
        self.channels || self.length
    }

    /// Those of 23.
    pub fn choice(&self) -> bool {
        self.empty || self.outside || self.past || self.reversed
    }

    /// Nothing is wrong with the order.
    pub fn none(&self) -> bool {
        !self.grouping() && !self.choice()
    }
}
