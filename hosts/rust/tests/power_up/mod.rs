//! The plainest power-up: a buffer of 8 values, 2.5 V, no filter, 6 channels.

use nergutsai::Event;

pub const UP: Event = Event::PowerUp {
    fitted: 0,
    range: 0,
    filter: 0,
    kit: 0,
    firmware: 0,
};
