//! One call of the cutter: the order, how long the output is, and the place. And
//! how what it writes is played.

use super::lent::Lent;
use super::order::Order;
use super::play::Play;
use super::{choose, print, shorten};
use compare::calls::Trial;
use compare::guarded::Wrongs;
use compare::rng::Rng;
use compare::room;

#[derive(Clone)]
pub struct Call {
    pub order: Order,
    pub room: usize,
    pub place: usize,
    /// What stands in the output before: the stream of this number.
    pub junk: u32,
    /// None if it is not played.
    pub play: Option<Play>,
}

/// How the calls are chosen.
const CUTTING: u64 = 0x2223_2026;

impl Call {
    /// Call number `index` of a seed.
    pub fn of(seed: u64, index: u64) -> Call {
        let mut rng = Rng::new(seed ^ CUTTING, index);
        let order = choose::order(&mut rng);
        let (room, place) = if rng.chance(1, 2) {
            room::enough(order.length(), &mut rng)
        } else {
            room::choose(order.length(), &mut rng)
        };
        Call {
            room,
            place,
            junk: rng.word(),
            play: Play::choose(&order, &mut rng),
            order,
        }
    }
}

impl Trial for Call {
    fn new(seed: u64, index: u64, _: u64) -> Call {
        Call::of(seed, index)
    }

    fn name(&self) -> String {
        self.order.words()
    }

    fn alone(&self) -> Wrongs {
        Lent::new().compare(self).wrongs
    }

    fn shortened(&self, tries: u32, differs: impl FnMut(&Call) -> bool) -> Call {
        shorten::shorten(self, tries, differs)
    }

    fn print(&self, most: usize) {
        print!("{}", print::call(self, most));
    }

    fn print_sides(&self) {
        print!("{}", Lent::new().compare(self).sides.text());
    }
}
