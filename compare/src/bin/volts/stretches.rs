//! Events for the volts: stretches of loads and clocks, each after a power-up,
//! taken or not, an initialise, or nothing.

use compare::bits::*;
use compare::fields::*;
use compare::power_ups::{self, DEEPEST};
use compare::rng::Rng;

/// What a stretch begins with.
#[derive(Clone, Copy)]
enum Begin {
    PowerUp,
    /// A power-up with a bad setting, or too deep for any memory here.
    Refused,
    Initialise,
    Nothing,
}

/// BOR: size code 15 and clocking enabled.
const CLOCKS: u32 = CODE_BITS | ENABLED_BIT;

/// Where levels turn: the two's complement of each is another of them.
const TURNS: [u32; 8] = [
    0x0000, 0x0001, 0x7FFE, 0x7FFF, 0x8000, 0x8001, 0xFFFE, 0xFFFF,
];

/// One to four stretches; without power-ups, none that would be accepted.
pub fn events(rng: &mut Rng, power_ups: bool) -> Vec<Event> {
    let mut events = Vec::new();
    let up = if power_ups {
        Begin::PowerUp
    } else {
        Begin::Refused
    };
    for stretch in 0..1 + rng.below(4) {
        let begin = match stretch {
            0 => rng.pick(&[up, up, up, up, up, up, Begin::Refused, Begin::Initialise]),
            _ => rng.pick(&[up, Begin::Refused, Begin::Initialise, Begin::Nothing]),
        };
        match begin {
            Begin::PowerUp => events.push(power_up(rng)),
            Begin::Refused => {
                let good = power_up(rng);
                events.push(power_ups::refused(good, rng));
            }
            Begin::Initialise => events.push(write(BCR, INITIALISE | rng.flag() << 4)),
            Begin::Nothing => {}
        }
        set_up(rng, &mut events);
        for _ in 0..rng.below(4) {
            play(rng, &mut events);
        }
    }
    events
}

fn power_up(rng: &mut Rng) -> Event {
    let fitted = rng.pick(&[0, 0, 0, 1, 1, 2, 2, DEEPEST]);
    power_ups::of(fitted, rng)
}

/// The mask, the coding and the mode, and the clocks: each mostly.
fn set_up(rng: &mut Rng, events: &mut Vec<Event>) {
    let (all, any) = (channels(2), rng.word() & channels(2));
    let one = 1 << rng.below(20);
    let few = one | 1 << rng.below(6) | 1 << rng.below(6);
    let mask = rng.pick(&[1, one, few, few, few, any, all]);
    let mode = rng.pick(&[0, 0, SIMULTANEOUS_BIT]);
    let coding = rng.pick(&[0, BINARY_BIT]);
    for event in [
        write(0x04, mask),
        write(BCR, coding | mode),
        write(BOR, CLOCKS),
    ] {
        if rng.chance(7, 8) {
            events.push(event);
        }
    }
}

/// Loads, then as many clocks or fewer; sometimes the frame goes round, and
/// sometimes something else comes between.
fn play(rng: &mut Rng, events: &mut Vec<Event>) {
    let some = 1 + rng.below(6);
    let loads = rng.pick(&[1, some, some, 8, 20]);
    for _ in 0..loads {
        let (turn, any) = (rng.pick(&TURNS), rng.word() & 0xFFFF);
        let data = rng.pick(&[turn, turn, any]);
        events.push(write(0x18, data | rng.pick(&[0, EOF])));
    }
    let round = rng.chance(1, 10);
    if round {
        events.push(write(BOR, CLOCKS | CIRCULAR_BIT));
    }
    let clocks = rng.pick(&[1, loads, loads, loads.saturating_sub(1)]);
    events.resize(events.len() + clocks as usize, simple(TICK));
    if round {
        events.push(write(BOR, CLOCKS));
    }
    if rng.chance(1, 4) {
        events.push(rng.pick(&[
            read(BOR),
            read(0x20),
            write(0x10, 0),
            write(BOR, CLOCKS | CLEAR),
            simple(OUTSIDE),
            simple(TRIGGER),
            simple(SETTLED),
        ]));
    }
}
