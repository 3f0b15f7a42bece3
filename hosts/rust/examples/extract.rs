//! An extract of a recording, as it is packed: two channels of three groups, cut into a session file behind the power-up
//! that it is played after, with the writes and ticks that play it behind it; and the listing of that file.

use nergutsai::register::{bcr, bor, enable_channel, BCR, BOR};
use nergutsai::{cut, cut_room, list, session_room, write, Event, Order, Refusal};

/// Four groups of three channels. The first digit is the group, the last the channel.
const RECORDING: [u16; 12] = [
    0x1000, 0x1001, 0x1002, //
    0x2000, 0x2001, 0x2002, //
    0x3000, 0x3001, 0x3002, //
    0x4000, 0x4001, 0x4002,
];

const POWER_UP: Event = Event::PowerUp {
    fitted: 0,
    range: 1,
    filter: 0,
    kit: 0,
    firmware: 0x123,
};

/// Offset binary, all channels of a group at once; the clock enabled; a tick for each group.
const PLAY: [Event; 5] = [
    Event::Write {
        offset: BCR,
        value: bcr::OFFSET_BINARY | bcr::SIMULTANEOUS_OUTPUTS,
    },
    Event::Write {
        offset: BOR,
        value: bor::ENABLE_CLOCK,
    },
    Event::Tick,
    Event::Tick,
    Event::Tick,
];

/// The session file of these events.
fn session(events: &[Event]) -> Result<Vec<u8>, Refusal> {
    let rows: Vec<u32> = events.iter().flat_map(|event| event.row()).collect();
    let mut file = vec![0; session_room(events.len())];
    let end = write(&rows, &mut file, 0)?;
    file.truncate(end);
    Ok(file)
}

fn main() -> Result<(), Refusal> {
    let order = Order {
        recording: &RECORDING,
        channels: 3,
        first: 1,
        last: 3,
        mask: enable_channel(0) | enable_channel(2),
    };
    // A group that is not there: nothing is cut, and it is said why.
    let mut extract = vec![0; cut_room(3, 2)];
    if let Err(refusal) = cut(&Order { last: 4, ..order }, &mut extract, 0) {
        let number = refusal.number();
        println!("groups 1 to 4: refusal {number}, the recording has no group 4");
    }
    let end = cut(&order, &mut extract, 0)?;
    println!("groups 1 to 3, channels 0 and 2: {end} bytes");

    // Each part is a session file of its own: of the second and the third the version byte is left out.
    let mut file = session(&[POWER_UP])?;
    file.extend(&extract[1..end]);
    file.extend(&session(&PLAY)?[1..]);

    print!("{}", list(&file, &mut [0; 8]));
    Ok(())
}
