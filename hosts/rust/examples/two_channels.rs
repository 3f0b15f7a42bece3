//! Two samples to two channels, the second with the end-of-frame mark, with a power-up and a write that the board refuses;
//! then the rate, and the same events as a session file.

use nergutsai::register::{bor, enable_channel, BOR, CHANNEL_SELECTION, EOF, OUTPUT_DATA_BUFFER};
use nergutsai::{event, list, rate, session_room, smallest_size, volts, Event, Record, Refusal};

fn main() -> Result<(), Refusal> {
    let power_up = |range| Event::PowerUp {
        fitted: 0,
        range,
        filter: 0,
        kit: 0,
        firmware: 0x123,
    };
    let write = |offset, value| Event::Write { offset, value };
    let channels = enable_channel(0) | enable_channel(1);
    let running = bor::ENABLE_CLOCK | 15;
    let session = [
        ("power up with range code 3", power_up(3)),
        ("power up, 8 values deep, 6 channels", power_up(0)),
        ("channels 0 and 1", write(CHANNEL_SELECTION, channels)),
        ("load 1234h", write(OUTPUT_DATA_BUFFER, 0x1234)),
        (
            "load ABCDh, end of frame",
            write(OUTPUT_DATA_BUFFER, 0xABCD | EOF),
        ),
        ("enable the clock, size code 15", write(BOR, running)),
        ("clock", Event::Tick),
        ("clock", Event::Tick),
        ("read the buffer register", Event::Read { offset: BOR }),
        ("write a register that is not there", write(0x104, 1)),
    ];
    let refused = |what, refusal: Refusal| {
        println!("{what:<36} refusal {}  {refusal}", refusal.number());
    };

    let mut board = Record::unpowered();
    let mut memory = [0; 8];
    for (what, happening) in session {
        match event(&mut board, &mut memory, happening) {
            Err(refusal) => refused(what, refusal),
            Ok(answer) => println!(
                "{what:<36} register {:08X}  moved {}  {}",
                answer.register, answer.moved, answer.fate
            ),
        }
    }
    let figures = rate(&board)?;
    println!(
        "{:<36} reference {} Hz  rate {} Hz",
        "ask the rate", figures.reference, figures.rate
    );
    for (channel, level) in board.levels()[..6].iter().enumerate() {
        println!("channel {channel}: {level:04X}");
    }

    // An offset has one byte in a session file: with the last event nothing is written, and without it the rest is.
    let rows: Vec<u32> = session.iter().flat_map(|(_, event)| event.row()).collect();
    let mut file = vec![0; session_room(session.len())];
    if let Err(refusal) = nergutsai::write(&rows, &mut file, 0) {
        refused("all ten as a session file", refusal);
    }
    let end = nergutsai::write(&rows[..rows.len() - 6], &mut file, 0)?;
    println!("{:<36} {end} bytes", "the first nine");

    // The listing of that file, and of the same without its last byte.
    let [whole, cut] = [&file[..end], &file[..end - 1]];
    print!("{}", list(whole, &mut memory));
    print!("{}", list(cut, &mut memory));

    // And the volts of its first two channels; cut, it has none.
    for (channel, volts) in volts(whole, &mut memory)?[..2].iter().enumerate() {
        println!(
            "volts of channel {channel}: lowest {:.16}, highest {:.16}, last {:.16}",
            volts.lowest, volts.highest, volts.last
        );
    }
    if let Err(refusal) = volts(cut, &mut memory) {
        refused("volts of the cut file", refusal);
    }

    // And the smallest size that plays it; cut, it has none.
    let code = smallest_size(whole, &mut memory)?;
    println!("{:<36} code {code}", "smallest size");
    if let Err(refusal) = smallest_size(cut, &mut memory) {
        refused("smallest size of the cut file", refusal);
    }
    Ok(())
}
