//! How fast the table of volts of a session is made, and what it costs beside the listing.

use super::sessions::Sessions;
use super::{print_row, Ours, MEMORY};
use std::hint::black_box;
use std::process::exit;
use std::time::{Duration, Instant};

/// The proved side alone.
pub fn ours(session: &Sessions, rounds: u64) {
    let mut memory = vec![0; MEMORY];
    let mut numbers = [0.0; 60];
    for _ in 0..rounds {
        black_box(nergutsai::volts_call(
            black_box(&session.file),
            &mut memory,
            &mut numbers,
        ));
    }
}

/// Both sides and the proved listing, in turns; the two tables must be the same, bit by bit.
pub fn measure(session: &Sessions, rounds: u64) {
    let Sessions { name, file, rows } = session;
    let mut memory = vec![0; MEMORY];
    let mut numbers = [0.0; 60];
    let mut listing = Ours::new(file);
    let [mut theirs, mut ours, mut listed] = [Duration::MAX; 3];
    for _ in 0..rounds {
        let start = Instant::now();
        let table = black_box(second::volts(black_box(file), &mut memory));
        theirs = theirs.min(start.elapsed());
        let start = Instant::now();
        let refusal = nergutsai::volts_call(black_box(file), &mut memory, &mut numbers);
        black_box(&numbers);
        ours = ours.min(start.elapsed());
        let start = Instant::now();
        black_box(listing.list(file));
        listed = listed.min(start.elapsed());
        let flat = table.1.iter().flat_map(|x| [x.lowest, x.highest, x.last]);
        if table.0 != refusal || !flat.map(f32::to_bits).eq(numbers.map(f32::to_bits)) {
            eprintln!("{name}: the two tables differ");
            exit(1);
        }
    }
    print_row(name, rows.len() / 6, theirs, ours);
    println!(
        "{:<48} beside the proved listing {:>7.2}",
        "",
        ours.as_secs_f64() / listed.as_secs_f64()
    );
}
