//! How fast the smallest size that plays a session is found, and what that costs beside one listing. `#[inline(never)]`
//! keeps it out of `main`, which has the loops of the others: moved by it, Rust's writer was up to a seventh slower.

use super::sessions::Sessions;
use super::{print_row, Ours, MEMORY};
use std::hint::black_box;
use std::process::exit;
use std::time::{Duration, Instant};

/// The proved side alone.
#[inline(never)]
pub fn ours(session: &Sessions, rounds: u64) {
    let mut memory = vec![0; MEMORY];
    let mut code = 0;
    for _ in 0..rounds {
        black_box(nergutsai::smallest_size_call(
            black_box(&session.file),
            &mut memory,
            &mut code,
        ));
    }
}

/// Both sides and the proved listing, in turns; the two answers must be the same.
#[inline(never)]
pub fn measure(session: &Sessions, rounds: u64) {
    let Sessions { name, file, rows } = session;
    let mut memory = vec![0; MEMORY];
    let (mut refusal, mut code) = (0, 0);
    let mut listing = Ours::new(file);
    let [mut theirs, mut ours, mut listed] = [Duration::MAX; 3];
    for _ in 0..rounds {
        let start = Instant::now();
        let answer = black_box(second::smallest_size(black_box(file), &mut memory));
        theirs = theirs.min(start.elapsed());
        let start = Instant::now();
        refusal = nergutsai::smallest_size_call(black_box(file), &mut memory, &mut code);
        black_box(&code);
        ours = ours.min(start.elapsed());
        let start = Instant::now();
        black_box(listing.list(file));
        listed = listed.min(start.elapsed());
        if answer != (refusal, code) {
            eprintln!("{name}: the two answers differ");
            exit(1);
        }
    }
    let events = rows.len() / 6;
    print_row(name, events, theirs, ours);
    let (named, replays) = match refusal {
        0 => (format!("code {code}"), code + 1),
        _ => (format!("refusal {refusal}"), 16),
    };
    let each = ours.as_secs_f64() * 1e9 / events as f64;
    println!(
        "{:<48} beside one proved listing {:>7.2}",
        format!("    {named}, replays {replays}, {each:.1} ns an event"),
        ours.as_secs_f64() / listed.as_secs_f64()
    );
}
