//! How fast a session is written from its events.

use super::print_row;
use super::sessions::Sessions;
use std::hint::black_box;
use std::process::exit;
use std::time::{Duration, Instant};

/// The proved side alone.
pub fn ours(session: &Sessions, rounds: u64) {
    let mut output = vec![0; session.file.len()];
    for _ in 0..rounds {
        black_box(nergutsai::write(black_box(&session.rows), &mut output, 0)).ok();
    }
}

/// Both sides, in turns; each must write the session's file.
pub fn measure(session: &Sessions, rounds: u64) {
    let Sessions { name, file, rows } = session;
    let (mut ours, mut theirs) = (vec![0; file.len()], vec![0; file.len()]);
    let (mut best_ours, mut best_theirs) = (Duration::MAX, Duration::MAX);
    for _ in 0..rounds {
        let start = Instant::now();
        black_box(second::write_session(black_box(rows), &mut theirs, 0));
        best_theirs = best_theirs.min(start.elapsed());
        let start = Instant::now();
        black_box(nergutsai::write(black_box(rows), &mut ours, 0)).ok();
        best_ours = best_ours.min(start.elapsed());
    }
    if ours != *file || theirs != *file {
        eprintln!("{name}: the two sides differ");
        exit(1);
    }
    print_row(name, rows.len() / 6, best_theirs, best_ours);
}
