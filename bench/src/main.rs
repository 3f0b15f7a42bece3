//! Lists or writes five sessions, makes their tables of volts or finds the smallest sizes that play them, many times in
//! one process, through the proved code and through the second model, written in Rust, and prints how many events a
//! second each takes and the ratio of their times; or cuts recordings, through the proved code and through a plain loop.

mod cutting;
mod sessions;
mod sizes;
mod volts;
mod writing;

use std::hint::black_box;
use std::process::exit;
use std::time::{Duration, Instant};

const HELP: &str = "\
bench/run - the proved listing, writing, volts or sizes of whole sessions, or the proved
cutting of recordings, against the same in Rust

usage: bench/run [--rounds N] [--only NAME] [--writing | --volts | --sizes] [--ours]
       bench/run [--rounds N] --cutting | --cut NAME [--ours]
       bench/run --help

  --rounds N     how often each session is replayed on each side, a number from 1
                 (default 2000); in turns, and the best is taken
  --only NAME    only this session: streaming, sparse, circular, simultaneous or random
  --writing      the sessions are written from their events, and not listed
  --cutting      sessions of 8,000 values are cut out of recordings, beside a plain loop
                 in Rust that writes the same bytes; an event is a value. The groups
                 have 20 channels, but for the last cut, whose groups have one
  --cut NAME     the same, and only this cut: all, alternate, last or single
  --volts        the table of lowest, highest and last volts is made of them, and not a
                 listing; below each row stands its time over that of the listing
  --sizes        the smallest size that plays each of them is found: it is replayed with
                 code 0, 1 and so on up to the one named, with all sixteen where none plays
                 (refusal 19). An event counts once, however many replays there are; below
                 each row stand the code, the replays, the proved side's time an event, and
                 its time over that of one listing. Of --writing, --cutting, --cut,
                 --volts and --sizes the last counts
  --ours         only the proved side and no table, for a profiler
  --help         this text

A ratio is the time of the proved code over that of Rust's: 1.0 is as fast, less is
faster. What the two sides make of each session is compared too.
Exit status: 0 measured, 1 the two sides differ, 2 wrong usage.
";

/// The sample memory of `rehearse`.
const MEMORY: usize = 16_384;

struct Options {
    rounds: u64,
    only: Option<String>,
    cut: Option<String>,
    what: What,
    ours: bool,
}

/// What is measured.
#[derive(Clone, Copy)]
enum What {
    Cutting,
    Sessions(Made),
}

/// What is made of a session.
#[derive(Clone, Copy)]
enum Made {
    Listing,
    File,
    Volts,
    Size,
}

const HEAD: &str = "session         events   Rust, events/s   proved, events/s   ratio";

fn main() {
    let options = match options() {
        Ok(options) => options,
        Err(text) => wrong(&text),
    };
    let (only, cut) = (options.only.as_deref(), options.cut.as_deref());
    match (options.what, options.ours) {
        (What::Cutting, true) => cutting::ours(cut, options.rounds),
        (What::Cutting, false) => cutting::measure(cut, options.rounds),
        (What::Sessions(made), true) => ours(made, only, options.rounds),
        (What::Sessions(made), false) => both(made, only, options.rounds),
    }
}

/// Wrong usage.
fn wrong(text: &str) -> ! {
    eprintln!("{text}\n(`bench/run --help` tells more)");
    exit(2);
}

/// The sessions that are asked for.
fn chosen(only: Option<&str>) -> Vec<sessions::Sessions> {
    let mut chosen = sessions::all();
    if let Some(name) = only {
        chosen.retain(|session| session.name == name);
        if chosen.is_empty() {
            wrong(&format!("--only: there is no session `{name}`"));
        }
    }
    chosen
}

/// The proved side alone.
fn ours(made: Made, only: Option<&str>, rounds: u64) {
    for session in &chosen(only) {
        match made {
            Made::Listing => listing(&session.file, rounds),
            Made::File => writing::ours(session, rounds),
            Made::Volts => volts::ours(session, rounds),
            Made::Size => sizes::ours(session, rounds),
        }
    }
}

fn both(made: Made, only: Option<&str>, rounds: u64) {
    let chosen = chosen(only);
    println!("{HEAD}");
    for session in &chosen {
        match made {
            Made::Listing => measure(session.name, &session.file, rounds),
            Made::File => writing::measure(session, rounds),
            Made::Volts => volts::measure(session, rounds),
            Made::Size => sizes::measure(session, rounds),
        }
    }
}

fn options() -> Result<Options, String> {
    let mut options = Options {
        rounds: 2_000,
        only: None,
        cut: None,
        what: What::Sessions(Made::Listing),
        ours: false,
    };
    let mut given = std::env::args().skip(1);
    while let Some(option) = given.next() {
        let mut word = || given.next().ok_or(format!("{option}: a word is missing"));
        match option.as_str() {
            "--rounds" => {
                let text = word()?;
                options.rounds = match text.replace(['_', ','], "").parse() {
                    Ok(rounds) if rounds > 0 => rounds,
                    _ => return Err(format!("--rounds: `{text}` is not a number from 1")),
                };
            }
            "--only" => options.only = Some(word()?),
            "--writing" => options.what = What::Sessions(Made::File),
            "--cutting" => options.what = What::Cutting,
            "--cut" => {
                options.what = What::Cutting;
                options.cut = Some(word()?);
            }
            "--volts" => options.what = What::Sessions(Made::Volts),
            "--sizes" => options.what = What::Sessions(Made::Size),
            "--ours" => options.ours = true,
            "--help" | "-h" => {
                print!("{HELP}");
                exit(0);
            }
            _ => return Err(format!("`{option}` is not an option")),
        }
    }
    Ok(options)
}

/// The proved side: its memory and its output, lent anew at every replay.
struct Ours {
    memory: Vec<u32>,
    output: Vec<u8>,
}

impl Ours {
    fn new(file: &[u8]) -> Ours {
        Ours {
            memory: vec![0; MEMORY],
            output: vec![0; nergutsai::room(file.len())],
        }
    }

    fn list(&mut self, file: &[u8]) -> usize {
        nergutsai::list_call(black_box(file), &mut self.memory, &mut self.output)
    }
}

/// The proved side alone.
fn listing(file: &[u8], rounds: u64) {
    let mut ours = Ours::new(file);
    for _ in 0..rounds {
        ours.list(file);
    }
}

fn measure(name: &str, file: &[u8], rounds: u64) {
    let mut ours = Ours::new(file);
    let length = ours.list(file);
    let mut memory = vec![0; MEMORY];
    let mut theirs = Vec::new();
    second::list(file, &mut memory, &mut theirs);
    if theirs != ours.output[..length] {
        eprintln!("{name}: the two listings differ");
        exit(1);
    }
    // All lines but the heading and the levels are records.
    let events = theirs.iter().filter(|byte| **byte == b'\n').count() - 2;

    let mut best_ours = Duration::MAX;
    let mut best_theirs = Duration::MAX;
    for _ in 0..rounds {
        let start = Instant::now();
        second::list(black_box(file), &mut memory, &mut theirs);
        best_theirs = best_theirs.min(start.elapsed());
        black_box(&theirs);
        let start = Instant::now();
        black_box(ours.list(file));
        best_ours = best_ours.min(start.elapsed());
        black_box(&ours.output);
    }
    print_row(name, events, best_theirs, best_ours);
}

/// A row of the table: the best times of both sides.
fn print_row(name: &str, events: usize, theirs: Duration, ours: Duration) {
    let rate = |time: Duration| events as f64 / time.as_secs_f64();
    println!(
        "{name:<14} {events:>7} {:>16.0} {:>18.0} {:>7.2}",
        rate(theirs),
        rate(ours),
        ours.as_secs_f64() / theirs.as_secs_f64()
    );
}
