//! Compares the reference model of the output board with another
//! implementation, event by event.

mod check;
mod coverage;
mod misuse;
mod ours;
mod print;
mod shrink;

use check::{Case, Difference, Key, Outcome, Pair};
use compare::generate::Session;
use compare::options::given;
use compare::process::{End, Progress};
use compare::{fields, model, panics, process, words};
use coverage::{Coverage, Seen};
use std::process::exit;

const HELP: &str = "\
compare/events - the second model of the output board against the proved one

usage: compare/events [--seed S] [--events N] [--keep-going] [--coverage]
                      [--only SESSION] [--no-child] [--help]

  --seed S        the seed, a number from 0 (default 1)
  --events N      about how many events; a session is finished (default 1000000)
  --keep-going    do not stop at the first difference: count all, and print each
                  kind of difference once
  --coverage      print how often each meeting of rules happened
  --only SESSION  only this session of the seed, each event printed before it is
                  tried
  --no-child      in this process (for a debugger); a crash of the other side is
                  then not reported
  --help          this text

After every event the answer, the 55 numbers of the record, the rate figures,
the sample memory and the words beside the lent slices are compared. A
difference is shrunk and printed. The last line is `N events, D differ`.
Exit status: 0 nothing differs, 1 something does, 2 wrong usage.
";

/// The other side has this long for one session, in seconds.
const SESSION_SECONDS: u32 = 20;
/// Runs that shrinking may take, and the same when each needs a child process.
const TRIES: u32 = 30_000;
const CHILD_TRIES: u32 = 3_000;
/// Kinds of difference that --keep-going prints, and how many it shrinks to
/// find them.
const KINDS: usize = 12;
const SHRUNK: usize = 100;

struct Options {
    seed: u64,
    events: u64,
    keep_going: bool,
    coverage: bool,
    only: Option<u64>,
    child: bool,
}

/// The differences so far: what to tell one kind from another by, and counts.
#[derive(Default)]
struct Known {
    kinds: Vec<Kind>,
    shrunk: usize,
    printed: usize,
}

fn main() {
    let options = options();
    panics::quiet();
    if !options.child {
        exit(run(&options, &Progress::new()));
    }
    process::watched(
        |progress| run(&options, progress),
        |progress, signal| died(&options, progress, signal),
    );
}

fn options() -> Options {
    let (mut keep_going, mut child) = (false, true);
    let given = given("compare/events", HELP, ("--events", 1_000_000), |word| {
        match word {
            "--keep-going" => keep_going = true,
            "--no-child" => child = false,
            _ => return false,
        }
        true
    });
    Options {
        seed: given.seed,
        events: given.most,
        keep_going,
        coverage: given.coverage,
        only: given.only,
        child,
    }
}

/// The whole comparison. Answers the exit status.
fn run(options: &Options, progress: &Progress) -> i32 {
    println!("ours: {}; seed {}", ours::NAME, options.seed);
    let mut differ = 0;
    progress.set(0, u64::MAX);
    let time_limit = |seconds| {
        if options.child {
            process::time_limit(seconds);
        }
    };
    time_limit(SESSION_SECONDS);
    let (calls, wrong) = misuse::check();
    println!(
        "calls that must not be understood: {calls} made, {} wrong",
        wrong.len()
    );
    for line in wrong.iter().take(KINDS) {
        println!("  {line}");
    }
    if wrong.len() > KINDS {
        println!("  and {} more", wrong.len() - KINDS);
    }
    // One difference, and no reason to leave out the events.
    if !wrong.is_empty() {
        differ += 1;
        progress.set(3, differ);
    }

    let mut pair = Pair::new(false);
    let mut events = Vec::new();
    let mut total: u64 = 0;
    let mut known = Known::default();
    let mut coverage = options.coverage.then(Coverage::default);
    let mut index = options.only.unwrap_or(0);
    let mut going = true;
    while going && total < options.events {
        let mut session = Session::new(options.seed, index);
        progress.set(0, index);
        time_limit(SESSION_SECONDS);
        pair.start(&session.record, &session.memory);
        events.clear();
        let mut same = true;
        while let Some(event) = session.next(&pair.record) {
            progress.set(1, events.len() as u64);
            if options.only.is_some() {
                println!("  {:3}. {}", events.len() + 1, words::words(&event));
            }
            events.push(event);
            let before = coverage
                .is_some()
                .then(|| (pair.record, pair.memory.clone()));
            same = pair.step(&event);
            if let (Some(coverage), Some((before, memory_before))) = (&mut coverage, &before) {
                coverage.note(&Seen {
                    before,
                    memory_before,
                    event: &event,
                    outcome: &pair.model,
                    rate: &pair.model_rate,
                    after: &pair.record,
                    later: events.len() > 1,
                });
            }
            if !same {
                break;
            }
        }
        same = same && pair.end();
        total += events.len() as u64;
        progress.set(2, total);
        if !same {
            differ += 1;
            progress.set(3, differ);
            let case = Case {
                record: session.record,
                memory: session.memory,
                events: std::mem::take(&mut events),
            };
            let last = case.events.len() - 1;
            let seen = check::difference(&pair, last, &case.events[last]);
            time_limit(10 * SESSION_SECONDS);
            report(options, index, &case, seen, total, &mut known);
            going = options.keep_going;
        }
        if options.only.is_some() {
            break;
        }
        index += 1;
    }
    if let Some(coverage) = &coverage {
        coverage.print();
    }
    println!("{total} events, {differ} differ");
    (differ > 0) as i32
}

/// What --keep-going tells differences apart by: the event and the refusals,
/// the fields that differ, and the broken clauses if one side refused for them.
type Kind = (Key, Vec<usize>, Vec<&'static str>);

fn kind(case: &Case, found: &Difference) -> Kind {
    let mut key = found.key();
    let fields = found.fields.iter().map(|f| f.0.min(fields::LEVELS));
    let mut fields: Vec<usize> = fields.collect();
    fields.dedup();
    let mut clauses = Vec::new();
    let (model, ours) = (found.model.answer[0], found.ours.answer[0]);
    if model != ours && (model == 3 || ours == 3) {
        clauses = fields::broken_clauses(&case.after(found.at).0);
        fields.clear();
        key.3 = (model == 3) as u32;
        key.5 = (ours == 3) as u32;
    }
    (key, fields, clauses)
}

/// Shrinks and prints a case that differs.
fn report(
    options: &Options,
    index: u64,
    case: &Case,
    seen: Difference,
    total: u64,
    known: &mut Known,
) {
    let Some(found) = check::run(case) else {
        println!();
        println!(
            "DIFFERENCE in session {index} of seed {}, after {total} events; it did not come \
             again when the session was repeated: the other side seems to remember something",
            options.seed
        );
        println!(
            "first seen: {}: {} (model/ours)",
            words::short(&seen.event),
            seen.names().join(", ")
        );
        print!("{}", print::case(case));
        print!("{}", print::difference(&seen));
        println!();
        return;
    };
    // The same again, or enough, in --keep-going.
    let first = kind(case, &found);
    if known.kinds.contains(&first) || known.printed == KINDS || known.shrunk == SHRUNK {
        return;
    }
    let names = found.names().join(", ");
    let event = words::short(&found.event);
    let (small, found) = shrink::shrink(case, found, TRIES, &mut check::run);
    known.shrunk += 1;
    let second = kind(&small, &found);
    let again = known.kinds.contains(&second);
    known.kinds.push(first);
    known.kinds.push(second);
    if again {
        return;
    }
    known.printed += 1;
    println!();
    println!(
        "DIFFERENCE in session {index} of seed {}, after {total} events; {} events shrunk to {}",
        options.seed,
        case.events.len(),
        small.events.len()
    );
    println!("first seen: {event}: {names} (model/ours)");
    print!("{}", print::case(&small));
    print!("{}", print::difference(&found));
    println!();
}

/// The child died: tells in which event, shrinks and prints it. Answers the
/// exit status.
fn died(options: &Options, progress: &Progress, signal: i32) -> i32 {
    let (index, event) = (progress.get(0), progress.get(1) as usize);
    let (total, differ) = (progress.get(2), progress.get(3));
    if index == u64::MAX {
        println!("ours died of signal {signal} in the calls that must not be understood");
        println!("{total} events, {} differ", differ + 1);
        return 1;
    }
    // The events up to the last, from the model alone.
    let mut session = Session::new(options.seed, index);
    let mut case = Case {
        record: session.record,
        memory: session.memory.clone(),
        events: Vec::new(),
    };
    let (mut record, mut memory) = (session.record, session.memory.clone());
    while case.events.len() <= event {
        let Some(event) = session.next(&record) else {
            break;
        };
        case.events.push(event);
        check::model_step(&mut record, &mut memory, &event);
    }
    let total = total + case.events.len() as u64;

    let limit = if signal == 14 { 1 } else { SESSION_SECONDS };
    let mut judge = |case: &Case| -> Option<Difference> {
        let end = process::in_child(|| {
            process::time_limit(limit);
            check::run(case).is_some() as i32
        });
        let End::Signal(signal) = end else {
            return None;
        };
        let at = case.events.len() - 1;
        let (mut record, mut memory) = case.after(at);
        let model = check::model_step(&mut record, &mut memory, &case.events[at]);
        Some(Difference {
            at,
            event: case.events[at],
            model,
            ours: Outcome {
                status: 0,
                answer: [check::UNWRITTEN; 4],
            },
            fields: Vec::new(),
            entries: Vec::new(),
            rates: ([0; 3], [0; 3]),
            guards_stand: true,
            event_kept: true,
            signal: Some(signal),
        })
    };
    println!();
    match judge(&case) {
        Some(found) => {
            let tries = if signal == 14 { 20 } else { CHILD_TRIES };
            let (small, found) = shrink::shrink(&case, found, tries, &mut judge);
            println!(
                "DIFFERENCE in session {index} of seed {}, after {total} events; \
                 {} events shrunk to {}",
                options.seed,
                case.events.len(),
                small.events.len()
            );
            println!(
                "first seen: {}: ours died of signal {signal}",
                words::short(&case.events[case.events.len() - 1])
            );
            print!("{}", print::case(&small));
            print!("{}", print::difference(&found));
        }
        None => println!(
            "DIFFERENCE: ours died of signal {signal} in session {index} of seed {}, \
             event {}, but not when the session was repeated",
            options.seed,
            event + 1
        ),
    }
    println!();
    println!("{total} events, {} differ", differ + 1);
    1
}
