//! The frozen corpus: session files that the generator made once, and the
//! checksums of the listings that the second model makes of them. It needs no
//! archive.

use compare::crc::crc;
use compare::files::{File, Sort};
use std::collections::{BTreeMap, BTreeSet};
use std::fs;
use std::io::{self, Read};
use std::path::Path;
use std::process::exit;

const HELP: &str = "\
corpus - session files and the checksums of their listings by the second model

usage: corpus make FOLDER            write FOLDER/stdout anew for the sessions of
                                     FOLDER/stdin, and say which lines changed
       corpus check FOLDER           say whether FOLDER/stdout is current
       corpus add FOLDER SEED COUNT REFUSAL...
                                     add so many sessions of the generator to
                                     FOLDER/stdin, each with an event that is
                                     refused by one of these numbers, then make
       corpus sums < STDIN           the checksums of the sessions of such a stdin

stdin has for each session its length in two bytes, the most significant first,
and its bytes. stdout has for each a line: its number from 1, and the CRC-32 of
its listing in eight hex digits.
Exit status: 0 done or current, 1 not current, 2 wrong usage, or a file that
cannot be read or written.
";

const LONGEST: usize = 1_000;
/// Of so many sessions of a sort one is taken.
const CHOICE: usize = 4;
/// So many files are looked through at most.
const FILES: u64 = 1_000_000;
/// What a session costs beside its bytes, for `richness`.
const FIXED: usize = 200;

fn main() {
    let words: Vec<String> = std::env::args().skip(1).collect();
    let words: Vec<&str> = words.iter().map(String::as_str).collect();
    let done = match words[..] {
        ["make", folder] => make(Path::new(folder)),
        ["check", folder] => check(Path::new(folder)),
        ["add", folder, seed, count, ref refusals @ ..] if !refusals.is_empty() => {
            match (seed.parse(), count.parse()) {
                (Ok(seed), Ok(count)) => add(Path::new(folder), seed, count, refusals),
                _ => Err(format!("{seed}, {count}: not two numbers")),
            }
        }
        ["sums"] => sums_of_input(),
        ["--help", ..] => {
            print!("{HELP}");
            Ok(0)
        }
        _ => {
            eprint!("{HELP}");
            Ok(2)
        }
    };
    exit(done.unwrap_or_else(|why| {
        eprintln!("{why}");
        2
    }));
}

fn make(folder: &Path) -> Result<i32, String> {
    let is = sums(sessions_of(&read(&folder.join("stdin"))?)?);
    let path = folder.join("stdout");
    let was = String::from_utf8(read(&path).unwrap_or_default()).unwrap_or_default();
    fs::write(&path, &is).map_err(|error| format!("{}: {error}", path.display()))?;
    let was: BTreeSet<&str> = was.lines().collect();
    let changed: Vec<&str> = is
        .lines()
        .filter(|line| !was.contains(line))
        .filter_map(|line| line.split_once(' '))
        .map(|(number, _)| number)
        .collect();
    println!(
        "{}: {} sessions, {} lines changed",
        folder.display(),
        is.lines().count(),
        changed.len()
    );
    if !changed.is_empty() {
        println!("{}", changed.join(" "));
    }
    Ok(0)
}

fn check(folder: &Path) -> Result<i32, String> {
    let is = sums(sessions_of(&read(&folder.join("stdin"))?)?);
    let path = folder.join("stdout");
    if read(&path)? != is.as_bytes() {
        println!("{} differs", path.display());
        println!("the corpus is not current: run `compare/corpus make`");
        return Ok(1);
    }
    println!("the corpus is current: {} sessions", is.lines().count());
    Ok(0)
}

fn add(folder: &Path, seed: u64, count: usize, refusals: &[&str]) -> Result<i32, String> {
    let path = folder.join("stdin");
    let mut stdin = read(&path)?;
    let more = chosen(seed, count, refusals);
    if more.len() < count {
        return Err(format!(
            "only {} such sessions in {FILES} files: nothing is added",
            more.len()
        ));
    }
    for session in more {
        stdin.extend_from_slice(&(session.len() as u16).to_be_bytes());
        stdin.extend_from_slice(&session);
    }
    fs::write(&path, &stdin).map_err(|error| format!("{}: {error}", path.display()))?;
    make(folder)
}

fn sums_of_input() -> Result<i32, String> {
    let mut all = Vec::new();
    io::stdin()
        .read_to_end(&mut all)
        .map_err(|error| format!("standard input: {error}"))?;
    print!("{}", sums(sessions_of(&all)?));
    Ok(0)
}

fn read(path: &Path) -> Result<Vec<u8>, String> {
    fs::read(path).map_err(|error| format!("{}: {error}", path.display()))
}

/// The sessions of a stdin.
fn sessions_of(stdin: &[u8]) -> Result<Vec<&[u8]>, String> {
    let mut sessions = Vec::new();
    let mut rest = stdin;
    while let [high, low, after @ ..] = rest {
        let length = *high as usize * 256 + *low as usize;
        let Some(session) = after.get(..length) else {
            break;
        };
        sessions.push(session);
        rest = &after[length..];
    }
    if !rest.is_empty() {
        return Err("the input ends inside a session".to_string());
    }
    Ok(sessions)
}

/// Short ones of the generator with such a refusal: of every few of a sort the
/// richest one.
fn chosen(seed: u64, count: usize, refusals: &[&str]) -> Vec<Vec<u8>> {
    let mut sessions = Vec::new();
    let mut waiting: BTreeMap<Sort, Vec<Vec<u8>>> = BTreeMap::new();
    for File { sort, bytes } in (0..FILES).map(|index| File::new(seed, index)) {
        if sessions.len() == count {
            break;
        }
        if sort.is_long() || bytes.len() > LONGEST || !is_refused(&bytes, refusals) {
            continue;
        }
        let of = waiting.entry(sort).or_default();
        of.push(bytes);
        if sort != Sort::EachCut && of.len() < CHOICE {
            continue;
        }
        let richest = of.drain(..).max_by_key(|bytes| richness(bytes));
        sessions.extend(richest);
    }
    sessions
}

/// Whether an event of the session is refused by one of these numbers.
fn is_refused(bytes: &[u8], refusals: &[&str]) -> bool {
    second::listing(bytes).lines().any(|line| {
        let fields: Vec<&str> = line.split(' ').collect();
        matches!(fields[..], [_, refusal, _, _, _, _] if refusals.contains(&refusal))
    })
}

/// How many different answers a session's bytes get, in thousandths.
fn richness(bytes: &[u8]) -> usize {
    let listing = second::listing(bytes);
    // A line without its record number.
    let answers: BTreeSet<&str> = listing
        .lines()
        .filter_map(|line| line.split_once(' '))
        .map(|two| two.1)
        .collect();
    1000 * answers.len() / (bytes.len() + FIXED)
}

/// The lines of a stdout.
fn sums(sessions: Vec<&[u8]>) -> String {
    let mut text = String::new();
    for (i, session) in sessions.into_iter().enumerate() {
        let sum = crc(second::listing(session).as_bytes());
        text += &format!("{} {sum:08X}\n", i + 1);
    }
    text
}
