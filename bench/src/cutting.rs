//! How fast a cut of a recording is written, beside a plain loop that writes the same bytes.

use super::{print_row, wrong, HEAD};
use nergutsai::{cut, cut_room, Order};
use std::hint::black_box;
use std::process::exit;
use std::time::{Duration, Instant};

/// Groups of so many channels, and which of them are chosen.
struct Choice {
    name: &'static str,
    channels: u32,
    mask: u32,
}

const CHOICES: [Choice; 4] = [
    Choice {
        name: "all",
        channels: 20,
        mask: 0xF_FFFF,
    },
    Choice {
        name: "alternate",
        channels: 20,
        mask: 0x5_5555,
    },
    Choice {
        name: "last",
        channels: 20,
        mask: 0x8_0000,
    },
    Choice {
        name: "single",
        channels: 1,
        mask: 1,
    },
];

/// As many values as a session file for `rehearse` has room for.
const VALUES: usize = 8_000;

impl Choice {
    fn groups(&self) -> usize {
        VALUES / self.mask.count_ones() as usize
    }

    fn recording(&self) -> Vec<u16> {
        let numbers = self.groups() * self.channels as usize;
        (0..numbers).map(|i| (i * 40_503) as u16).collect()
    }

    fn order<'a>(&self, recording: &'a [u16]) -> Order<'a> {
        Order {
            recording,
            channels: self.channels,
            first: 0,
            last: self.groups() - 1,
            mask: self.mask,
        }
    }
}

/// The proved side alone.
#[inline(never)]
pub fn ours(only: Option<&str>, rounds: u64) {
    let mut output = vec![0; cut_room(VALUES, 1)];
    for choice in chosen(only) {
        let recording = choice.recording();
        let order = choice.order(&recording);
        for _ in 0..rounds {
            black_box(cut(black_box(&order), &mut output, 0)).ok();
        }
    }
}

/// Both sides, in turns; each must write the same bytes.
#[inline(never)]
pub fn measure(only: Option<&str>, rounds: u64) {
    let chosen = chosen(only);
    println!("{HEAD}");
    for choice in chosen {
        let recording = choice.recording();
        let order = choice.order(&recording);
        let length = cut_room(VALUES, 1);
        let (mut ours, mut theirs) = (vec![0; length], vec![0; length]);
        let (mut best_ours, mut best_theirs) = (Duration::MAX, Duration::MAX);
        for _ in 0..rounds {
            let start = Instant::now();
            black_box(plain(black_box(&order), &mut theirs));
            best_theirs = best_theirs.min(start.elapsed());
            let start = Instant::now();
            black_box(cut(black_box(&order), &mut ours, 0)).ok();
            best_ours = best_ours.min(start.elapsed());
        }
        if ours != theirs {
            eprintln!("{}: the two sides differ", choice.name);
            exit(1);
        }
        print_row(choice.name, VALUES, best_theirs, best_ours);
    }
}

fn chosen(only: Option<&str>) -> impl Iterator<Item = &'static Choice> + '_ {
    if let Some(name) = only.filter(|name| CHOICES.iter().all(|choice| choice.name != *name)) {
        wrong(&format!("--cut: there is no cut `{name}`"));
    }
    CHOICES
        .iter()
        .filter(move |choice| only.is_none_or(|name| choice.name == name))
}

/// The plain loop: the write of the mask, then one for each chosen number. It asks nothing of the order.
#[inline(never)]
fn plain(order: &Order, output: &mut [u8]) -> usize {
    output[0] = 1;
    let mut at = 1;
    let mut write = |offset: u8, value: u32| {
        let [a, b, c, d] = value.to_be_bytes();
        output[at..at + 8].copy_from_slice(&[0, 6, 2, offset, a, b, c, d]);
        at += 8;
        at
    };
    let mut left = (order.last - order.first + 1) * order.mask.count_ones() as usize;
    let mut end = write(0x04, order.mask);
    for group in order.first..=order.last {
        for channel in 0..order.channels as usize {
            if order.mask & 1 << channel != 0 {
                let number = order.recording[group * order.channels as usize + channel];
                let mark = if left == 1 { 0x1_0000 } else { 0 };
                left -= 1;
                end = write(0x18, u32::from(number) | mark);
            }
        }
    }
    end
}
