//! `--coverage`: what sorts of file there were, and what the listings say.

use compare::files::Sort;
use std::collections::BTreeMap;

#[derive(Default)]
pub struct Tally {
    sorts: BTreeMap<Sort, u64>,
    records: u64,
    refusals: BTreeMap<u32, u64>,
    fates: BTreeMap<u32, u64>,
    moved: BTreeMap<u32, u64>,
    file_refusals: BTreeMap<u32, u64>,
    too_long: u64,
    bytes: u64,
}

impl Tally {
    pub fn note(&mut self, sort: Sort, bytes: &[u8], listing: &str) {
        *self.sorts.entry(sort).or_default() += 1;
        self.bytes += bytes.len() as u64;
        for line in listing.lines() {
            let words: Vec<&str> = line.split(' ').collect();
            let count = |counts: &mut BTreeMap<u32, u64>, word: &str| {
                *counts.entry(word.parse().unwrap_or(u32::MAX)).or_default() += 1;
            };
            match words[..] {
                ["FILE", refusal, _] => count(&mut self.file_refusals, refusal),
                ["TOO", "LONG"] => self.too_long += 1,
                [_, refusal, _, moved, fate, _] => {
                    self.records += 1;
                    count(&mut self.refusals, refusal);
                    count(&mut self.moved, moved);
                    count(&mut self.fates, fate);
                }
                _ => {}
            }
        }
    }

    pub fn print(&self) {
        println!("files:");
        for (sort, number) in &self.sorts {
            println!("  {number:9}  {}", sort.name());
        }
        println!("  {:9}  bytes in all", self.bytes);
        println!("listings:");
        println!("  {:9}  records played", self.records);
        rows("lines with refusal", &self.refusals);
        rows("lines with values moved", &self.moved);
        rows("lines with load fate", &self.fates);
        rows("FILE lines with refusal", &self.file_refusals);
        println!("  {:9}  TOO LONG", self.too_long);
    }
}

fn rows(what: &str, counts: &BTreeMap<u32, u64>) {
    for (number, times) in counts {
        println!("  {times:9}  {what} {number}");
    }
}
