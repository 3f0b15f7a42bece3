//! `--coverage`: lines that are counted, in the order in which they are first
//! looked at; a line that never happened is printed with 0.

use std::fmt::Arguments;

#[derive(Default)]
pub struct Counts {
    lines: Vec<(String, u64)>,
    /// The line that is next.
    at: usize,
}

impl Counts {
    /// From the first line again: each call looks at the same lines.
    pub fn begin(&mut self) {
        self.at = 0;
    }

    pub fn hit(&mut self, name: Arguments, happened: bool) {
        if self.lines.len() == self.at {
            self.lines.push((name.to_string(), 0));
        }
        self.lines[self.at].1 += happened as u64;
        self.at += 1;
    }

    /// A line of its own, and each of these meetings.
    pub fn hits(&mut self, name: &str, happened: bool, meetings: &[(&str, bool)]) {
        self.hit(format_args!("{name}"), happened);
        for (meeting, met) in meetings {
            self.hit(format_args!("{name}, {meeting}"), happened && *met);
        }
    }

    pub fn print(&self) {
        for (name, times) in &self.lines {
            println!("  {times:9}  {name}");
        }
    }
}
