//! Makes a case that differs as short and plain as it can.

use crate::check::{Case, Difference, Key};
use crate::fields::*;

/// Runs a case and says what differs, if anything.
pub type Judge<'a> = dyn FnMut(&Case) -> Option<Difference> + 'a;

struct Shrinker<'a, 'b> {
    best: Case,
    found: Difference,
    cost: u64,
    key: Key,
    tries: u32,
    judge: &'a mut Judge<'b>,
}

/// The plainest case that still shows the difference: the plainer of the two
/// that come of keeping the events and of starting right before the last one.
pub fn shrink(
    case: &Case,
    found: Difference,
    tries: u32,
    judge: &mut Judge<'_>,
) -> (Case, Difference) {
    let mut best = case.clone();
    best.events.truncate(found.at + 1);
    let key = found.key();
    let mut late = best.clone();
    let before = best.events.len() - 1;

    let mut shrinker = Shrinker {
        cost: cost(&best),
        best,
        found,
        key,
        tries,
        judge,
    };
    // First the record and memory right before the last event: this makes the
    // rest quick if the other side has no memory of its own.
    (late.record, late.memory) = late.after(before);
    late.events.drain(..before);
    let folded = (shrinker.judge)(&late).filter(|found| found.key() == key);
    shrinker.to_the_end();
    let Some(folded) = folded else {
        return (shrinker.best, shrinker.found);
    };
    let mut other = Shrinker {
        cost: cost(&late),
        best: late,
        found: folded,
        key,
        tries,
        judge: shrinker.judge,
    };
    other.to_the_end();
    if other.cost < shrinker.cost {
        (other.best, other.found)
    } else {
        (shrinker.best, shrinker.found)
    }
}

impl Shrinker<'_, '_> {
    fn to_the_end(&mut self) {
        loop {
            let cost = self.cost;
            self.drop_events();
            self.fold();
            self.plainer_start();
            self.shallower();
            self.plainer_memory();
            self.plainer_record();
            self.plainer_events();
            if self.cost == cost && self.tries > 0 {
                self.scaled_down();
            }
            if self.cost == cost {
                return;
            }
        }
    }

    /// Takes the candidate if it is plainer and shows the same difference.
    fn attempt(&mut self, mut candidate: Case) -> bool {
        if self.tries == 0 || cost(&candidate) >= self.cost {
            return false;
        }
        self.tries -= 1;
        match (self.judge)(&candidate) {
            Some(found) if found.key() == self.key => {
                candidate.events.truncate(found.at + 1);
                self.cost = cost(&candidate);
                self.best = candidate;
                self.found = found;
                true
            }
            _ => false,
        }
    }

    fn attempt_with(&mut self, change: impl FnOnce(&mut Case)) -> bool {
        let mut candidate = self.best.clone();
        change(&mut candidate);
        self.attempt(candidate)
    }

    fn drop_events(&mut self) {
        let mut chunk = self.best.events.len() / 2;
        while chunk > 0 {
            let mut at = 0;
            while at + chunk <= self.best.events.len() {
                if !self.attempt_with(|case| {
                    case.events.drain(at..at + chunk);
                }) {
                    at += chunk;
                }
            }
            chunk /= 2;
        }
    }

    /// Starts after the first events instead of with them.
    fn fold(&mut self) {
        let mut n = 1;
        while n < self.best.events.len() {
            let mut candidate = self.best.clone();
            (candidate.record, candidate.memory) = candidate.after(n);
            candidate.events.drain(..n);
            if !self.attempt(candidate) {
                n += 1;
            }
        }
    }

    /// The whole record or memory at once.
    fn plainer_start(&mut self) {
        self.attempt_with(|case| case.record = [0; RECORD]);
        self.attempt_with(|case| case.record = fresh(&[0; RECORD]));
        self.attempt_with(|case| case.record = fresh(&case.record));
        self.attempt_with(|case| case.record[LEVELS..].fill(0x8000));
        self.attempt_with(|case| case.record[LEVELS..].fill(0));
        self.attempt_with(|case| case.memory.fill(0));
        self.attempt_with(|case| {
            for entry in &mut case.memory {
                *entry &= 0x1_FFFF;
            }
        });
    }

    /// A lesser fitted code, with the memory cut to match.
    fn shallower(&mut self) {
        for fitted in 0..self.best.record[FITTED].min(15) {
            let done = self.attempt_with(|case| {
                let r = &mut case.record;
                let new = 8 << fitted;
                let old = depth(r[FITTED]).unwrap_or(new);
                // What is too long or too short stays so by as much.
                let over = case.memory.len() as i64 - old as i64;
                let length = (new as i64 + over).max(0) as usize;
                r[FITTED] = fitted;
                r[FIRST] = r[FIRST].min(new - 1);
                r[COUNT] = r[COUNT].min(new);
                case.memory.resize(length, 0);
            });
            if done {
                break;
            }
        }
    }

    /// A lesser fitted code or kit with the size code, first and count scaled
    /// down and every entry filled. That is only plainer once the entries are
    /// cleared again, so it is taken or left after that.
    fn scaled_down(&mut self) {
        let r = self.best.record;
        let all = self.best.memory.iter().fold(0, |all, entry| all | entry);
        if r[FITTED] > 15 || r[KIT] > 2 || (r[FITTED] == 0 && r[KIT] == 0) {
            return;
        }
        for fitted in 0..=r[FITTED] {
            for kit in 0..=r[KIT] {
                if fitted == r[FITTED] && kit == r[KIT] {
                    continue;
                }
                let new = 8 << fitted;
                let by = r[FITTED] - fitted;
                let mut plain = self.best.clone();
                plain.record[FITTED] = fitted;
                plain.record[KIT] = kit;
                if r[MASK] & !channels(kit) != 0 {
                    plain.record[MASK] = channels(kit);
                }
                if r[CODE] < r[FITTED] {
                    plain.record[CODE] = r[CODE].saturating_sub(by);
                }
                plain.record[FIRST] = (r[FIRST] >> by).min(new - 1);
                plain.memory = (0..new).map(|i| (all & !0xFFFF) | (i + 1)).collect();
                let count = r[COUNT] >> by;
                let ones = plain.record[MASK].count_ones();
                for count in [count, count + 1, ones] {
                    plain.record[COUNT] = count.min(new);
                    if self.taken_later(&plain) {
                        return;
                    }
                }
            }
        }
    }

    /// Takes the candidate if it is plainer after its memory and record have
    /// been made plainer.
    fn taken_later(&mut self, candidate: &Case) -> bool {
        if self.tries == 0 {
            return false;
        }
        self.tries -= 1;
        let mut candidate = candidate.clone();
        let found = match (self.judge)(&candidate) {
            Some(found) if found.key() == self.key => found,
            _ => return false,
        };
        candidate.events.truncate(found.at + 1);
        let cost = cost(&candidate);
        let best = std::mem::replace(&mut self.best, candidate);
        let found = std::mem::replace(&mut self.found, found);
        let cost = std::mem::replace(&mut self.cost, cost);
        self.plainer_memory();
        self.plainer_record();
        if self.cost < cost {
            return true;
        }
        (self.best, self.found, self.cost) = (best, found, cost);
        false
    }

    fn plainer_memory(&mut self) {
        // Its length.
        let exact = depth(self.best.record[FITTED]).unwrap_or(8) as usize;
        for length in [exact, exact.saturating_sub(1), exact + 1, 0] {
            self.attempt_with(|case| case.memory.resize(length, 0));
        }
        // The oldest value at place 0.
        self.attempt_with(|case| {
            let first = case.record[FIRST] as usize;
            if exact <= case.memory.len() && first < exact {
                case.memory[..exact].rotate_left(first);
                case.record[FIRST] = 0;
            }
        });
        // Entries, many at once and then one at a time.
        let mut chunk = self.best.memory.len();
        while chunk > 0 {
            let mut at = 0;
            while at < self.best.memory.len() {
                let end = (at + chunk).min(self.best.memory.len());
                if self.best.memory[at..end].iter().any(|entry| *entry != 0) {
                    self.attempt_with(|case| case.memory[at..end].fill(0));
                }
                at += chunk;
            }
            chunk /= 2;
        }
        // Bits of the entries that are left.
        for place in 0..self.best.memory.len() {
            if self.best.memory[place] == 0 {
                continue;
            }
            for plain in [1, EOF, 0xFFFF_0000 & self.best.memory[place]] {
                self.attempt_with(|case| case.memory[place] = plain);
            }
            for bit in (0..32).rev() {
                if self.best.memory[place] >> bit & 1 == 1 {
                    self.attempt_with(|case| case.memory[place] &= !(1 << bit));
                }
            }
        }
    }

    fn plainer_record(&mut self) {
        for field in 0..RECORD {
            let value = self.best.record[field];
            let base = base_line(&self.best.record)[field];
            for plain in [base, 0, 1, value / 2] {
                self.attempt_with(|case| case.record[field] = plain);
            }
            while self.best.record[field] > 0 && self.attempt_with(|case| case.record[field] -= 1) {
            }
            for bit in (0..32).rev() {
                let now = self.best.record[field];
                if (now ^ base) >> bit & 1 == 1 {
                    self.attempt_with(|case| case.record[field] = now ^ 1 << bit);
                }
            }
        }
        // A lesser kit, with the mask cut to match.
        for kit in 0..self.best.record[KIT].min(2) {
            self.attempt_with(|case| {
                case.record[KIT] = kit;
                case.record[MASK] &= channels(kit);
            });
        }
        // Numbers that go together.
        self.attempt_with(|case| {
            case.record[FIRST] = 0;
            case.record[COUNT] = 0;
        });
        self.attempt_with(|case| {
            for field in [BURSTS, BURST, SOFTWARE] {
                case.record[field] = 0;
            }
        });
        self.attempt_with(|case| {
            for field in [CIRCULAR, PENDING, OPENED] {
                case.record[field] = 0;
            }
        });
    }

    fn plainer_events(&mut self) {
        let mut at = 0;
        while at < self.best.events.len() {
            for kind in [TICK, OUTSIDE] {
                self.attempt_event(at, simple(kind));
            }
            for field in 1..6 {
                let now = |this: &Self| this.best.events.get(at).map_or(0, |e| e[field]);
                for plain in [0, 1, now(self) / 2, now(self).saturating_sub(1)] {
                    self.attempt_field(at, field, plain);
                }
                for bit in (0..32).rev() {
                    let value = now(self);
                    if value >> bit & 1 == 1 {
                        self.attempt_field(at, field, value & !(1 << bit));
                    }
                }
            }
            at += 1;
        }
    }

    fn attempt_field(&mut self, at: usize, field: usize, value: u32) {
        if let Some(mut event) = self.best.events.get(at).copied() {
            event[field] = value;
            self.attempt_event(at, event);
        }
    }

    fn attempt_event(&mut self, at: usize, event: Event) {
        if at < self.best.events.len() {
            self.attempt_with(|case| case.events[at] = event);
        }
    }
}

/// What a record is printed against: the unpowered record, or the fresh
/// power-up with the same settings.
pub fn base_line(record: &Record) -> Record {
    if record[POWERED] == 0 {
        [0; RECORD]
    } else {
        fresh(record)
    }
}

/// How far a number is from a plain one.
fn bits(number: u32) -> u64 {
    (number.count_ones() + 2 * (32 - number.leading_zeros())) as u64
}

/// How long and how odd a case is.
fn cost(case: &Case) -> u64 {
    let mut cost = 0;
    for event in &case.events {
        cost += 40 + (event[0] > OUTSIDE) as u64;
        cost += event[1..].iter().map(|field| bits(*field)).sum::<u64>();
    }
    let base = base_line(&case.record);
    for (value, base) in case.record.iter().zip(&base) {
        if value != base {
            cost += 30 + bits(value ^ base);
        }
    }
    if case.record[POWERED] != 0 {
        for setting in [RANGE, FILTER, KIT, FIRMWARE, FITTED] {
            if case.record[setting] != 0 {
                cost += 10 + bits(case.record[setting]);
            }
        }
    }
    if depth(case.record[FITTED]).map(|d| d as usize) != Some(case.memory.len()) {
        cost += 12;
    }
    cost += bits(case.memory.len() as u32);
    for entry in &case.memory {
        if *entry != 0 {
            cost += 8 + bits(*entry);
        }
    }
    cost
}
