//! A difference in words.

use crate::check::{Case, Difference, Outcome, PANICKED, UNWRITTEN};
use crate::fields::*;
use crate::shrink::base_line;
use compare::words::words;

/// The most entries and fields that are printed of one list.
const MOST: usize = 40;

pub fn case(case: &Case) -> String {
    let mut text = start(case);
    text += "events:\n";
    for (i, event) in case.events.iter().enumerate() {
        text += &format!("  {:2}. {}\n", i + 1, words(event));
        let numbers: Vec<String> = event.iter().map(|n| format!("{n:X}")).collect();
        text += &format!("      (numbers, hex: {})\n", numbers.join(" "));
    }
    text
}

fn start(case: &Case) -> String {
    let r = &case.record;
    let base = base_line(r);
    let mut text = String::new();
    let of = if r[POWERED] == 0 {
        text += "start: the unpowered record (all 0)";
        "unpowered"
    } else {
        text += &format!(
            "start: a fresh power-up with fitted {} (depth {}), range {}, filter {}, kit {} ({} channels), firmware {}",
            show(FITTED, r[FITTED]),
            depth(r[FITTED]).map_or("none".to_string(), |d| d.to_string()),
            show(RANGE, r[RANGE]),
            show(FILTER, r[FILTER]),
            show(KIT, r[KIT]),
            channels(r[KIT]).count_ones(),
            show(FIRMWARE, r[FIRMWARE]),
        );
        "fresh"
    };
    let changed: Vec<usize> = (0..RECORD).filter(|f| r[*f] != base[*f]).collect();
    text += if changed.is_empty() { "\n" } else { ", but\n" };
    for field in changed {
        text += &format!(
            "      {:<16} {:<12} ({of}: {})\n",
            name(field),
            show(field, r[field]),
            show(field, base[field])
        );
    }
    if r[POWERED] == 1 {
        let broken = broken_clauses(r);
        if !broken.is_empty() {
            text += &format!("      not sound: {}\n", broken.join("; "));
        }
    }
    text += &format!("memory: {} entries", case.memory.len());
    let filled: Vec<usize> = (0..case.memory.len())
        .filter(|place| case.memory[*place] != 0)
        .collect();
    text += if filled.is_empty() {
        ", all 0\n"
    } else {
        ", all 0 but\n"
    };
    for place in filled.iter().take(MOST) {
        text += &format!("      [{place}] {:08X}h\n", case.memory[*place]);
    }
    if filled.len() > MOST {
        text += &format!("      and {} more\n", filled.len() - MOST);
    }
    text
}

/// What each side answered, and what differs.
pub fn difference(found: &Difference) -> String {
    let mut text = format!("after event {}:\n", found.at + 1);
    text += &format!("      {:<16} {:<12} {:<12}\n", "", "model", "ours");
    let side = |outcome: &Outcome, i: usize| {
        let answer = outcome.answer[i];
        if outcome.status == PANICKED {
            "panicked".to_string()
        } else if answer == UNWRITTEN {
            "not written".to_string()
        } else if i == 1 {
            format!("{answer:08X}h")
        } else {
            format!("{answer}")
        }
    };
    let mut line = |what: &str, model: String, ours: String| {
        let mark = if model == ours { "" } else { "  <-- differ" };
        let both = format!("      {what:<16} {model:<12} {ours:<12}{mark}");
        text += both.trim_end();
        text += "\n";
    };
    if let Some(signal) = found.signal {
        let died = match signal {
            14 => "ours did not come back (signal 14, the time limit)".to_string(),
            _ => format!("ours died of signal {signal}"),
        };
        for (i, answer) in ANSWERS.iter().enumerate() {
            line(answer, side(&found.model, i), "-".to_string());
        }
        text += &format!("      {died}\n");
        return text;
    }
    if found.ours.status != 0 || found.model.status != 0 {
        let status = |outcome: &Outcome| match outcome.status {
            PANICKED => "panicked".to_string(),
            status => status.to_string(),
        };
        line("returned", status(&found.model), status(&found.ours));
    }
    for (i, answer) in ANSWERS.iter().enumerate() {
        line(answer, side(&found.model, i), side(&found.ours, i));
    }
    for (field, model, ours) in &found.fields {
        line(&name(*field), show(*field, *model), show(*field, *ours));
    }
    for (i, figure) in FIGURES.iter().enumerate() {
        let (model, ours) = (found.rates.0[i], found.rates.1[i]);
        if model != ours {
            line(figure, model.to_string(), ours.to_string());
        }
    }
    for (place, model, ours) in found.entries.iter().take(MOST) {
        line(
            &format!("memory[{place}]"),
            format!("{model:08X}h"),
            format!("{ours:08X}h"),
        );
    }
    if found.entries.len() > MOST {
        let more = found.entries.len() - MOST;
        text += &format!("      and {more} more entries differ\n");
    }
    if !found.guards_stand {
        text += "      ours wrote beside a slice that was lent to it\n";
    }
    if !found.event_kept {
        text += "      ours wrote to the event\n";
    }
    text
}
