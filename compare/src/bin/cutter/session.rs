//! What the session of a good order must be, told from the recording and the order
//! alone: "one write to 04h, then one to 18h for each value, group after group in
//! ascending channels, EOF on the very last and on no other."

use super::order::Order;
use compare::fields::*;
use compare::words::words;
use compare::written::read_back;

/// The events of an order.
fn events(order: &Order) -> Vec<Event> {
    let chosen = order.chosen();
    let mut events = vec![write(0x04, order.mask)];
    for group in order.first..=order.last {
        for channel in &chosen {
            let number = order.number(group, *channel);
            events.push(write(0x18, number as u32));
        }
    }
    if let Some(last) = events.last_mut() {
        last[2] += EOF;
    }
    events
}

/// What is read back must be these. Answers what else there is.
pub fn look_at(session: &[u8], order: &Order) -> Result<(), String> {
    let expected = events(order);
    let rows = read_back(session)?;
    if rows == expected.as_flattened() {
        return Ok(());
    }
    let rows: Vec<&[u32]> = rows.chunks(6).collect();
    let both = rows.iter().zip(&expected);
    let same = both.take_while(|(row, event)| *row == event).count();
    let said = |event: Option<&[u32]>| match event.and_then(|event| event.first_chunk()) {
        Some(event) => words(event),
        None => "none".to_string(),
    };
    let read = said(rows.get(same).copied());
    let expected = said(expected.get(same).map(|event| &event[..]));
    let number = same + 1;
    Err(format!(
        "event {number} read back: {read}, expected: {expected}"
    ))
}
