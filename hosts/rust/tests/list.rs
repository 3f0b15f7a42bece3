//! Listings through the wrapper: the text, and the function itself on outputs of every sort.

mod common;
mod power_up;

use common::{damaged, session, JUNK};
use nergutsai::{list, list_call, room, Event};
use power_up::UP;

#[test]
fn a_listing_is_text() {
    let levels = [" 8000"; 20].concat();
    let expected = format!("REHEARSAL 1\n1 0 00000000 0 0 0\nLEVELS{levels}\n");
    assert_eq!(list(&session(&[UP]), &mut [JUNK; 8]), expected);
    // What is wrong with a file stands in its listing.
    for (file, refusal, number) in damaged(&session(&[UP])) {
        let text = list(&file, &mut [0; 8]);
        assert!(text.contains(&format!("\nFILE {number} 10\n")), "{refusal}");
    }
    assert_eq!(list(&[1; 65_537], &mut [0; 8]), "TOO LONG\n");
}

#[test]
fn the_function_itself_writes_the_same_or_nothing() {
    for file in [
        session(&[UP, Event::Tick]),
        vec![1],
        vec![],
        vec![1; 65_537],
    ] {
        let text = list(&file, &mut [0; 8]);
        let mut output = vec![b'x'; room(file.len()) + 1];
        let length = list_call(&file, &mut [0; 8], &mut output);
        assert_eq!(output[..length], *text.as_bytes());
        assert!(length <= room(file.len()));
        output.fill(b'x');
        output.truncate(room(file.len()) - 1);
        assert_eq!(list_call(&file, &mut [0; 8], &mut output), 0);
        assert!(output.iter().all(|byte| *byte == b'x'));
    }
}
