//! Refusals and fates know their numbers, and have words.

use nergutsai::{Fate, Refusal};

/// The numbers of documents 01 and 02 that have landed.
fn landed(number: u32) -> bool {
    matches!(number, 1..=23 | 30 | 32)
}

#[test]
fn every_refusal_has_its_number_and_no_other_number_has_one() {
    for number in (0..1000).chain([u32::MAX]) {
        let refusal = Refusal::of(number);
        assert_eq!(refusal.is_some(), landed(number), "{number}");
        assert_eq!(refusal.map_or(number, Refusal::number), number);
    }
    let numbers: Vec<u32> = Refusal::ALL.map(Refusal::number).into();
    assert!(numbers.is_sorted());
    assert_eq!(
        numbers.len(),
        (0..100).filter(|number| landed(*number)).count()
    );
}

#[test]
fn every_refusal_says_what_is_wrong_and_what_to_do() {
    for refusal in Refusal::ALL {
        assert!(refusal.to_string().contains(": "), "{refusal}");
    }
}

#[test]
fn every_fate_has_its_number_and_no_other_number_has_one() {
    let fates = [
        (Fate::NoLoad, "no load"),
        (Fate::Stored, "stored"),
        (Fate::LostToFull, "lost to a full buffer"),
        (Fate::LostToClosed, "lost to a closed buffer"),
    ];
    for (number, (fate, words)) in (0..).zip(fates) {
        assert_eq!(Fate::of(number), Some(fate));
        assert_eq!(fate.number(), number);
        assert_eq!(fate.to_string(), words);
    }
    assert_eq!(Fate::of(4), None);
    assert_eq!(Fate::of(u32::MAX), None);
}
