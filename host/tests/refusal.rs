//! Refusals: numbers and words.

use market_time_host::Refusal;
use std::collections::BTreeSet;

#[test]
fn each_number_has_a_name_and_words_of_its_own() {
    let mut words = BTreeSet::new();
    for number in 1..=16 {
        let refusal = Refusal::of(number);
        assert!(!matches!(refusal, Refusal::Unknown(_)));
        assert_eq!(refusal.number(), number);
        assert!(refusal.to_string().ends_with(&format!(" ({number})")));
        words.insert(refusal.to_string());
        assert_eq!(refusal.is_of_book(), number <= 9);
    }
    assert_eq!(words.len(), 16);
}

#[test]
fn another_number_is_kept() {
    for number in [0, 17, u32::MAX] {
        assert_eq!(Refusal::of(number), Refusal::Unknown(number));
        assert_eq!(Refusal::of(number).number(), number);
    }
}
