//! What each refusal means, read from the page that says it.

use kobdrieft_model::reasons::reason;
use std::collections::BTreeSet;

#[test]
fn every_refusal_has_a_meaning_of_its_own() {
    let meanings: BTreeSet<&str> = (1..=23).chain([27, 33]).map(reason).collect();
    assert_eq!(meanings.len(), 25);
    for meaning in meanings {
        assert!(!meaning.is_empty() && meaning != "no such refusal");
        assert!(!meaning.contains(['|', '`', '*', '[', '<', '&']), "{meaning}");
        assert_eq!(meaning, meaning.trim());
    }
}

#[test]
fn other_numbers_have_none() {
    for number in [0, 24, 26, 28, 32, 34, 255] {
        assert_eq!(reason(number), "no such refusal");
    }
}
