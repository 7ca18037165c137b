//! The fixed scenarios get the answers that were worked out by hand.
use array::examples::all;
use array::player::answers;

#[test]
fn examples_are_answered_as_by_hand() {
    for example in all() {
        assert_eq!(answers(example.scenario.as_bytes()), example.answers, "{}", example.name);
    }
}
