//! The example of a replayed journal ends with two equal lock managers.

#[allow(dead_code)]
#[path = "../examples/hub_replay.rs"]
mod hub_replay;

#[test]
fn a_replayed_file_is_equal() {
    assert_eq!(hub_replay::run().expect("a run"), (3, true));
}
