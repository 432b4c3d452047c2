//! The example of a lost node counts to the end.

#[allow(dead_code)]
#[path = "../examples/hub_lost.rs"]
mod hub_lost;

#[test]
fn a_lost_node_leaves_its_lock() {
    for _ in 0..5 {
        assert_eq!(hub_lost::run().expect("a run"), 500);
    }
}
