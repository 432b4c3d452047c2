//! The example of a cache protocol loses no update.

#[allow(dead_code)]
#[path = "../examples/cache.rs"]
mod cache;

#[test]
fn no_update_is_lost_and_no_read_is_stale() {
    let wanted = cache::Counts {
        last: 400,
        ..cache::Counts::default()
    };
    for _ in 0..5 {
        assert_eq!(cache::run().expect("a run"), wanted);
    }
}
