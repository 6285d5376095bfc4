//! The sample books answer as README.md says.

use crate::run::{run, sample};

#[test]
fn samples() {
    for (name, status) in [
        ("two_queues_share_a_cell", 0),
        ("tail_hangs_loose", 0),
        ("queue_loops", 0),
        ("booking_cut_off", 0),
        ("queue_ends_and_loops", 1),
        ("cell_that_points_to_itself", 0),
    ] {
        let searched = run(&["search", &sample(name)]);
        assert_eq!(searched.status, status, "{name}");
    }
}
