//! What the tests of comparisons share: how much is compared, and that nothing disagrees.

use oracle::comparisons::run::{Kind, Plan};

pub const PLAN: Plan = Plan {
    seed: 2,
    times: 1,
    part_of: 50,
    enough: 1,
};

/// Each kind has inputs, and finds nothing wrong.
pub fn are_right(kinds: Vec<Kind>) {
    for kind in kinds {
        let report = kind();
        assert_eq!(report.smallest, None, "{}", report.name);
        assert!(report.inputs > 0, "{}", report.name);
    }
}
