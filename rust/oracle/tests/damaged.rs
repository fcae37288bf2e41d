//! The Rust face on the oracle's inputs, good and damaged, in the build that checks every sum: it
//! answers as the crate does, and never panics. The oracle itself does the same in release.

use oracle::comparisons::all::of_face;
use oracle::comparisons::run::Plan;
use oracle::subjects::the_crate::at_hand;

#[test]
fn the_face_answers_as_the_crate_does() {
    if !at_hand("damaged") {
        return;
    }
    let plan = Plan {
        seed: 2,
        times: 1,
        part_of: 50,
        enough: 1,
    };
    for kind in of_face(plan) {
        let report = kind();
        assert_eq!(report.smallest, None, "{}", report.name);
    }
}
