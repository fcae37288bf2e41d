//! Every wrong port, in the order in which they are tried.

use crate::wrong::named::Wrong;
use crate::wrong::{lines, loads, marks, places, starts, sums, texts, writes};

/// Every wrong port, but for those whose chunk reader or page writer is wrong, or what they do with S-records.
pub fn ports() -> Vec<Wrong> {
    let parts = [
        sums::all(),
        lines::judges(),
        lines::digits(),
        places::all(),
        lines::pools(),
        texts::all(),
        writes::records(),
        writes::objects(),
        loads::answers(),
        loads::placings(),
        loads::starts(),
        loads::others(),
        starts::all(),
        marks::all(),
    ];
    parts.into_iter().flatten().collect()
}
