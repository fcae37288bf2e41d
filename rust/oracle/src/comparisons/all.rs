//! Every kind of comparison, in the order in which they are run.

use crate::comparisons::run::{Kind, Plan};
use crate::comparisons::seen::{Answers, Places};
use crate::comparisons::{
    asks, chunks, dumps, forms, joined, lights, lines, loads, long, pages, salvage, srecords,
    streams, sums, tables, texts, writes,
};
use crate::subjects::face::RealFace;
use crate::subjects::port::Port;

/// What is compared with the port, through its C entry points.
pub fn of_port<'a>(port: &'a dyn Port, plan: Plan) -> Vec<Kind<'a>> {
    let parts = [
        sums::of_port(port, plan),
        lines::of_port(port, plan),
        texts::of_port(port, plan),
        writes::of_port(port, plan),
        loads::of_port(port, plan),
        long::of_port(port, plan),
    ];
    parts.into_iter().flatten().collect()
}

/// What is compared with the port's reader of chunks.
pub fn of_chunks<'a>(port: &'a dyn Port, plan: Plan) -> Vec<Kind<'a>> {
    let parts = [joined::of_port(port, plan), chunks::of_port(port, plan)];
    parts.into_iter().flatten().collect()
}

/// What is compared with the face.
pub fn of_face(plan: Plan) -> Vec<Kind<'static>> {
    let parts = [
        lines::of_face(plan),
        texts::of_face(plan),
        chunks::of_face(plan),
        dumps::of_face(&RealFace, plan),
        pages::of_face(plan),
        writes::of_face(plan),
        loads::of_face(plan),
        long::of_face(plan),
        srecords::of_face(plan),
        salvage::of_face(plan),
        tables::of_face(plan),
        asks::of_face(plan),
        lights::of_face(plan),
        streams::of_face(plan),
    ];
    parts.into_iter().flatten().collect()
}

/// The answers that are to be called for.
fn answers() -> impl Iterator<Item = &'static Answers> {
    [&lines::SEEN.answers, &texts::SEEN.answers]
        .into_iter()
        .chain(&writes::SEEN)
        .chain([
            &loads::SEEN.answers,
            &loads::SEEN_STARTS,
            &loads::SEEN_CONFLICTS,
            &joined::SEEN.answers,
            &joined::SEEN_END.answers,
        ])
        .chain(&pages::SEEN)
        .chain(srecords::answers())
        .chain(&salvage::SEEN)
        .chain(&tables::SEEN)
        .chain(&asks::SEEN)
        .chain(&lights::SEEN)
        .chain(&streams::SEEN)
        .chain(&loads::SEEN_WRAPS)
}

/// The places that are to be called for.
fn places() -> impl Iterator<Item = &'static Places> {
    [
        &lines::SEEN.places,
        &texts::SEEN.places,
        &loads::SEEN.places,
        &joined::SEEN.places,
        &joined::SEEN_END.places,
    ]
    .into_iter()
    .chain(&joined::SEEN_CUTS)
    .chain(srecords::places())
    .chain([&salvage::SEEN_PLACES, &asks::SEEN_PLACES])
}

/// Prints how often each answer, each kind of place, each form of a page and each way to stop was called
/// for, and says whether none is missing.
pub fn show_seen() -> bool {
    let mut whole = true;
    for row in answers() {
        whole &= row.show();
    }
    for row in places() {
        whole &= row.show();
    }
    whole & forms::show_seen() & dumps::show_seen() & salvage::show_seen() & tables::show_seen()
}
