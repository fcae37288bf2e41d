//! Long lines, each by itself, in a text, and in a text to load.

use crate::comparisons::run::{by_length, Kind, Plan};
use crate::comparisons::{chunks, lines, loads, texts};
use crate::subjects::port::Port;

/// What is compared with the port.
pub fn of_port<'a>(port: &'a dyn Port, plan: Plan) -> Vec<Kind<'a>> {
    vec![
        by_length("lines of 519 to 70,000 bytes", plan, move |case| {
            lines::port(port, &case.line())
        }),
        by_length(
            "texts with lines of 519 to 70,000 bytes",
            plan,
            move |case| texts::port(port, &case.text()),
        ),
        by_length("loads of lines of 519 to 70,000 bytes", plan, move |case| {
            loads::port(port, &case.load())
        }),
    ]
}

/// What is compared with the face.
pub fn of_face(plan: Plan) -> Vec<Kind<'static>> {
    vec![
        by_length("face: lines of 519 to 70,000 bytes", plan, |case| {
            lines::face(&case.line())
        }),
        by_length(
            "face: texts with lines of 519 to 70,000 bytes",
            plan,
            |case| {
                let in_chunks = || chunks::face(&case.chunks());
                texts::face(&case.text()).or_else(in_chunks)
            },
        ),
        by_length(
            "face: loads of lines of 519 to 70,000 bytes",
            plan,
            |case| loads::face(&case.load()),
        ),
    ]
}
