//! What is wrong, with its name.

use crate::models::loads::LoadAnswer;
use crate::subjects::port::Port;

/// A port that is wrong: in what, and the port.
pub type Wrong = (&'static str, Box<dyn Port>);

/// The three numbers that a reader returns.
pub type Numbers<'a> = (&'a mut u64, &'a mut u64, &'a mut u64);

/// The line and the kind of start that a loader returns.
pub type Places<'a> = (&'a mut usize, &'a mut u8);

/// Returns what a load answers.
pub fn tell(answer: LoadAnswer, (line, start): Places, (a, b, c): Numbers) -> u32 {
    (*line, *start) = (answer.line, answer.start);
    [*a, *b, *c] = answer.values;
    answer.code
}

/// Where a text reader stands: its position, line and flags.
pub type State<'a> = (&'a mut usize, &'a mut usize, &'a mut u8);
