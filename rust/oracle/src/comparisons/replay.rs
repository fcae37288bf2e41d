//! The two lent forms, a reader that holds its text and an object from a lent list, by way of the program
//! `replay`. It asks one reader in a loop for each answer of a text. Lights go by way of it too.

use std::time::Instant;

use crate::comparisons::run::{block_of, blocks, search, Kind, Plan, Report, A_BLOCK};
use crate::inputs::chance::Chance;
use crate::inputs::lent::{first, light, list, text};
use crate::inputs::replay::Given;
use crate::inputs::shrink::Case;
use crate::models::replay::answer;
use crate::subjects::program::Program;

/// How many smaller cases are given to a program at once.
const AT_ONCE: usize = 64;

/// What is printed, cut after each LF into so many answers: some empty if they are too few, the last
/// with all that is left if they are too many.
fn cut(printed: &str, n: usize) -> Vec<String> {
    let mut lines = printed.split_inclusive('\n').map(String::from);
    let mut answers: Vec<String> = lines.by_ref().take(n).collect();
    answers.resize(n, String::new());
    if let Some(last) = answers.last_mut() {
        last.extend(lines);
    }
    answers
}

/// What is wrong with the program's answer to each case, if it is not the crate's.
pub fn unlike(program: &Program, cases: &[Given]) -> Vec<Option<String>> {
    let input: String = cases.iter().map(|case| case.line() + "\n").collect();
    let printed = program(&input).unwrap_or_else(|why| why.to_string());
    let pairs = cases.iter().zip(cut(&printed, cases.len()));
    let differs = |(case, is): (&Given, String)| {
        let should = answer(case);
        let agrees = is.strip_suffix('\n') == Some(should.as_str());
        (!agrees).then(|| format!("replay {:?}, crate {should:?}", is.trim_end()))
    };
    pairs.map(differs).collect()
}

/// Those cases to which the program's answer is wrong.
pub fn wrong(program: &Program, cases: Vec<Given>) -> Vec<Given> {
    let unlike = unlike(program, &cases);
    let pairs = cases.into_iter().zip(unlike);
    pairs.filter_map(|(case, why)| why.map(|_| case)).collect()
}

fn first_wrong(program: &Program, cases: &[Given]) -> Option<Given> {
    wrong(program, cases.to_vec()).into_iter().next()
}

/// The smallest case found to which the program's answer is still wrong, and how.
pub fn shrunk(program: &Program, mut case: Given) -> String {
    let first = |cases: &[Given]| first_wrong(program, cases);
    while let Some(next) = case.smaller().chunks(AT_ONCE).find_map(first) {
        case = next;
    }
    let why = unlike(program, &[case.clone()]).remove(0);
    format!("{}: {}", case.show(), why.unwrap_or_default())
}

/// The smallest case found of those to which the answer was wrong. Behind one at which a program
/// breaks off, others have no answer; they are right by themselves.
pub fn smallest(program: &Program, mut cases: Vec<Given>) -> Option<String> {
    cases.sort_by_key(Case::size);
    let alone = cases.chunks(1).find_map(|one| first_wrong(program, one));
    let told = alone.map(|case| shrunk(program, case));
    told.or_else(|| Some(format!("{}, but not by itself", cases.first()?.show())))
}

/// A kind whose inputs come by chance and go to a program, a block at once. Of those on which the two
/// disagree, the smallest is made smaller.
fn by_program<'a>(
    program: &'a Program,
    name: &'static str,
    plan: Plan,
    thousands: u64,
    make: fn(&mut Chance) -> Given,
) -> Kind<'a> {
    let plan = Plan {
        enough: plan.enough.max(20),
        ..plan
    };
    Box::new(move || {
        let start = Instant::now();
        let wrong = |cases| self::wrong(program, cases);
        let found = search(
            name,
            plan,
            blocks(thousands, plan),
            block_of(A_BLOCK, make),
            wrong,
        );
        Report {
            name,
            inputs: found.inputs,
            disagreements: found.disagreements,
            smallest: smallest(program, found.cases),
            time: start.elapsed(),
        }
    })
}

/// What is compared with the program.
pub fn of_program<'a>(program: &'a Program, plan: Plan) -> Vec<Kind<'a>> {
    vec![
        by_program(program, "lent: texts, held by a reader", plan, 6, text),
        by_program(
            program,
            "lent: texts, the first answer alone",
            plan,
            3,
            first,
        ),
        by_program(program, "lent: lists written", plan, 2, list),
        by_program(program, "lights, by the program replay", plan, 2, light),
    ]
}
