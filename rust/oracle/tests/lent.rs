//! The comparison of the lent forms and of lights by way of `replay`: the cases are within its limits and call for
//! every answer, and a program that answers wrongly, too little, too much or not at all is found.

use std::io;

use oracle::comparisons::replay::{of_program, shrunk, smallest, unlike, wrong};
use oracle::comparisons::run::Plan;
use oracle::inputs::chance::Chance;
use oracle::inputs::lent::{first, light, list, text};
use oracle::inputs::replay::Given;
use oracle::models::replay::answer;
use oracle::subjects::program::{run, Program};

fn cases(make: fn(&mut Chance) -> Given) -> Vec<Given> {
    let mut chance = Chance::new(3);
    (0..1000).map(|_| make(&mut chance)).collect()
}

fn right(cases: &str) -> io::Result<String> {
    let right = |case| answer(&Given::of(case).expect("a case within the limits")) + "\n";
    Ok(cases.lines().map(right).collect())
}

fn words(command: &[&str]) -> Vec<String> {
    command.iter().map(|&word| word.into()).collect()
}

#[test]
fn each_case_is_told_as_its_line() {
    for make in [text, first, list, light] {
        for case in &cases(make)[..200] {
            let again = Given::of(&case.line()).expect("a case within the limits");
            assert_eq!(again.line(), case.line());
            assert_eq!(answer(&again), answer(case));
        }
    }
}

/// Whether one of the answers, or a part of one, begins so.
fn called_for(answers: &[String], said: &str) -> bool {
    let mut parts = answers.iter().flat_map(|answer| answer.split("; "));
    parts.any(|part| part.starts_with(said))
}

#[test]
fn every_answer_is_called_for() {
    let read = [
        "D ", "E ", "X2 ", "X3 ", "X4 ", "X5 ", "done ", "! 1 ", "! 2 ", "! 3 ", "! 4 ", "! 5 ",
        "! 6 ", "! 7 ", "! 8 ", "! 9 ", "! 10 ",
    ];
    let written = ["W ", "! 11 ", "! 12 ", "! 13 ", "! 14 2", "! 14 3", "! 15 "];
    let lit = [
        "broken - ! 16 ",
        "broken - ! 13 ",
        "broken - ! 21 ",
        "no-count - A 0",
        "first ",
        "green ",
        "stale ",
        "restarted ",
        "! 24",
    ];
    for (make, all) in [
        (text as fn(&mut Chance) -> Given, &read[..]),
        (first, &read[..]),
        (list, &written[..]),
        (light, &lit[..]),
    ] {
        let answers: Vec<String> = cases(make).iter().map(answer).collect();
        for said in all {
            assert!(called_for(&answers, said), "{said}");
        }
    }
}

#[test]
fn lists_have_up_to_64_records_and_are_written() {
    let length = |case: &Given| match case {
        Given::Object(object) if answer(case).starts_with('W') => object.entries.len(),
        _ => 0,
    };
    let lengths: Vec<usize> = cases(list).iter().map(length).collect();
    assert!([1, 2, 63, 64].iter().all(|n| lengths.contains(n)));
}

#[test]
fn lights_have_up_to_6_dumps() {
    let dumps = |case: &Given| match case {
        Given::Light(light) => light.texts.len(),
        _ => 0,
    };
    let lengths: Vec<usize> = cases(light).iter().map(dumps).collect();
    assert!((1..=6).all(|n| lengths.contains(&n)));
}

#[test]
fn right_answers_agree() {
    for make in [text, first, list, light] {
        let found = unlike(&right, &cases(make)[..200]);
        assert_eq!(found, vec![None; 200]);
    }
}

/// The right answers with something done to all of them.
fn altered(alter: fn(String) -> io::Result<String>) -> Box<Program<'static>> {
    Box::new(move |cases| alter(right(cases)?))
}

#[test]
fn a_wrong_answer_is_found() {
    let program = altered(|answers| Ok(answers.replace("! 1 ", "! 2 ")));
    let plan = Plan {
        seed: 5,
        times: 1,
        part_of: 20,
        enough: 1,
    };
    let report = of_program(program.as_ref(), plan)[1]();
    let found = r#"T 4 0 30: replay "! 2 |", crate "! 1 | ""#;
    assert_eq!(report.smallest.as_deref(), Some(found));
    assert!(report.disagreements > 0);
}

#[test]
fn what_is_no_answer_to_each_case_is_found() {
    let wrong = [
        altered(|answers| Ok(answers.replacen('\n', "0\n", 1))),
        altered(|answers| Ok(answers.trim_end().into())),
        altered(|answers| Ok(answers.split_inclusive('\n').skip(1).collect())),
        altered(|answers| Ok(answers + "0\n")),
        altered(|answers| Ok(answers + "exit status: 1")),
        altered(|_| Ok(String::new())),
        altered(|_| Err(io::Error::new(io::ErrorKind::NotFound, "no such program"))),
    ];
    for (i, program) in wrong.iter().enumerate() {
        for make in [text, first, list, light] {
            let found = unlike(program.as_ref(), &cases(make)[..9]);
            assert!(found.iter().any(Option::is_some), "{i}");
        }
    }
}

#[test]
fn a_case_at_which_a_program_breaks_off_is_told() {
    let program = altered(|answers| {
        let whole = answers.split_inclusive('\n');
        Ok(whole.take_while(|answer| *answer != "FF\n").collect())
    });
    let cases = ["C 00", "C 01", "C", "C 02"].map(|line| Given::of(line).expect("a case"));
    let wrong = wrong(program.as_ref(), cases.to_vec());
    assert_eq!(
        wrong.iter().map(Given::line).collect::<Vec<_>>(),
        ["C 01", "C", "C 02"]
    );
    let told = smallest(program.as_ref(), wrong);
    assert_eq!(told.as_deref(), Some(r#"C 01: replay "", crate "FF""#));
}

#[test]
fn each_digit_of_an_answer_counts() {
    let line = "T 2 3 3A303130303035303037373833";
    let answer = "D 0005 0 1 @1 | 77EEEE; done @1 | 77EEEE; done @1\n";
    let case = [Given::of(line).expect("a case")];
    assert_eq!(unlike(&|_| Ok(answer.into()), &case), [None]);
    for (i, digit) in answer.char_indices().filter(|(_, c)| c.is_ascii_hexdigit()) {
        let mut wrong = answer.to_string();
        wrong.replace_range(i..=i, if digit == '1' { "2" } else { "1" });
        assert_ne!(unlike(&|_| Ok(wrong.clone()), &case), [None], "{wrong}");
    }
}

#[test]
fn a_wrong_answer_is_told_with_a_small_case() {
    let program = altered(|answers| Ok(answers.replace("! 15 ", "! 14 1 ")));
    let case = Given::of("O 1C 7788 2 1 0 0 0 0 5 0 0 2 1 0 0 0 0").expect("a case");
    assert_eq!(
        shrunk(program.as_ref(), case),
        r#"O 0  1 0 0 0 0: replay "! 14 1 |", crate "! 15 | ""#
    );
}

#[test]
fn a_program_is_started() -> io::Result<()> {
    let much = "C 01\n".repeat(100_000);
    assert_eq!(run(&words(&["cat"]), &much)?, much);
    assert_eq!(run(&words(&["sed", "s/C 01/FF/"]), "C 01\n")?, "FF\n");
    assert_eq!(run(&words(&["false"]), "C 01\n")?, "exit status: 1");
    // An emulator does not say that a program could not be started: the child ends with status 127.
    let missing = run(&words(&["/no/such/program"]), "");
    assert!(missing.map_or(true, |printed| printed == "exit status: 127"));
    Ok(())
}
