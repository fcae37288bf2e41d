//! A small stored list, with a case of each form: right answers agree, a wrong one is found and
//! written anew, and what is not a case is passed over and kept.

use std::io;

use oracle::comparisons::stored::List;
use oracle::inputs::replay::Given;
use oracle::models::replay::answer;

const HEADINGS_AND_CASES: [(&str, &str); 33] = [
    ("# a heading", "# a heading"),
    ("C 01", "FF"),
    ("C", "00"),
    ("L 4 1 3A303130303035303037373833", "D 0005 1 1 | EE77EEEE"),
    ("L 0 0 FF", "! 1 | "),
    ("L 1 0 3A304780", "! 2 0002 | EE"),
    (
        "T 3 1 3A303030303030303146460A0A30",
        "E @1 | EE; done @1 | EE; done @1",
    ),
    ("T 4 1 3A303030303030303146460A0A30", "E | EE"),
    ("T 4 2 0A3A303130303035303037373833", "D 0005 0 1 | 77EE"),
    ("T 4 0 3A303130303035303037373833", "! 10 | "),
    ("T 1 0 0A3A30300D", "! 2 0003 @2 | ; done @2 | ; done @2"),
    ("W 1 0 0 0 0 C", "W B | 3A30303030303030314646DD"),
    ("O C  1 0 0 0 0", "W C | 3A303030303030303146460A"),
    ("M 0 2 41 3A30303030303030314646", "! 16 @0 | CCCC | AA<41"),
    ("M 0 1 1 3AC3A90A", "! 2 0001 @1 | CC | AA"),
    ("M 0 6 1 3A30303030303030314646", "A 0 | CCCCCCCCCCCC | 00"),
    (
        "M 0 9 2 3A3031303030383030373738300A3A30303030303030314646",
        "A 1 | CCCCCCCCCCCCCCCC77 | 0001",
    ),
    (
        "M 0 1 1 3A30343030303030333130303030303130443920",
        "! 2 0013 @1 | CC | AA",
    ),
    (
        "M 0 1 1 3A303430303030303331303030303031304439\
         0A3A30303030303030314646",
        "A 0 X3 10000010 | CC | 00",
    ),
    (
        "M 0 1 1 3A303430303030303530303030303043443241\
         0A3A303430303030303331303030303031304439",
        "! 21 @2 | CC | AA",
    ),
    (
        "N 2 B 2 3A3031303030353030373738330A3A303030303030303146460A 2 4 2 3 1 0 3 0",
        "A 1 | CCCCCCCC77CCCCCCCCCCCC | B2AA",
    ),
    ("N 1 1 1  1 FFFFFFFF 2 0", "! 23 @0 | CC | AA"),
    ("N 1 1 1 3A30303030303030314646", "A 0 | CC | AA"),
    (
        "Q 5 3A3031303030353030373738330A3A30303030303030314646",
        "B 77",
    ),
    ("Q FFFFFFFF 3A30303030303030314646", "none"),
    ("Q 0 0A3A304780", "! 2 0002 @2"),
    ("Q 0", "! 13 @0"),
    (
        "K 0 2 0 1 2 1 3A30323030303030303030303546390A3A3030303030303031\
         4646 3A30323030303030303030303546390A3A30303030303030314646 3A30\
         323030303030303030303646380A3A30303030303030314646",
        "first 0005 A 1; stale 0005 A 1; green 0006 A 1 | 0006 | 03",
    ),
    (
        "K 0 2 1 0 2 1 3A30323030303030303030303646380A3A3030303030303031\
         4646 3A3031303030303030303046460A3A30303030303030314646 78 3A303\
         23030303030303030303546390A3A30303030303030314646",
        "first 0600 A 1; no-count 0600 A 1; broken 0600 ! 1 @1; restarted 0500 A 1 | 0005 | 03",
    ),
    (
        "K 0 2 0 2 2 1 3A30323030303030303030303546390A3A30303030303030314646",
        "! 24",
    ),
    ("K 0 2 0 1 2 1 ", "broken - ! 13 @0 | CCCC | AA"),
    (
        "K 0 2 0 1 3 1 3A30323030303030303030303546390A3A3030303030303031\
         4646  80",
        "broken - ! 16 @0; broken - ! 16 @0; broken - ! 16 @0 | CCCCCC | AA",
    ),
    (
        "K FFFFFFFF 2 0 1 2 1 3A30323030303030303030303546390A3A303030303\
         03030314646",
        "broken - ! 16 @0 | CCCC | AA",
    ),
];

/// What `replay` takes another way, or not at all.
const PASSED_OVER: [&str; 15] = [
    "",
    "X 1",
    "Q 100000000",
    "C 0",
    "C 0a",
    "C 01 02",
    "L 1001 0 3A",
    "T 5 1 3A",
    "W 6 0 0 0 0 C",
    "O C 00 1 0 0 0",
    "N 1 8 1 3A 1 0 8",
    "K 0 2 0 1 2 1",
    "K 0 2 0 1 2 1 0",
    "K 100000000 2 0 1 2 1 ",
    "K 0 2 0 1 10002 1 ",
];

fn list() -> List {
    let (cases, answers): (Vec<_>, Vec<_>) = HEADINGS_AND_CASES.iter().copied().unzip();
    let owned = |rows: Vec<&str>| rows.into_iter().map(String::from).collect();
    List {
        cases: owned(cases),
        answers: owned(answers),
    }
}

#[test]
fn right_answers_agree() {
    let outcome = list().compare();
    assert_eq!(outcome.report.smallest, None);
    assert_eq!(
        (outcome.report.inputs, outcome.report.disagreements),
        (32, 0)
    );
    assert_eq!(
        outcome.told,
        "2 C, 3 L, 5 T, 1 W, 1 O, 7 M, 3 N, 4 Q, 6 K; 4 of them no UTF-8, answered by the rule for bytes; 0 passed over"
    );
}

#[test]
fn each_wrong_answer_is_found_and_written_anew() {
    let right = list().answers;
    for i in 0..right.len() {
        let mut wrong = list();
        wrong.answers[i].push('0');
        let report = wrong.compare().report;
        let smallest = report.smallest.expect("a wrong answer is found");
        assert!(smallest.starts_with(&format!("line {}, ", i + 1)));
        assert_eq!(report.disagreements, 1);
        assert_eq!(wrong.answered().answers, right);
    }
}

#[test]
fn what_is_no_case_is_passed_over_and_kept() {
    let mut list = list();
    let too_long = format!("O C {}", " 1 0 0 0 0".repeat(65));
    for case in PASSED_OVER.iter().copied().chain([too_long.as_str()]) {
        list.cases.push(case.into());
        list.answers.push("as it was".into());
    }
    let outcome = list.compare();
    assert_eq!(
        (outcome.report.inputs, outcome.report.disagreements),
        (32, 0)
    );
    assert!(outcome.told.ends_with("; 16 passed over"));
    assert_eq!(outcome.over, 16);
    assert_eq!(list.answered().answers, list.answers);
}

#[test]
fn each_stored_case_is_told_as_its_line() -> io::Result<()> {
    let cases = List::read_cases()?.cases;
    let again = cases
        .iter()
        .filter_map(|case| Some((case, Given::of(case)?)));
    for (case, given) in again {
        assert_eq!(given.line(), *case);
    }
    Ok(())
}

#[test]
fn an_object_has_up_to_64_records() {
    let list = |n| format!("O C {}", " 1 0 0 0 0".repeat(n));
    let answer = |n| Given::of(&list(n)).map(|given| answer(&given));
    let refused = "! 14 40 | DDDDDDDDDDDDDDDDDDDDDDDD";
    assert_eq!(answer(64).as_deref(), Some(refused));
    assert_eq!(answer(65), None);
}
