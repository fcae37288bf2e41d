//! The inputs of the page writer are what they are said to be, and a writer that is wrong is told with a
//! small page.

use ihex_sys::MAX_PAGE;
use oracle::comparisons::pages::of_port;
use oracle::comparisons::run::Plan;
use oracle::inputs::chance::Chance;
use oracle::inputs::marks::packed_length;
use oracle::inputs::pages::{large, page, PageCase};
use oracle::subjects::port::Real;
use oracle::subjects::the_crate::at_hand;
use oracle::wrong;

/// Whether a few of the cases are such.
fn some(cases: &[PageCase], such: fn(&PageCase) -> bool) -> bool {
    cases.iter().filter(|case| such(case)).count() > 3
}

/// The address after a window.
fn end(case: &PageCase) -> u64 {
    u64::from(case.first) + case.page.len() as u64
}

/// How many bytes the row of marks has too many.
fn over(case: &PageCase) -> isize {
    case.row().len() as isize - packed_length(case.page.len()) as isize
}

#[test]
fn pages_are_of_every_kind() {
    let mut chance = Chance::new(3);
    let cases: Vec<PageCase> = (0..1000).map(|_| page(&mut chance)).collect();
    assert!(cases.iter().all(|case| case.page.len() < 500));
    assert!(some(&cases, |case| case.page.is_empty()));
    assert!(cases.iter().all(|case| case.page.len() == case.marks.len()));
    assert!(some(&cases, |case| case.longer == -1 && over(case) == -1));
    assert!(some(&cases, |case| case.longer == 1 && over(case) == 1));
    assert!(some(&cases, |case| case.row().len() == case.page.len()));
    assert!(some(&cases, |case| end(case) == 1 << 32));
    assert!(some(&cases, |case| end(case) == (1 << 32) + 1));
    assert!(some(&cases, |case| case.first == 0));
    assert!(some(&cases, |case| u64::from(case.first >> 16) < end(case) >> 16));
    for bit in 1..8 {
        let lowest = |case: &&PageCase| case.set_unused().trailing_zeros() == bit;
        assert!(cases.iter().filter(lowest).count() > 3, "{bit}");
    }
}

#[test]
fn large_pages_are_of_every_kind() {
    let mut chance = Chance::new(5);
    let blocks = (0..16).flat_map(|block| large(block, &mut chance));
    let cases: Vec<PageCase> = blocks.collect();
    let all = |case: &PageCase| case.marks.iter().all(|&mark| mark == 1);
    assert!(cases
        .iter()
        .any(|case| case.page.len() == MAX_PAGE && all(case)));
    assert!(some(&cases, |case| case.page.len() == MAX_PAGE));
    assert!(some(&cases, |case| case.page.len() < MAX_PAGE));
    assert!(cases.iter().any(|case| case.page.len() == MAX_PAGE + 1));
}

const PLAN: Plan = Plan {
    seed: 2,
    times: 1,
    part_of: 50,
    enough: 1,
};

#[test]
fn the_port_is_right() {
    if !at_hand("pages") {
        return;
    }
    for kind in of_port(&Real, PLAN) {
        let report = kind();
        assert_eq!(report.smallest, None, "{}", report.name);
        assert!(report.inputs > 0);
    }
}

#[test]
fn a_wrong_writer_is_told_with_a_small_page() {
    if !at_hand("pages") {
        return;
    }
    let mut all = wrong::pages::all();
    let (name, port) = all.remove(0);
    assert_eq!(name, "does not cut a record at a multiple of 65,536");
    let report = of_port(port.as_ref(), PLAN)[0]();
    let told = report.smallest.expect("it is found");
    let small = r#"first 0000FFFF page "\x00\x00" marks "\x03" output "#;
    assert!(told.starts_with(small), "{told}");
}
