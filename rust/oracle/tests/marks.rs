//! Marks as a list and packed are two forms of the same, and the loads and pages by rule call for each bit
//! of the last byte.

use oracle::comparisons::loads::of_port;
use oracle::comparisons::run::Plan;
use oracle::inputs::chance::Chance;
use oracle::inputs::loads::{self, LoadCase};
use oracle::inputs::marks::{packed, packed_length, unpacked, unused, WINDOWS};
use oracle::inputs::pages::{self, PageCase};
use oracle::subjects::port::Real;
use oracle::subjects::the_crate::at_hand;
use oracle::wrong;

#[test]
fn a_list_is_packed_and_unpacked() {
    assert_eq!(packed(&[0, 1, 0, 0, 0, 1, 0, 0, 1]), [0x22, 1]);
    assert_eq!(unpacked(&[0x22, 1], 3), [0, 1, 0]);
    assert_eq!(unused(&[0x22], 3).collect::<Vec<_>>(), [5]);
    assert_eq!(
        unused(&[0xFF, 0xF0], 10).collect::<Vec<_>>(),
        [12, 13, 14, 15]
    );
    assert_eq!(unused(&[0xFF], 8).count(), 0);
    let mut chance = Chance::new(9);
    for places in (0..40).chain(WINDOWS) {
        let list: Vec<u8> = (0..places).map(|_| chance.byte() % 2).collect();
        let row = packed(&list);
        assert_eq!(row.len(), packed_length(places));
        assert_eq!(unpacked(&row, places), list);
        assert_eq!(unused(&row, places).count(), 0);
    }
}

/// The cases of every block.
fn all<C>(blocks: u64, by_rule: fn(u64, &mut Chance) -> Vec<C>) -> Vec<C> {
    let mut chance = Chance::new(1);
    let blocks = (0..blocks).map(|block| by_rule(block, &mut chance));
    blocks.flatten().collect()
}

#[test]
fn loads_by_rule_have_each_bit_and_each_length() {
    let cases: Vec<LoadCase> = all(loads::BLOCKS, loads::by_rule);
    for places in WINDOWS {
        let fit = packed_length(places);
        let such = |marks, last| {
            let mut cases = cases.iter().filter(|case| case.page == places);
            cases.any(|case| case.marks == marks && case.last == last)
        };
        assert!((0..8).all(|bit| such(fit, 1 << bit)), "{places}");
        assert!(such(fit, 0) && such(fit, 0xFF), "{places}");
        assert!(such(fit + 1, 0xFF) && such(fit.saturating_sub(1), 0xFF));
    }
}

#[test]
fn pages_by_rule_have_each_bit_and_each_length() {
    let cases: Vec<PageCase> = all(pages::BLOCKS, pages::by_rule);
    for places in WINDOWS {
        let rows = cases.iter().filter(|case| case.page.len() == places);
        let rows: Vec<Vec<u8>> = rows.map(PageCase::row).collect();
        let fit = packed_length(places);
        for len in [fit, fit + 1, fit.saturating_sub(1), places] {
            assert!(rows.iter().any(|row| row.len() == len), "{places} {len}");
        }
        let alone = |bit: u32| {
            let last = |row: &&Vec<u8>| row.len() == fit && row.last() == Some(&(1 << bit));
            rows.iter().any(|row| last(&row))
        };
        assert!(places == 0 || (0..8).all(alone), "{places}");
    }
}

const PLAN: Plan = Plan {
    seed: 2,
    times: 1,
    part_of: 50,
    enough: 1,
};

#[test]
fn the_port_is_right() {
    if !at_hand("marks") {
        return;
    }
    for kind in of_port(&Real, PLAN) {
        let report = kind();
        assert_eq!(report.smallest, None, "{}", report.name);
        assert!(report.inputs > 0);
    }
}

#[test]
fn loads_by_rule_find_each_loader_with_wrong_marks() {
    if !at_hand("marks") {
        return;
    }
    for (name, port) in wrong::marks::all() {
        let report = of_port(port.as_ref(), PLAN).remove(1)();
        assert_eq!(report.name, "loads by rule");
        assert!(report.smallest.is_some(), "{name} is not found");
    }
}
