//! Marks, one bit a place: read through `Marks` they are what the single bits say, and a load leaves them
//! right in windows of each length, whatever they held before.

mod chance;

use std::iter::once;
use std::ops::Range;

use chance::Chance;
use ihex::{
    load, marks_len, page_file_length, write_page, LoadError, Marks, PageError, Record, Runs,
};

/// Numbers of places about the ends of a byte, and of a page.
const PLACES: [usize; 10] = [0, 1, 7, 8, 9, 15, 16, 17, 65_535, 65_536];

const END: &str = ":00000001FF\n";

/// Whether a place is marked, by its bit.
fn bit(row: &[u8], place: usize) -> bool {
    row[place / 8] & (1 << (place % 8)) != 0
}

/// The marks of so many places, of which these are marked.
fn packed(places: usize, such: impl Fn(usize) -> bool) -> Vec<u8> {
    let mut row = vec![0; marks_len(places)];
    for place in (0..places).filter(|&place| such(place)) {
        row[place / 8] |= 1 << (place % 8);
    }
    row
}

/// The line of a record, with its LF.
fn line(record: Record) -> String {
    record.to_record_string().expect("a short record") + "\n"
}

/// The line of bytes from a place on, in a window from address 0 on.
fn data(place: usize, value: &[u8]) -> String {
    line(Record::Data {
        offset: place as u16,
        value: value.to_vec(),
    })
}

/// The runs of marked places, by a walk over single bits.
fn runs_of(row: &[u8], places: usize) -> Vec<Range<usize>> {
    let mut found: Vec<Range<usize>> = Vec::new();
    for place in (0..places.min(8 * row.len())).filter(|&place| bit(row, place)) {
        match found.last_mut() {
            Some(last) if last.end == place => last.end += 1,
            _ => found.push(place..place + 1),
        }
    }
    found
}

/// `Marks` says of a row what its single bits say.
fn is_read_right(row: &[u8], places: usize) {
    let marks = Marks::new(row, places);
    let runs = runs_of(row, places);
    assert!(marks.runs().eq(runs.iter().cloned()), "{row:?} {places}");
    assert_eq!(marks.count(), runs.iter().map(Range::len).sum::<usize>());
    let marked = |place: usize| runs.iter().any(|run| run.contains(&place));
    for place in 0..8 * row.len() + 20 {
        let is = marks.is_marked(place);
        assert_eq!(is, marked(place), "{row:?} {places} {place}");
    }
    let mut walk = marks.runs();
    assert_eq!(walk.by_ref().count(), runs.len());
    assert_eq!((walk.next(), walk.next()), (None, None));
}

#[test]
fn a_row_has_a_bit_for_each_place() {
    let lengths = [0, 1, 1, 1, 2, 2, 2, 3, 8192, 8192];
    assert_eq!(PLACES.map(marks_len), lengths);
    assert_eq!(marks_len(usize::MAX), usize::MAX / 8 + 1);
}

#[test]
fn runs_and_places_are_those_of_single_bits() {
    let mut chance = Chance(7);
    for places in [0, 1, 7, 8, 9, 15, 16, 17, 63, 64, 65, 100] {
        for _ in 0..200 {
            is_read_right(&chance.row(marks_len(places)), places);
        }
        let len = marks_len(places);
        is_read_right(&vec![0; len], places);
        is_read_right(&vec![0xFF; len], places);
    }
}

fn runs_in(row: &[u8], places: usize) -> Runs<'_> {
    Marks::new(row, places).runs()
}

#[test]
fn a_full_page_is_walked() {
    let mut row = vec![0xFF; 8192];
    assert!(runs_in(&row, 65_536).eq(once(0..65_536)));
    row[4096] = 0xFE;
    assert!(runs_in(&row, 65_536).eq([0..32_768, 32_769..65_536]));
    assert_eq!(Marks::new(&row, 65_536).count(), 65_535);
    row.fill(0);
    row[8191] = 0x80;
    assert!(runs_in(&row, 65_536).eq(once(65_535..65_536)));
    assert_eq!(Marks::new(&row, 65_535).count(), 0);
}

#[test]
fn a_place_outside_is_not_marked() {
    let mut chance = Chance(11);
    for len in 0..5 {
        for places in (0..50).chain([usize::MAX - 1, usize::MAX]) {
            is_read_right(&chance.row(len), places);
            is_read_right(&vec![0xFF; len], places);
        }
    }
    let marks = Marks::new(&[0xFF], usize::MAX);
    assert!(marks.is_marked(7) && !marks.is_marked(8) && !marks.is_marked(usize::MAX));
    assert!(runs_in(&[0xFF, 0xFF], 3).eq(once(0..3)));
}

/// What a row holds before a load: nothing, everything, noise, and each bit of the last byte alone.
fn rows_before(places: usize) -> Vec<Vec<u8>> {
    let len = marks_len(places);
    let mut rows = vec![vec![0; len], vec![0xFF; len], Chance(3).row(len)];
    for bit in 0..8 {
        let mut row = vec![0; len];
        if let Some(last) = row.last_mut() {
            *last = 1 << bit;
        }
        rows.push(row);
    }
    rows
}

/// A text for a window of so many places, and the places that it states.
fn texts(places: usize) -> Vec<(String, Vec<usize>)> {
    let mut found = vec![(END.into(), vec![])];
    for place in [0, 6, 7, 8, 9, 15, 16, places.saturating_sub(1)] {
        if place < places {
            found.push((data(place, &[0x41]) + END, vec![place]));
        }
    }
    let from = places.saturating_sub(11);
    let last: Vec<usize> = (from..places).collect();
    found.push((data(from, &vec![0x42; last.len()]) + END, last));
    let lines = (0..places).step_by(16).map(|place| {
        let size = 16.min(places - place);
        data(place, &vec![0x43; size])
    });
    found.push((lines.collect::<String>() + END, (0..places).collect()));
    found
}

#[test]
fn loads_leave_the_marks_of_what_is_stated() {
    for places in PLACES {
        for (text, stated) in texts(places) {
            let should = packed(places, |place| stated.binary_search(&place).is_ok());
            for mut row in rows_before(places) {
                let mut page = vec![0xEE; places];
                let loaded = load(&text, 0, &mut page, &mut row);
                assert!(loaded.is_ok(), "{places}");
                assert!(row == should, "{places} {stated:?}");
                let kept = |place: &usize| page[*place] == 0xEE;
                assert!((0..places).all(|place| kept(&place) != bit(&row, place)));
            }
        }
    }
}

#[test]
fn refused_loads_keep_every_bit() {
    for places in PLACES {
        let outside = data(places, &[0x41]) + END;
        let no_end = ":0100000041BE\n";
        for text in [outside.as_str(), no_end, ":", "\n"] {
            if text == outside && places > 65_535 {
                continue;
            }
            for before in rows_before(places) {
                let (mut page, mut row) = (vec![0xEE; places], before.clone());
                assert!(load(text, 0, &mut page, &mut row).is_err());
                assert!(row == before, "{places} {text:?}");
                assert!(page.iter().all(|&byte| byte == 0xEE));
            }
        }
    }
}

#[test]
fn unused_bits_do_not_refuse_a_load() {
    let (mut page, mut row) = ([9; 6], [0xFF]);
    let loaded = load(END, 0, &mut page, &mut row);
    assert_eq!(loaded.map(|all| all.data_records), Ok(0));
    assert_eq!((page, row), ([9; 6], [0]));
}

#[test]
fn a_place_stated_twice_stays_marked() {
    for places in [1, 7, 8, 9, 15, 16, 17] {
        for place in 0..places {
            let mut page = vec![0xEE; places];
            let mut row = vec![0xEE; marks_len(places)];
            let twice = data(place, &[0x41]) + &data(place, &[0x42]) + END;
            load(&twice, 0, &mut page, &mut row).expect("a place inside");
            assert_eq!(row, packed(places, |other| other == place));
            assert_eq!(page[place], 0x42);
            // Between two whole runs, one from each side.
            let (front, rest) = (vec![1; place + 1], vec![2; places - place]);
            let text = data(0, &front) + &data(place, &rest) + &data(0, &front) + END;
            load(&text, 0, &mut page, &mut row).expect("places inside");
            assert_eq!(row, packed(places, |_| true));
        }
    }
}

#[test]
fn marks_of_another_length_are_refused() {
    for places in PLACES {
        let len = marks_len(places);
        let others = [len.checked_sub(1), Some(len + 1), Some(places)];
        let others = others.into_iter().flatten().filter(|&other| other != len);
        for other in others {
            let (mut page, mut row) = (vec![0xEE; places], vec![0xA5; other]);
            let loaded = load(END, 0, &mut page, &mut row);
            assert_eq!(loaded, Err(LoadError::BadWindow), "{places} {other}");
            let refused = Err(PageError::BadWindow);
            assert_eq!(write_page(0, &page, &row).map(|_| ()), refused);
            assert_eq!(page_file_length(0, &page, &row).map(|_| ()), refused);
            assert!(row == vec![0xA5; other], "{places} {other}");
            assert!(page == vec![0xEE; places], "{places} {other}");
        }
    }
}

#[test]
fn windows_of_each_length_are_written_and_loaded_again() {
    let mut chance = Chance(5);
    for places in PLACES {
        let page: Vec<u8> = (0..places).map(|_| chance.byte()).collect();
        for before in rows_before(places) {
            let row = packed(places, |place| bit(&before, place));
            let text = write_page(0, &page, &row).expect("a page");
            let (mut held, mut marks) = (vec![0; places], vec![0xFF; row.len()]);
            load(&text, 0, &mut held, &mut marks).expect("a file that loads");
            assert!(marks == row, "{places}");
            for run in Marks::new(&marks, places).runs() {
                assert!(held[run.clone()] == page[run], "{places}");
            }
            let unused = (places..8 * row.len()).find(|&place| bit(&before, place));
            let refused = write_page(0, &page, &before).err();
            assert_eq!(refused, unused.map(PageError::BadMark), "{places}");
        }
    }
}
