use ihex::{load, marks_len, Marks};

const PLACES: usize = 20;

fn main() {
    // A record of four bytes from place 6 on, and one of a byte at place 19.
    let text = ":040006001020304056\n:010013005597\n:00000001FF\n";
    let mut page = [0xEE; PLACES];
    let mut row = [0; marks_len(PLACES)];
    load(text, 0, &mut page, &mut row).unwrap();

    let marks = Marks::new(&row, PLACES);
    assert!(marks.is_marked(6) && marks.is_marked(19));
    assert!(!marks.is_marked(5) && !marks.is_marked(20));
    assert_eq!(marks.count(), 5);

    // Each run of marked places, with its bytes.
    let runs: Vec<_> = marks.runs().map(|run| (run.start, &page[run])).collect();
    assert_eq!(
        runs,
        [(6, &[0x10, 0x20, 0x30, 0x40][..]), (19, &[0x55][..])]
    );
}
