use ihex::srec::load_srecords;
use ihex::{marks_len, LoadError, Marks, Start};

const PLACES: usize = 8;

fn main() {
    // A header, two bytes across FFFF, the count of data records, and the end.
    let text = "S0030000FC\nS105FFFFAABB97\nS5030001FB\nS9030000FC\n";
    let (mut page, mut marks) = ([0xEE; PLACES], [0; marks_len(PLACES)]);
    let loaded = load_srecords(text, 0xFFFC, &mut page, &mut marks).unwrap();
    assert_eq!(loaded.data_records, 1);
    assert_eq!(loaded.start, Some(Start::Linear(0)));
    let run = Marks::new(&marks, PLACES).runs().next().unwrap();
    assert_eq!((run.start, &page[run]), (3, &[0xAA, 0xBB][..]));

    // A data record was lost: the count says so, if there is one.
    let lost = "S0030000FC\nS5030001FB\nS9030000FC\n";
    let refused = load_srecords(lost, 0xFFFC, &mut page, &mut marks).unwrap_err();
    let count = LoadError::CountMismatch {
        line: 2,
        stated: 1,
        seen: 0,
    };
    assert_eq!(refused, count);
    assert_eq!(page[3..5], [0xAA, 0xBB]);

    // Without an end record the text is refused, too.
    let cut = "S105FFFFAABB97\n";
    let refused = load_srecords(cut, 0xFFFC, &mut page, &mut marks).unwrap_err();
    assert_eq!(refused, LoadError::MissingEndOfFileRecord);
}
