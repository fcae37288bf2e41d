use ihex::{load, marks_len, LoadError, Start};

fn main() {
    let (mut page, mut marks) = ([0; 4], [0; marks_len(4)]);
    let mut start_of = |text: &str| load(text, 0, &mut page, &mut marks).map(|loaded| loaded.start);

    // A record of type 03 states CS and IP, and one of type 05 a linear address. A text may have neither.
    let segment = ":0400000310000000E9\n:00000001FF\n";
    let stated = start_of(segment).unwrap().unwrap();
    assert_eq!(stated, Start::Segment { cs: 0x1000, ip: 0 });
    assert_eq!(stated.to_string(), "1000:0000");
    let linear = ":04000005000000CD2A\n:00000001FF\n";
    assert_eq!(start_of(linear), Ok(Some(Start::Linear(0xCD))));
    assert_eq!(start_of(":00000001FF\n"), Ok(None));

    // The same start twice is one start. Another is refused, at its line.
    let twice = ":04000005000000CD2A\n:04000005000000cd2a\n:00000001FF\n";
    assert_eq!(start_of(twice), Ok(Some(Start::Linear(0xCD))));
    let both = ":04000005000000CD2A\n:04000005000000CE29\n:00000001FF\n";
    let refused = start_of(both).unwrap_err();
    assert_eq!(refused, LoadError::StartConflict { line: 2 });
}
