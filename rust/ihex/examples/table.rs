use ihex::{BadTable, LoadError, Marks, Owner, Table, Window};

fn main() {
    // Two controllers in one cabinet. Both have memory at 0100, and the first has two bytes more at 0200.
    let window = |owner, first, length, place| Window {
        owner,
        first,
        length,
        place,
    };
    let windows = [
        window(Owner::First, 0x100, 4, 0),
        window(Owner::First, 0x200, 2, 4),
        window(Owner::Second, 0x100, 4, 6),
    ];
    let table = Table::new(&windows, 10).unwrap();
    let (mut pool, mut marks) = ([0xEE; 10], [0; ihex::marks_len(10)]);

    let first = ":0101020022DA\n:01020000AA53\n:00000001FF\n";
    let loaded = table.load(Owner::First, first, &mut pool, &mut marks);
    assert_eq!(loaded.unwrap().data_records, 2);
    // The second controller speaks S-records. Its load leaves what the first has loaded.
    let second = "S10401027781\nS9030000FC\n";
    let loaded = table.load_srecords(Owner::Second, second, &mut pool, &mut marks);
    assert_eq!(loaded.unwrap().data_records, 1);
    let marked: Vec<usize> = Marks::new(&marks, 10).runs().flatten().collect();
    assert_eq!(marked, [2, 4, 8]);
    assert_eq!((pool[2], pool[4], pool[8]), (0x22, 0xAA, 0x77));

    // The second has no memory at 0200. A refused load changes nothing.
    let before = (pool, marks);
    let stray = "S1040200AA4F\nS9030000FC\n";
    let refused = table.load_srecords(Owner::Second, stray, &mut pool, &mut marks);
    let outside = LoadError::OutsideWindow {
        line: 1,
        address: 0x200,
    };
    assert_eq!(refused, Err(outside));
    assert_eq!((pool, marks), before);

    // A table that breaks a limit is refused when it is made.
    let twice = [windows[0], window(Owner::Second, 0x100, 4, 3)];
    let why = Table::new(&twice, 10).unwrap_err();
    assert_eq!(why, BadTable::SharedPlace(0, 1));
    let words = "windows[0] and windows[1] share a place of the pool";
    assert_eq!(why.to_string(), words);
}
