use ihex::{load, LoadError, Marks};

fn main() {
    let text = ":020000021200EA\n:010005007783\n:00000001FF\n";
    let mut page = [0xEE; 8];
    let mut marks = [0xEE; 1];
    let loaded = load(text, 0x12000, &mut page, &mut marks).unwrap();
    assert_eq!(loaded.data_records, 1);
    assert_eq!(page, [0xEE, 0xEE, 0xEE, 0xEE, 0xEE, 0x77, 0xEE, 0xEE]);
    assert_eq!(marks, [0b0010_0000]);
    let stated = Marks::new(&marks, 8);
    assert!(stated.is_marked(5) && stated.count() == 1);

    let refused = load(text, 0x12006, &mut page, &mut marks).unwrap_err();
    let outside = LoadError::OutsideWindow {
        line: 2,
        address: 0x12005,
    };
    assert_eq!(refused, outside);
    assert_eq!(refused.line(), Some(2));
    assert_eq!(marks, [0b0010_0000]);

    // A character that is not a digit, here an l for a 1, has a column too. The colon's is 1.
    let refused = load(":010005007783\n:0000000lFF\n", 5, &mut page, &mut marks).unwrap_err();
    assert_eq!((refused.line(), refused.column()), (Some(2), Some(9)));
}
