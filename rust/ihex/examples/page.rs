use ihex::{load, page_file_length, write_page, write_page_into, PageError};

fn main() {
    // Four places from FFFE on, of which the last is not marked: the mark of place 0 is the lowest bit.
    let page = [0x11, 0x22, 0x33, 0x44];
    let marks = [0b0111];
    let text = write_page(0xFFFE, &page, &marks).unwrap();
    let lines = [
        ":020000040000FA",
        ":02FFFE001122CE",
        ":020000040001F9",
        ":0100000033CC",
        ":00000001FF",
    ];
    assert_eq!(text, lines.join("\n") + "\n");

    // Loaded into the same window, it gives the same marks and the same bytes at them.
    let mut loaded = [0xEE; 4];
    let mut stated = [0xEE; 1];
    load(&text, 0xFFFE, &mut loaded, &mut stated).unwrap();
    assert_eq!(loaded, [0x11, 0x22, 0x33, 0xEE]);
    assert_eq!(stated, marks);

    // Into an output that is lent.
    let length = page_file_length(0xFFFE, &page, &marks).unwrap();
    let mut out = [0; 100];
    let written = write_page_into(0xFFFE, &page, &marks, &mut out);
    assert_eq!(written, Ok(length));
    assert_eq!(&out[..length], text.as_bytes());
    let full = write_page_into(0xFFFE, &page, &marks, &mut out[..length - 1]);
    assert_eq!(full, Err(PageError::OutputFull));

    // The page has no place 5.
    let refused = write_page(0xFFFE, &page, &[0b0010_0111]);
    assert_eq!(refused, Err(PageError::BadMark(5)));
}
