//! Pages written as files: runs, cuts, refusals in their order, and outputs that are lent.

use ihex::{load, page_file_length, write_page, write_page_into, PageError, MAX_PAGE_FILE};

const END: &str = ":00000001FF\n";

/// What an output holds that nobody wrote to.
const UNTOUCHED: u8 = 0x5A;

/// How many bytes of an output lie behind the file.
const BEHIND: usize = 9;

/// A page of this many places, none like its neighbours.
fn bytes(n: usize) -> Vec<u8> {
    (0..n)
        .map(|place| (place * 7 + place / 256) as u8)
        .collect()
}

/// The marks of this many places, of which these are marked.
fn marked(n: usize, such: impl Fn(usize) -> bool) -> Vec<u8> {
    let mut marks = vec![0; (n + 7) / 8];
    for place in (0..n).filter(|&place| such(place)) {
        marks[place / 8] |= 1 << (place % 8);
    }
    marks
}

/// The marks of this many places, all of which are marked.
fn all_marked(n: usize) -> Vec<u8> {
    marked(n, |_| true)
}

/// Each byte of a page with whether its place is marked.
fn with_marks<'a>(page: &'a [u8], marks: &'a [u8]) -> impl Iterator<Item = (u8, bool)> + 'a {
    let is_marked = move |place: usize| marks[place / 8] >> (place % 8) & 1 == 1;
    let places = page.iter().enumerate();
    places.map(move |(place, &byte)| (byte, is_marked(place)))
}

/// The file of a page, by each function: as long as it is said to be, with nothing behind it written.
fn file(first: u32, page: &[u8], marks: &[u8]) -> String {
    let text = write_page(first, page, marks).expect("a page");
    assert_eq!(page_file_length(first, page, marks), Ok(text.len()));
    for behind in [0, BEHIND] {
        let mut out = vec![UNTOUCHED; text.len() + behind];
        let written = write_page_into(first, page, marks, &mut out);
        assert_eq!(written, Ok(text.len()));
        let (front, rest) = out.split_at(text.len());
        assert!(front == text.as_bytes(), "write_page gives another text");
        assert_eq!(rest, vec![UNTOUCHED; behind]);
    }
    refuses(first, page, marks, text.len() - 1, PageError::OutputFull);
    refuses(first, page, marks, 0, PageError::OutputFull);
    text
}

/// The page is refused so with an output of this length, and no byte of that changes.
fn refuses(first: u32, page: &[u8], marks: &[u8], out: usize, error: PageError) {
    let mut out = vec![UNTOUCHED; out];
    let written = write_page_into(first, page, marks, &mut out);
    assert_eq!(written, Err(error));
    assert!(out.iter().all(|&byte| byte == UNTOUCHED));
}

/// The page is refused so by each function, whatever the output's length.
fn is_refused(first: u32, page: &[u8], marks: &[u8], error: PageError) {
    assert_eq!(page_file_length(first, page, marks), Err(error));
    assert_eq!(write_page(first, page, marks), Err(error));
    for out in [0, 11, 200] {
        refuses(first, page, marks, out, error);
    }
}

/// The file of a page, which gives marks and bytes again over buffers that hold others.
fn restored(first: u32, page: &[u8], marks: &[u8]) -> String {
    let text = file(first, page, marks);
    let mut held: Vec<u8> = page.iter().map(|byte| byte.wrapping_add(0x55)).collect();
    let mut stated = vec![0xEE; marks.len()];
    let places = held.iter().zip(with_marks(page, marks));
    let should: Vec<u8> = places
        .map(|(&held, (byte, marked))| if marked { byte } else { held })
        .collect();
    let loaded = load(&text, first, &mut held, &mut stated).expect("a file that loads");
    let data = |line: &&str| line.get(7..9) == Some("00");
    assert_eq!(loaded.data_records, text.lines().filter(data).count());
    assert!(held == should, "other bytes");
    assert!(stated == marks, "other marks");
    text
}

/// The lines of a file: of a data record its length and offset alone.
fn heads(text: &str) -> Vec<&str> {
    let head = |line| match str::get(line, 7..9) {
        Some("00") => &line[1..7],
        _ => line,
    };
    text.lines().map(head).collect()
}

#[test]
fn a_page_across_a_multiple_has_this_text() {
    let page = [0xAB; 20];
    let marks = marked(20, |place| place != 18);
    let lines = [
        ":020000040000FA\n",
        ":02FFFE00ABABAB\n",
        ":020000040001F9\n",
        ":10000000ABABABABABABABABABABABABABABABAB40\n",
        ":01001100AB43\n",
        END,
    ];
    assert_eq!(restored(0xFFFE, &page, &marks), lines.concat());
}

#[test]
fn a_record_is_cut_at_a_multiple_and_counted_afresh() {
    let all = all_marked(40);
    // The run has 20 places ahead of the multiple and 20 from it on.
    assert_eq!(
        heads(&restored(0x3_FFEC, &bytes(40), &all)),
        [
            ":020000040003F7",
            "10FFEC",
            "04FFFC",
            ":020000040004F6",
            "100000",
            "040010",
            ":00000001FF"
        ]
    );
    // The multiple is where a run ends, and where one begins.
    let ahead = marked(40, |place| place < 20);
    assert_eq!(
        heads(&restored(0x3_FFEC, &bytes(40), &ahead)),
        [":020000040003F7", "10FFEC", "04FFFC", ":00000001FF"]
    );
    let behind = marked(40, |place| place >= 20);
    assert_eq!(
        heads(&restored(0x3_FFEC, &bytes(40), &behind)),
        [":020000040004F6", "100000", "040010", ":00000001FF"]
    );
    // The multiple lies in a gap.
    let both = marked(40, |place| place == 3 || place == 30);
    assert_eq!(
        heads(&restored(0x3_FFEC, &bytes(40), &both)),
        [
            ":020000040003F7",
            "01FFEF",
            ":020000040004F6",
            "01000A",
            ":00000001FF"
        ]
    );
}

#[test]
fn runs_are_counted_from_their_start() {
    let base = ":020000040002F8";
    let end = ":00000001FF";
    for (run, records) in [
        (1, &["010003"][..]),
        (15, &["0F0003"]),
        (16, &["100003"]),
        (17, &["100003", "010013"]),
        (32, &["100003", "100013"]),
        (33, &["100003", "100013", "010023"]),
    ] {
        let marks = marked(50, |place| (2..2 + run).contains(&place));
        let should = [&[base], records, &[end]].concat();
        assert_eq!(heads(&restored(0x2_0001, &bytes(50), &marks)), should);
    }
    // A gap of one place begins a record anew.
    let marks = marked(50, |place| place != 20);
    let should = [base, "100001", "040011", "100016", "0D0026", end];
    assert_eq!(heads(&restored(0x2_0001, &bytes(50), &marks)), should);
}

#[test]
fn a_full_page_is_written() {
    let (page, marks) = (bytes(65_536), all_marked(65_536));
    for (first, base) in [(0, ":020000040000FA"), (0xFFFF_0000, ":02000004FFFFFC")] {
        let text = restored(first, &page, &marks);
        assert_eq!(text.len(), 16 + 4096 * 44 + 12);
        let heads = heads(&text);
        assert_eq!(heads[0], base);
        for (i, head) in heads[1..4097].iter().enumerate() {
            assert_eq!(*head, format!("10{:04X}", 16 * i));
        }
        assert_eq!(heads[4097..], [":00000001FF"]);
    }
    // Across a multiple: 21 records of 16 and one of 4 ahead of it, 4,074 of 16 and one of 12 behind it.
    let text = restored(0x1_0000 - 340, &page, &marks);
    assert_eq!(text.len(), 2 * 16 + 4095 * 44 + 20 + 36 + 12);
}

#[test]
fn the_last_address_is_written() {
    let text = restored(u32::MAX, &[0xAB], &[1]);
    assert_eq!(text, format!(":02000004FFFFFC\n:01FFFF00AB56\n{END}"));
    // To 2^32 exactly, and a place further.
    let marks = marked(65_536, |place| place > 65_533);
    let text = restored(0xFFFF_0000, &[0xAB; 65_536], &marks);
    assert_eq!(text, format!(":02000004FFFFFC\n:02FFFE00ABABAB\n{END}"));
    is_refused(u32::MAX, &[0; 2], &[0b11], PageError::BadWindow);
    let (page, marks) = (vec![0; 65_536], vec![0; 8192]);
    is_refused(0xFFFF_0001, &page, &marks, PageError::BadWindow);
}

#[test]
fn nothing_marked_gives_an_end_record() {
    for first in [0, 0xFFFF, 0x1_0000, u32::MAX] {
        assert_eq!(restored(first, &[], &[]), END);
        assert_eq!(restored(first, &[0xAB], &[0]), END);
    }
    assert_eq!(restored(0xFFFF_0000, &bytes(65_536), &[0; 8192]), END);
}

#[test]
fn pages_that_are_no_window_are_refused() {
    let bad = PageError::BadWindow;
    is_refused(0, &[], &[0], bad);
    is_refused(0, &[0], &[], bad);
    is_refused(0, &[0; 8], &[1; 2], bad);
    is_refused(0, &[0; 9], &[1], bad);
    is_refused(0, &[0; 8], &[1; 8], bad);
    is_refused(u32::MAX, &[], &[1], bad);
    is_refused(0, &vec![0; 65_537], &vec![0; 8193], bad);
    is_refused(0, &vec![0; 65_536], &vec![0; 8193], bad);
    is_refused(0, &vec![0; 65_536], &vec![0; 65_536], bad);
}

#[test]
fn the_lowest_unused_bit_is_named() {
    let bad = PageError::BadMark;
    is_refused(0, &[0; 3], &[0x22], bad(5));
    for places in [1, 7, 9, 15, 17, 65_535] {
        let page = bytes(places);
        let bits = places..(places + 7) / 8 * 8;
        for kept in [vec![0; (places + 7) / 8], all_marked(places)] {
            for lowest in bits.clone() {
                let mut alone = kept.clone();
                alone[lowest / 8] |= 1 << (lowest % 8);
                is_refused(0, &page, &alone, bad(lowest));
                let mut with_all_above = kept.clone();
                with_all_above[lowest / 8] |= 0xFF << (lowest % 8);
                is_refused(0, &page, &with_all_above, bad(lowest));
            }
            file(0, &page, &kept);
        }
    }
}

#[test]
fn a_multiple_of_8_has_no_unused_bit() {
    for places in [8, 16, 65_536] {
        let page = bytes(places);
        for bit in 0..8 {
            let mut marks = vec![0; places / 8];
            marks[places / 8 - 1] = 1 << bit;
            restored(0, &page, &marks);
        }
        restored(0, &page, &all_marked(places));
    }
}

#[test]
fn refusals_have_their_order() {
    let bad = PageError::BadWindow;
    // No window, an unused bit that is set, and an output that is too short.
    is_refused(0, &[0; 2], &[0xFF, 0xFF], bad);
    is_refused(u32::MAX, &[0; 2], &[0xFF], bad);
    is_refused(0, &vec![0; 65_537], &vec![0xFF; 8193], bad);
    // An unused bit that is set, and an output that is too short.
    refuses(0, &[0; 2], &[0b111], 0, PageError::BadMark(2));
    refuses(0, &[0; 2], &[0b111], 43, PageError::BadMark(2));
    refuses(0, &[0; 2], &[0b11], 43, PageError::OutputFull);
    assert_eq!(file(0, &[0; 2], &[0b11]).len(), 44);
}

#[test]
fn bytes_that_are_not_marked_do_not_show() {
    let marks = marked(600, |place| place % 19 < 11);
    let page = bytes(600);
    let text = file(0xFF00, &page, &marks);
    for other in [0, 0xAB, 0xFF] {
        let blotted: Vec<u8> = with_marks(&page, &marks)
            .map(|(byte, marked)| if marked { byte } else { other })
            .collect();
        assert_eq!(file(0xFF00, &blotted, &marks), text);
    }
}

#[test]
fn the_longest_file_has_458_810_bytes() {
    assert_eq!(MAX_PAGE_FILE, 458_810);
    // Every second place is marked ahead of the multiple, from an odd place on, and behind it.
    for across in [1, 32_767, 65_535] {
        let marks = marked(65_536, |place| (place < across) == (place % 2 == 0));
        let first = 0x8_0000 - across as u32;
        let text = restored(first, &bytes(65_536), &marks);
        assert_eq!(text.len(), MAX_PAGE_FILE);
    }
    // At an even place, and where no multiple is crossed, it is a record shorter, or a type 04 too.
    let marks = marked(65_536, |place| place % 2 == 0);
    let text = file(0x7_FFFE, &bytes(65_536), &marks);
    assert_eq!(text.len(), MAX_PAGE_FILE - 14);
    let text = file(0x8_0000, &bytes(65_536), &marks);
    assert_eq!(text.len(), MAX_PAGE_FILE - 14 - 16);
}

#[test]
fn refusals_print_and_have_numbers() {
    for (error, number, text) in [
        (PageError::OutputFull, 15, "file is longer than the output"),
        (
            PageError::BadWindow,
            16,
            "page and marks do not fit the window",
        ),
        (
            PageError::BadMark(7),
            19,
            "place 7 is marked, but the page has no such place",
        ),
        (
            PageError::SynthesisFailed,
            0,
            "no memory for the file of the page",
        ),
    ] {
        assert_eq!((error.number(), error.to_string().as_str()), (number, text));
    }
}
