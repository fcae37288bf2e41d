//! A window table: its limits by name, loads through it by both owners, and pools and marks that it was not made for.

use std::error::Error;

use ihex::srec::load_srecords;
use ihex::{
    load, marks_len, BadTable, LoadError, Loaded, Marks, Owner, Start, Table, Window, MAX_POOL,
    MAX_WINDOWS,
};

const END: &str = ":00000001FF\n";
const S_END: &str = "S9030000FC\n";
const OWNERS: [Owner; 2] = [Owner::First, Owner::Second];

fn window(owner: Owner, first: u32, length: usize, place: usize) -> Window {
    Window {
        owner,
        first,
        length,
        place,
    }
}

fn first(first: u32, length: usize, place: usize) -> Window {
    window(Owner::First, first, length, place)
}

fn second(first: u32, length: usize, place: usize) -> Window {
    window(Owner::Second, first, length, place)
}

/// The limit that a table breaks, if it breaks one.
fn limit(windows: &[Window], pool_len: usize) -> Option<BadTable> {
    Table::new(windows, pool_len).err()
}

#[test]
fn so_many_windows() {
    let windows = vec![first(0, 0, 0); MAX_WINDOWS];
    assert_eq!(limit(&windows, 0), None);
    for n in [17, 18, 1000] {
        let windows = vec![first(0, 0, 0); n];
        assert_eq!(limit(&windows, 0), Some(BadTable::TooManyWindows(n)));
    }
    assert_eq!(limit(&[], 0), None);
}

#[test]
fn so_long_a_pool() {
    assert_eq!(limit(&[], MAX_POOL), None);
    assert_eq!(limit(&[first(0, MAX_POOL, 0)], MAX_POOL), None);
    for n in [MAX_POOL + 1, 1 << 40, usize::MAX] {
        assert_eq!(limit(&[], n), Some(BadTable::PoolTooLong(n)));
        assert_eq!(limit(&[first(0, n, 0)], n), Some(BadTable::PoolTooLong(n)));
    }
}

#[test]
fn windows_end_where_they_may() {
    let addresses = Some(BadTable::BeyondAddresses(0));
    let pool = Some(BadTable::BeyondPool(0));
    for owner in OWNERS {
        let limit = |first, length, place| limit(&[window(owner, first, length, place)], 8);
        assert_eq!(limit(0xFFFF_FFFC, 4, 0), None);
        assert_eq!(limit(0xFFFF_FFFD, 4, 0), addresses);
        assert_eq!(limit(0xFFFF_FFFF, 1, 7), None);
        assert_eq!(limit(0xFFFF_FFFF, 0, 8), None);
        assert_eq!(limit(0xFFFF_FFFF, 2, 0), addresses);
        assert_eq!(limit(0, 4, 4), None);
        assert_eq!(limit(0, 4, 5), pool);
        assert_eq!(limit(0, 9, 0), pool);
        assert_eq!(limit(0, 0, 8), None);
        assert_eq!(limit(0, 0, 9), pool);
        assert_eq!(limit(0, 0, usize::MAX), pool);
        assert_eq!(limit(0, 8, usize::MAX - 7), pool);
        assert_eq!(limit(0, 1 << 32, 0), pool);
        assert_eq!(limit(0, usize::MAX, 1), addresses);
        assert_eq!(limit(0, 1 << 63, 1 << 63), addresses);
    }
    let windows = [first(0, 4, 0), second(0, 4, 4), second(8, 1, 8)];
    assert_eq!(limit(&windows, 9), None);
    assert_eq!(limit(&windows, 8), Some(BadTable::BeyondPool(2)));
}

#[test]
fn windows_share_nothing() {
    let both = |one: Window, two: Window, why: Option<BadTable>| {
        assert_eq!(limit(&[one, two], 16), why, "{one:?} {two:?}");
        assert_eq!(limit(&[two, one], 16), why, "{two:?} {one:?}");
    };
    let (place, address) = (
        Some(BadTable::SharedPlace(0, 1)),
        Some(BadTable::SharedAddress(0, 1)),
    );
    both(first(0, 4, 0), first(4, 4, 4), None);
    both(first(0, 4, 0), second(0, 4, 4), None);
    both(first(0, 4, 0), first(8, 4, 3), place);
    both(first(0, 4, 0), second(8, 4, 3), place);
    both(first(0, 8, 0), second(8, 1, 4), place);
    both(first(0, 4, 0), first(3, 4, 8), address);
    both(first(0, 8, 0), first(3, 1, 8), address);
    both(second(0, 4, 0), second(0, 4, 8), address);
    both(first(0, 8, 0), first(4, 0, 4), None);
    both(first(0, 8, 0), first(4, 0, 12), None);
    both(first(u32::MAX, 1, 0), first(0, 1, 1), None);
}

/// Tables that break more than one limit: the first is named, in the order that `Table::new` states.
#[test]
fn the_first_limit_is_named() {
    let named = |windows: &[Window], pool_len, why| {
        assert_eq!(
            limit(windows, pool_len),
            Some(why),
            "{windows:?} {pool_len}"
        );
    };
    let (one, far, wide) = (first(0, 4, 0), first(u32::MAX, 2, 0), first(0, 17, 0));
    let long = MAX_POOL + 1;
    // The number of windows, the pool, and then the windows.
    named(&[far; 17], long, BadTable::TooManyWindows(17));
    named(&[far; 17], 16, BadTable::TooManyWindows(17));
    named(&[far; 2], long, BadTable::PoolTooLong(long));
    named(&[one; 2], long, BadTable::PoolTooLong(long));
    // Each window in order, and its end in the addresses before its end in the pool.
    named(&[wide, far], 16, BadTable::BeyondPool(0));
    named(&[far, wide], 16, BadTable::BeyondAddresses(0));
    let both = first(u32::MAX, 17, 0);
    named(&[one, both], 16, BadTable::BeyondAddresses(1));
    // Every window alone before any two.
    named(&[one, one, second(0, 1, 16)], 16, BadTable::BeyondPool(2));
    // Each two in order: by the number of the earlier window, then by that of the later one.
    let (place, address) = (first(8, 4, 3), first(3, 4, 8));
    named(&[one, address, place], 16, BadTable::SharedAddress(0, 1));
    named(&[one, place, address], 16, BadTable::SharedPlace(0, 1));
    let other = second(0, 4, 12);
    named(
        &[one, other, other, address],
        16,
        BadTable::SharedAddress(0, 3),
    );
    named(&[other, one, other, place], 16, BadTable::SharedPlace(0, 2));
    // A shared place before a shared address.
    named(&[one, one], 16, BadTable::SharedPlace(0, 1));
}

/// Each two of sixteen, neighbours or not.
#[test]
fn every_pair_is_looked_at() {
    let apart: Vec<Window> = (0..16).map(|i| first(16 * i, 2, 2 * i as usize)).collect();
    assert_eq!(limit(&apart, 32), None);
    for j in 0..16 {
        for i in 0..j {
            let mut windows = apart.clone();
            windows[j].place = windows[i].place;
            assert_eq!(limit(&windows, 32), Some(BadTable::SharedPlace(i, j)));
            windows[j].place = apart[j].place;
            windows[j].first = windows[i].first + 1;
            assert_eq!(limit(&windows, 32), Some(BadTable::SharedAddress(i, j)));
            windows[j].owner = Owner::Second;
            assert_eq!(limit(&windows, 32), None);
        }
    }
}

/// The limit that two small windows break in a pool of 4, by their numbers one by one.
fn plain(windows: &[Window; 2]) -> Option<BadTable> {
    let numbers = |start: usize, window: &Window| start..start + window.length;
    let beyond = |i: usize| numbers(windows[i].place, &windows[i]).end > 4;
    let share = |start: fn(&Window) -> usize| {
        let [mut one, two] = [0, 1].map(|i: usize| numbers(start(&windows[i]), &windows[i]));
        one.any(|number| two.contains(&number))
    };
    if let Some(i) = (0..2).find(|&i| beyond(i)) {
        return Some(BadTable::BeyondPool(i));
    }
    if share(|window| window.place) {
        return Some(BadTable::SharedPlace(0, 1));
    }
    let owned = windows[0].owner == windows[1].owner;
    (owned && share(|window| window.first as usize)).then_some(BadTable::SharedAddress(0, 1))
}

/// A limit is named exactly where the proved function refuses, for each two small windows.
#[test]
fn a_limit_is_named_where_the_library_refuses() {
    let all: Vec<Window> = (0..128)
        .map(|i: usize| {
            window(
                OWNERS[i / 64],
                (i / 16 % 4) as u32,
                i / 4 % 4,
                if i % 4 == 3 { 4 } else { i % 4 },
            )
        })
        .collect();
    let mut refused = 0;
    for one in &all {
        for two in &all {
            let windows = [*one, *two];
            let bytes: Vec<u8> = windows
                .iter()
                .flat_map(|w| {
                    let (length, place) = (w.length as u64, w.place as u64);
                    ihex_sys::window(w.owner.number(), w.first, length, place)
                })
                .collect();
            let code = ihex_sys::check_table(&bytes, 4, 1);
            assert_eq!(limit(&windows, 4), plain(&windows), "{windows:?}");
            assert_eq!(code != 0, plain(&windows).is_some(), "{windows:?}");
            refused += usize::from(code != 0);
        }
    }
    assert!(refused > 1000 && refused < all.len() * all.len());
}

/// A cabinet: two windows of the first owner in another order than their addresses, one of the second, and a place of
/// nobody at each end.
fn cabinet() -> Table {
    let windows = [first(0x104, 2, 1), second(0x100, 3, 7), first(0x100, 4, 3)];
    Table::new(&windows, 11).unwrap()
}

/// What a load through the cabinet leaves, over a pool of EE and marks of FF, with the places of 0 marks and of others.
fn loaded(owner: Owner, text: &str) -> (Result<Loaded, LoadError>, [u8; 11], [u8; 2]) {
    let (mut pool, mut marks) = ([0xEE; 11], [0xFF; 2]);
    let table = cabinet();
    let answer = match text.starts_with('S') {
        true => table.load_srecords(owner, text, &mut pool, &mut marks),
        false => table.load(owner, text, &mut pool, &mut marks),
    };
    if answer.is_err() {
        assert_eq!((pool, marks), ([0xEE; 11], [0xFF; 2]), "{text:?}");
    }
    (answer, pool, marks)
}

#[test]
fn only_the_owners_places_change() {
    for text in [END, S_END] {
        let (answer, pool, marks) = loaded(Owner::First, text);
        assert_eq!(answer.unwrap().data_records, 0);
        assert_eq!((pool, marks), ([0xEE; 11], [0b1000_0001, 0xFF]));
        let (_, pool, marks) = loaded(Owner::Second, text);
        assert_eq!((pool, marks), ([0xEE; 11], [0b0111_1111, 0b1111_1100]));
    }
    // A record in two windows.
    let texts = [
        format!(":0301030011223393\n{END}"),
        format!("S10601031122338F\n{S_END}"),
    ];
    for text in texts {
        let (answer, pool, marks) = loaded(Owner::First, &text);
        assert_eq!(answer.unwrap().data_records, 1, "{text:?}");
        let held = [
            0xEE, 0x22, 0x33, 0xEE, 0xEE, 0xEE, 0x11, 0xEE, 0xEE, 0xEE, 0xEE,
        ];
        assert_eq!((pool, marks), (held, [0b1100_0111, 0xFF]));
        let (answer, ..) = loaded(Owner::Second, &text);
        let outside = LoadError::OutsideWindow {
            line: 1,
            address: 0x103,
        };
        assert_eq!(answer, Err(outside));
    }
}

#[test]
fn answers_are_the_loaders() {
    let said = |owner, text: &str| loaded(owner, text).0.map_err(|why| why.number());
    let start = "S70500001234B4\n";
    let linear = said(Owner::Second, start).unwrap().start;
    assert_eq!(linear, Some(Start::Linear(0x1234)));
    let segment = format!(":0400000312000010D7\n{END}");
    let segment = said(Owner::First, &segment).unwrap().start;
    assert_eq!(
        segment,
        Some(Start::Segment {
            cs: 0x1200,
            ip: 0x10
        })
    );
    assert_eq!(said(Owner::First, ""), Err(13));
    assert_eq!(said(Owner::First, "x"), Err(1));
    assert_eq!(said(Owner::First, S_END), said(Owner::Second, S_END));
    assert_eq!(
        said(Owner::Second, &format!("S5030001FB\n{S_END}")),
        Err(20)
    );
    let conflict = format!(":04000005000000CD2A\n:04000005000000CE29\n{END}");
    assert_eq!(said(Owner::First, &conflict), Err(21));
    let refused = loaded(Owner::First, ":0000000lFF\n").0.unwrap_err();
    assert_eq!((refused.line(), refused.column()), (Some(1), Some(9)));
    // What follows the end is not read.
    assert!(said(Owner::First, &format!("{END}x")).is_ok());
}

#[test]
fn the_owners_are_apart() {
    let table = cabinet();
    let (mut pool, mut marks) = ([0; 11], [0; 2]);
    let one = format!(":0101000011ED\n:0101050022D7\n{END}");
    let two = format!("S10401017782\n{S_END}");
    table
        .load(Owner::First, &one, &mut pool, &mut marks)
        .unwrap();
    let alone = (pool, marks);
    table
        .load_srecords(Owner::Second, &two, &mut pool, &mut marks)
        .unwrap();
    assert_eq!(pool, [0, 0, 0x22, 0x11, 0, 0, 0, 0, 0x77, 0, 0]);
    let marked: Vec<usize> = Marks::new(&marks, 11).runs().flatten().collect();
    assert_eq!(marked, [2, 3, 8]);
    // The second owner's next dump states nothing: its mark goes, and the first owner's stay.
    table
        .load(Owner::Second, END, &mut pool, &mut marks)
        .unwrap();
    assert_eq!(marks, alone.1);
    assert_eq!(pool[..7], alone.0[..7]);
}

/// One window that fills the pool: the load is that of the one-window loader, but for the unused bits.
#[test]
fn one_window_is_the_loader() {
    let texts = [
        format!(":0101000011ED\n{END}"),
        format!(":020109001122C1\n{END}"),
        format!(":02010A001122C0\n{END}"),
        END.into(),
        "x".into(),
        String::new(),
    ];
    for owner in OWNERS {
        let table = Table::new(&[window(owner, 0x100, 11, 0)], 11).unwrap();
        for text in &texts {
            let (mut page, mut row) = ([0xEE; 11], [0xFF; 2]);
            let (mut pool, mut marks) = (page, row);
            let should = load(text, 0x100, &mut page, &mut row);
            let is = table.load(owner, text, &mut pool, &mut marks);
            assert_eq!((&is, pool), (&should, page), "{text:?}");
            row[1] |= 0b1111_1000;
            assert_eq!(marks, row, "{text:?}");
        }
        let (mut page, mut marks) = ([0; 11], [0; 2]);
        let should = load_srecords(S_END, 0x100, &mut page, &mut marks);
        let is = table.load_srecords(owner, S_END, &mut page, &mut marks);
        assert_eq!(is, should);
    }
}

#[test]
fn other_lengths_are_refused_by_name() {
    let table = cabinet();
    assert_eq!((table.pool_len(), table.marks_len()), (11, 2));
    for (places, row) in [(10, 2), (12, 2), (0, 0), (11, 1), (11, 3), (11, 0), (16, 2)] {
        let (mut pool, mut marks) = (vec![7; places], vec![7; row]);
        let why = if places != 11 {
            BadTable::PoolLength {
                len: places,
                made_for: 11,
            }
        } else {
            BadTable::MarksLength {
                len: row,
                made_for: 2,
            }
        };
        for owner in OWNERS {
            // Before the text is looked at.
            for text in [END, "x", ""] {
                let refused = Err(LoadError::BadTable(why));
                assert_eq!(table.load(owner, text, &mut pool, &mut marks), refused);
                assert_eq!(
                    table.load_srecords(owner, text, &mut pool, &mut marks),
                    refused
                );
            }
        }
        assert!(pool.iter().chain(&marks).all(|&byte| byte == 7));
    }
    assert_eq!(table.marks_len(), marks_len(11));
}

/// Each limit with its words.
const WORDS: [(BadTable, &str); 8] = [
    (
        BadTable::TooManyWindows(17),
        "table has 17 windows, more than 16",
    ),
    (
        BadTable::PoolTooLong(65_537),
        "pool has 65537 bytes, more than 65536",
    ),
    (
        BadTable::BeyondAddresses(3),
        "windows[3] ends beyond the last address",
    ),
    (BadTable::BeyondPool(0), "windows[0] ends beyond the pool"),
    (
        BadTable::SharedPlace(0, 2),
        "windows[0] and windows[2] share a place of the pool",
    ),
    (
        BadTable::SharedAddress(1, 2),
        "windows[1] and windows[2] of one owner share an address",
    ),
    (
        BadTable::PoolLength {
            len: 7,
            made_for: 8,
        },
        "pool has 7 bytes, the table was made for 8",
    ),
    (
        BadTable::MarksLength {
            len: 2,
            made_for: 1,
        },
        "marks have 2 bytes, the table was made for 1",
    ),
];

#[test]
fn limits_print_and_have_a_number() {
    for (why, told) in WORDS {
        assert_eq!((why.number(), why.to_string()), (23, told.to_string()));
        let refused = LoadError::BadTable(why);
        assert_eq!((refused.number(), refused.line()), (23, None));
        assert_eq!((refused.to_string(), refused.column()), (told.into(), None));
        assert_eq!(refused.source().unwrap().to_string(), told);
    }
    assert_eq!(OWNERS.map(Owner::number), [1, 2]);
}
