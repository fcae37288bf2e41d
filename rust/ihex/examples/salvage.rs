use ihex::{salvage, salvage_into, Dropped, ReaderError, Reason, SalvageError, DROPPED_SIZE};

fn main() {
    // In the third line a character is not a digit, and the line may be a type 04. So the data after it is dropped,
    // until a type 04 comes. There is no end record.
    let capture = [
        ":020000040001F9",
        ":0100000011EE",
        ":0200000400O2F8",
        ":0100000022DD",
        ":020000040003F7",
        ":0100000033CC",
        "",
    ];
    let saved = salvage(&capture.join("\r\n")).unwrap();
    let kept = [
        ":020000040001F9",
        ":0100000011EE",
        ":020000040003F7",
        ":0100000033CC",
        ":00000001FF",
    ];
    assert_eq!(saved.clean, kept.join("\n") + "\n");

    let told: Vec<String> = saved.dropped().map(|dropped| dropped.to_string()).collect();
    let words = [
        "line 3, column 12: invalid characters encountered in record",
        "line 4: base unknown after a refused line",
        "end of file record added, the text has none",
    ];
    assert_eq!(told, words);
    let Dropped { line, reason, .. } = saved.dropped().next().unwrap();
    let error = ReaderError::ContainsInvalidCharacters(11);
    assert_eq!((line, reason), (3, Reason::Refused(error)));

    // Salvaged again, the clean file is itself, and nothing is dropped.
    let again = salvage(&saved.clean).unwrap();
    assert_eq!((&again.clean, again.dropped().len()), (&saved.clean, 0));

    // Into buffers that are lent: no more than 13 bytes beyond the text, and an entry for each line and one.
    let (mut out, mut list) = ([0; 128], [0; 8 * DROPPED_SIZE]);
    let lent = salvage_into("noise\n:00000001FF", &mut out, &mut list).unwrap();
    assert_eq!((lent.clean, lent.dropped.len()), (":00000001FF\n", 1));
    let full = salvage_into("noise", &mut out, &mut list[..DROPPED_SIZE]);
    assert_eq!(full.unwrap_err(), SalvageError::ListFull);
}
