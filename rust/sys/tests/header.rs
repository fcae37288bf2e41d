//! The numbers of this crate are those of include/ihex.h.

const HEADER: &str = include_str!("../../../include/ihex.h");

/// The number that the header gives a name.
fn defined(name: &str) -> Option<u64> {
    let rest = |line: &'static str| line.strip_prefix("#define IHEX_")?.strip_prefix(name);
    let number = HEADER
        .lines()
        .find_map(|line| rest(line)?.strip_prefix(' '));
    number?.split_whitespace().next()?.parse().ok()
}

#[test]
fn numbers_are_the_headers() {
    let numbers: [(&str, u64); 33] = [
        ("REFUSED", ihex_sys::REFUSED.into()),
        ("DONE", ihex_sys::DONE.into()),
        ("USED_UP", ihex_sys::USED_UP.into()),
        ("PASSED", ihex_sys::PASSED.into()),
        ("NOT_READY", ihex_sys::NOT_READY.into()),
        ("BAD_RECORD", ihex_sys::BAD_RECORD.into()),
        (
            "STOP_AFTER_FIRST_ERROR",
            ihex_sys::STOP_AFTER_FIRST_ERROR.into(),
        ),
        ("STOP_AFTER_EOF", ihex_sys::STOP_AFTER_EOF.into()),
        ("FINISHED", ihex_sys::FINISHED.into()),
        ("CR_WAITS", ihex_sys::CR_WAITS.into()),
        ("FRONT", ihex_sys::FRONT.into()),
        ("TAKING", ihex_sys::TAKING.into()),
        ("SKIPPING", ihex_sys::SKIPPING.into()),
        ("READY", ihex_sys::READY.into()),
        ("SRECORDS", ihex_sys::SRECORDS.into()),
        ("CARRY", ihex_sys::CARRY as u64),
        ("NOWHERE", ihex_sys::NOWHERE.into()),
        ("IN_CHUNK", ihex_sys::IN_CHUNK.into()),
        ("IN_CARRY", ihex_sys::IN_CARRY.into()),
        ("NO_START", ihex_sys::NO_START.into()),
        (
            "START_SEGMENT_ADDRESS",
            ihex_sys::START_SEGMENT_ADDRESS.into(),
        ),
        (
            "START_LINEAR_ADDRESS",
            ihex_sys::START_LINEAR_ADDRESS.into(),
        ),
        ("RECORD_SIZE", ihex_sys::ENTRY as u64),
        ("DROPPED_SIZE", ihex_sys::DROPPED as u64),
        ("BASE_UNKNOWN", ihex_sys::BASE_UNKNOWN.into()),
        (
            "MISSING_END_OF_FILE_RECORD",
            ihex_sys::MISSING_END_OF_FILE_RECORD.into(),
        ),
        ("WINDOW_SIZE", ihex_sys::WINDOW as u64),
        ("MOST_WINDOWS", ihex_sys::MOST_WINDOWS as u64),
        ("BAD_TABLE", ihex_sys::BAD_TABLE.into()),
        ("MAX_PAGE", ihex_sys::MAX_PAGE as u64),
        ("MAX_PAGE_FILE", ihex_sys::MAX_PAGE_FILE as u64),
        ("MAX_SRECORD_DATA", ihex_sys::MAX_SRECORD_DATA as u64),
        ("MAX_SRECORD_LINE", ihex_sys::MAX_SRECORD_LINE as u64),
    ];
    for (name, number) in numbers {
        assert_eq!(defined(name), Some(number), "{name}");
    }
}
