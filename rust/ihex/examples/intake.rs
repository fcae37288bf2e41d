use ihex::{marks_len, Fed, Intake, LoadError, Paused, TextKind};

/// Feeds a chunk to its end, and commits each dump that is ready. What each dump comes to, in data records, goes into the list.
fn receive(
    intake: &mut Intake,
    mut chunk: &[u8],
    page: &mut [u8],
    marks: &mut [u8],
    list: &mut Vec<Result<usize, LoadError>>,
) {
    while !chunk.is_empty() {
        let step = intake.feed(chunk);
        chunk = &chunk[step.used..];
        match step.fed {
            Fed::Ready(ready) => {
                list.push(ready.commit(page, marks).map(|loaded| loaded.data_records))
            }
            Fed::Refused(why) => list.push(Err(why)),
            Fed::WantsMore | Fed::Passed => {}
        }
    }
}

fn main() {
    // Two dumps and a half. The first line of the second one has lost its colon.
    let sent = b":0101000041BD\n:00000001FF\n\
        0101000042BC\n:0101010043BA\n:00000001FF\n\
        :0101010044B9\r\n:00000001FF";
    let refused = |why: LoadError| (why.line(), why.number());
    for cut in 0..=sent.len() {
        let mut intake = Intake::new(TextKind::IntelHex, 0x100, 4).unwrap();
        let (mut page, mut marks) = ([0xEE; 4], [0; marks_len(4)]);
        let mut list = Vec::new();
        let (one, other) = sent.split_at(cut);
        receive(&mut intake, one, &mut page, &mut marks, &mut list);
        receive(&mut intake, other, &mut page, &mut marks, &mut list);
        // The rest of the refused dump was skipped, through its end record.
        assert_eq!(list.len(), 2);
        assert_eq!(list[0], Ok(1));
        assert_eq!(list[1].map_err(refused), Err((Some(1), 1)));
        assert_eq!((page, marks), ([0x41, 0xEE, 0xEE, 0xEE], [0b0001]));

        // No LF ended the last line: the pause does. The page changes when the dump is committed.
        let ready = match intake.pause() {
            Paused::Ready(ready) => ready,
            other => panic!("{other:?}"),
        };
        assert_eq!(ready.loaded().data_records, 1);
        assert_eq!(ready.stated().count(), 1);
        ready.commit(&mut page, &mut marks).unwrap();
        assert_eq!((page, marks), ([0x41, 0x44, 0xEE, 0xEE], [0b0010]));
    }
}
