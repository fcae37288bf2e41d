use ihex::{ChunkReader, ReaderError, ReaderOptions, Record};

type Dump = Vec<Result<Record, ReaderError>>;

/// Reads the next chunk from a serial line that sends dump after dump. The last dump in the list goes on.
fn receive(reader: &mut ChunkReader, mut chunk: &[u8], dumps: &mut Vec<Dump>) {
    loop {
        dumps.last_mut().unwrap().extend(reader.feed(chunk));
        if !reader.is_finished() {
            return; // The chunk is used up, and the dump goes on in the next one.
        }
        chunk = &chunk[reader.used()..];
        reader.begin_next();
        dumps.push(Dump::new());
    }
}

fn main() {
    let first = ":0100000041BE\r\n:00000001FF\r\n";
    let second = "\r\n:0100000042BD\r\n:00000001FF\r\n";
    let sent = [first, second].concat();

    // Both dumps in one chunk. A new reader goes on after the end record of the first.
    let mut reader = ChunkReader::new();
    assert_eq!(reader.feed(&sent).count(), 2);
    assert_eq!(reader.used(), first.len());
    let mut next = ChunkReader::new();
    assert_eq!(next.feed(&sent[reader.used()..]).count(), 2);

    // Cut anywhere. A refused line does not stop this reader, so only an end record begins a new dump.
    let options = ReaderOptions {
        stop_after_first_error: false,
        stop_after_eof: true,
    };
    let read_alone = |dump: &str| -> Dump { ChunkReader::new().feed(dump).collect() };
    for cut in 0..=sent.len() {
        let mut reader = ChunkReader::new_with_options(options);
        let mut dumps = vec![Dump::new()];
        let (one, other) = sent.as_bytes().split_at(cut);
        receive(&mut reader, one, &mut dumps);
        receive(&mut reader, other, &mut dumps);
        let expected = [read_alone(first), read_alone(second), Dump::new()];
        assert_eq!(dumps, expected);
    }
}
