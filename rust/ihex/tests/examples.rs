//! The examples of the documentation as ordinary tests, since documentation tests are passed over
//! when cross-building; and what rust/README.md shows of them.

use std::fs;

macro_rules! example {
    ($name:ident, $file:literal) => {
        mod $name {
            include!($file);

            #[test]
            fn runs() {
                main()
            }
        }
    };
}

example!(record, "../examples/record.rs");
example!(text, "../examples/text.rs");
example!(bytes, "../examples/bytes.rs");
example!(lines, "../examples/lines.rs");
example!(chunks, "../examples/chunks.rs");
example!(dumps, "../examples/dumps.rs");
example!(object, "../examples/object.rs");
example!(load, "../examples/load.rs");
example!(start, "../examples/start.rs");
example!(marks, "../examples/marks.rs");
example!(page, "../examples/page.rs");
example!(salvage, "../examples/salvage.rs");
example!(srecord, "../examples/srecord.rs");
example!(srecords, "../examples/srecords.rs");
example!(table, "../examples/table.rs");
example!(ask, "../examples/ask.rs");
example!(light, "../examples/light.rs");
example!(intake, "../examples/intake.rs");

/// The gateway reads standard input, so it is run here on a line that is at hand.
#[allow(dead_code)]
mod gateway {
    include!("../examples/gateway.rs");

    /// The end of a dump, five dumps, and the beginning of one.
    const LINE: &str = "\
        0041BD\n:00000001FF\n\
        :020100000005F8\n:00000001FF\n\
        :020100000006F7\n:00000001FF\n\
        \r\n:020100000007F6\n:0101020o22DA\n:00000001FF\n\
        :0101020022DA\r\n:00000001FF\r\n\
        :020100000005F8\n:0101030033C8\n:00000001FF\n\
        :020100000008F5\n";

    const SAID: &str = "\
        dump 1: first, count 5, 1 data records\n\
        dump 2: green, count 6, 1 data records\n\
        dump 3: broken, line 2, column 9: invalid characters encountered in record\n\
        dump 4: no count, 1 data records\n\
        dump 5: restarted, count 5, 2 data records\n\
        dump 6: broken, text has no end of file record\n";

    #[test]
    fn runs() {
        let name = concat!(env!("CARGO_TARGET_TMPDIR"), "/gateway.hex");
        fs::write(name, "what was kept before").unwrap();
        let mut said = Vec::new();
        gateway(LINE.as_bytes(), &mut said, name).unwrap();
        assert_eq!(String::from_utf8(said).unwrap(), SAID);
        let kept = ":020000040000FA\n:020100000005F8\n:0101030033C8\n:00000001FF\n";
        assert_eq!(fs::read_to_string(name).unwrap(), kept);
        fs::remove_file(name).unwrap();
        assert!(!std::path::Path::new(&format!("{name}.new")).exists());
    }

    #[test]
    fn is_short() {
        let lines = include_str!("../examples/gateway.rs").lines().count();
        assert!(lines < 60, "{lines}");
    }
}

/// Each block of Rust in rust/README.md is a run of lines of the example that is named last before it, with four blanks
/// less at the beginning of each.
#[test]
fn the_readme_shows_lines_of_examples() {
    let mut shown = include_str!("../../README.md").split("```rust\n");
    let mut before = shown.next().unwrap();
    let mut blocks = 0;
    for rest in shown {
        let (block, after) = rest.split_once("```\n").unwrap();
        let (_, named) = before.rsplit_once("`ihex/examples/").unwrap();
        let (name, _) = named.split_once('`').unwrap();
        let path = format!("{}/examples/{name}", env!("CARGO_MANIFEST_DIR"));
        let lines: String = fs::read_to_string(path)
            .unwrap()
            .lines()
            .map(|line| format!("{}\n", line.strip_prefix("    ").unwrap_or(line)))
            .collect();
        assert!(lines.contains(&format!("\n{block}")), "{name}: {block}");
        before = after;
        blocks += 1;
    }
    assert!(blocks > 0);
}
