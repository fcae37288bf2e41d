use ihex::{marks_len, Color, Light};

fn main() {
    // The controller's memory begins at 0100, and its first two bytes are a count that it keeps.
    let mut light = Light::new(0x100, 4, 0, 1).unwrap();
    let (mut page, mut marks) = ([0; 4], [0; marks_len(4)]);
    let dumps = [
        // Count 5.
        (":020100000005F8\n:00000001FF\n", Color::First, 5),
        // Count 6. What follows the end record, here the old count, is not read.
        (
            ":020100000006F7\n:00000001FF\n:020100000005F8\n",
            Color::Green,
            6,
        ),
        // The same dump again.
        (":020100000006F7\n:00000001FF\n", Color::Stale, 6),
        // The line was cut off before the end record. The light still knows the last count.
        (":020100000007F6\n", Color::Broken, 6),
        // The byte at 0102, and no count.
        (":0101020022DA\n:00000001FF\n", Color::NoCount, 6),
        (":020100000008F5\n:00000001FF\n", Color::Green, 8),
        // The controller begins anew.
        (":020100000000FD\n:00000001FF\n", Color::Restarted, 0),
    ];
    for (text, color, known) in dumps {
        let dumped = light.dump(text, &mut page, &mut marks);
        let count = light.known().map_or("none".into(), |n| n.to_string());
        println!("{:10}count {count}", dumped.color);
        if let Err(why) = dumped.load {
            println!("  {why}");
        }
        assert_eq!((dumped.color, light.known()), (color, Some(known)));
    }
    assert_eq!((page, marks), ([0, 0, 0x22, 0], [0b0011]));
}
