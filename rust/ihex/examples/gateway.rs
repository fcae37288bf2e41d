use std::error::Error;
use std::fs::{self, File};
use std::io::{self, Read, Write};

use ihex::{marks_len, write_page, Color, Dumps, Intake, Light, TextKind};

/// The controller's memory: its first address, and how many places it has.
const FIRST: u32 = 0x100;
const PLACES: usize = 4;
/// The places of the high and of the low byte of the count that the controller keeps.
const HIGH: usize = 0;
const LOW: usize = 1;

/// Writes a file under another name, and renames it when all of it is on the disk. A crash leaves the old file whole.
fn replace(name: &str, text: &str) -> io::Result<()> {
    let new = format!("{name}.new");
    let mut file = File::create(&new)?;
    file.write_all(text.as_bytes())?;
    file.sync_all()?;
    fs::rename(new, name)
}

/// Listens to a line until it ends. It says what each dump comes to as soon as that is decided, and keeps the page in a
/// file at the end.
fn gateway(line: impl Read, mut out: impl Write, name: &str) -> Result<(), Box<dyn Error>> {
    let (mut page, mut marks) = ([0xFF; PLACES], [0; marks_len(PLACES)]);
    let mut light = Light::new(FIRST, PLACES, HIGH, LOW)?;
    // Listening begins anywhere, perhaps in the middle of a dump.
    let intake = Intake::joining(TextKind::IntelHex, FIRST, PLACES)?;
    let mut dumps = Dumps::new(intake, line);
    let mut number = 0;
    while let Some(dump) = dumps.next_dump()? {
        number += 1;
        let load = dump.commit(&mut page, &mut marks);
        let shown = light.after(load, &page, &marks);
        let count = match light.known() {
            Some(count) if shown.color != Color::NoCount => format!(", count {count}"),
            _ => String::new(),
        };
        write!(out, "dump {number}: {}", shown.color)?;
        match shown.load {
            Ok(loaded) => writeln!(out, "{count}, {} data records", loaded.data_records)?,
            Err(why) => writeln!(out, ", {why}")?,
        }
        out.flush()?;
    }
    replace(name, &write_page(FIRST, &page, &marks)?)?;
    Ok(())
}

fn main() -> Result<(), Box<dyn Error>> {
    let name = std::env::args().nth(1).ok_or("usage: gateway FILE")?;
    gateway(io::stdin(), io::stdout(), &name)
}
