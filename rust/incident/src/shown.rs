//! Page, marks and answer of each side in a table, and in words what the panel draws from them.

use ihex::Marks;

use crate::{Side, FIRST, PLACES};

/// A value on the panel: two bytes of decimal digits, high byte first.
pub(crate) struct Value {
    address: u32,
    name: &'static str,
    unit: &'static str,
}

const fn value(address: u32, name: &'static str, unit: &'static str) -> Value {
    Value {
        address,
        name,
        unit,
    }
}

/// The head of the crate's side.
pub(crate) const CRATES: &str = "crate, stop_after_eof off";

/// What stands where a value is not drawn.
pub(crate) const NOTHING: &str = "-";

const TIME: Value = value(0x2000_0100, "time", "");
pub(crate) const TANK_3: Value = value(0x2000_0114, "tank 3", " mm");
const MEASURED: [Value; 7] = [
    value(0x2000_0110, "tank 1", " mm"),
    value(0x2000_0112, "tank 2", " mm"),
    TANK_3,
    value(0x2000_0116, "tank 4", " mm"),
    value(0x2000_0118, "tank 5", " mm"),
    value(0x2000_0120, "inlet valve", " %"),
    value(0x2000_0122, "outlet valve", " %"),
];

impl Value {
    /// The places of its two bytes.
    fn places(&self) -> [usize; 2] {
        let place = (self.address - FIRST) as usize;
        [place, place + 1]
    }

    fn bytes(&self, side: &Side) -> [u8; 2] {
        self.places().map(|place| side.page[place])
    }

    /// Which of its two bytes are marked.
    fn marked(&self, side: &Side) -> [bool; 2] {
        let marks = Marks::new(&side.marks, PLACES);
        self.places().map(|place| marks.is_marked(place))
    }

    /// What the panel draws, if both bytes are marked.
    pub(crate) fn drawn(&self, side: &Side) -> Option<String> {
        let [high, low] = self.bytes(side);
        let digits = u16::from_be_bytes([high, low]);
        match self.marked(side) {
            [true, true] if self.unit.is_empty() => Some(format!("{high:02X}:{low:02X}")),
            [true, true] => Some(format!("{digits:X}{}", self.unit)),
            _ => None,
        }
    }
}

/// The text of the whole demonstration. The crate's side may not be at hand.
pub fn shown(text: &[u8], of_crate: Option<&Side>, of_port: &Side) -> String {
    let mut out = String::new();
    if of_crate.is_none() {
        out += "the source of the crate ihex is not at hand: the library's side is shown alone\n\n";
    }
    out += &buffer(text);
    out += &table(of_crate, of_port);
    if let Some(side) = of_crate {
        out += &format!(
            "\nThe panel, from the crate's page:\n{}{}",
            panel(side),
            old(side, of_port)
        );
    }
    out + &format!(
        "\nThe panel, from the library's page:\n{}{LOADER}",
        panel(of_port)
    )
}

const LOADER: &str = "  Nothing after the end record is read: the loader has no switch for that.\n";

/// The buffer's lines, and which of them stand after the end record.
fn buffer(text: &[u8]) -> String {
    let mut reader = ihex::ByteReader::new(text);
    let ends = reader.by_ref().last() == Some(Ok(ihex::Record::EndOfFile));
    let mut out = String::from("The receive buffer:\n\n");
    for (i, line) in String::from_utf8_lossy(text).lines().enumerate() {
        let after = if ends && i >= reader.line() {
            "after the end record"
        } else {
            ""
        };
        out += &row(&format!("{:3}  {line:34}{after}", i + 1));
    }
    out + "\n"
}

fn table(of_crate: Option<&Side>, of_port: &Side) -> String {
    let beside = of_crate.map(|side| (CRATES, side));
    let sides: Vec<_> = beside
        .into_iter()
        .chain([("library's loader", of_port)])
        .collect();
    let line = |left: [&str; 2], cell: &dyn Fn(&str, &Side) -> String| {
        let cells: String = sides
            .iter()
            .map(|(name, side)| format!("{:27}", cell(name, side)))
            .collect();
        format!("{:10}{:14}{cells}", left[0], left[1])
    };
    let mut out = row(&line(["", ""], &|name, _| name.into()));
    out += &row(&line(["address", "value"], &|_, _| {
        "bytes  marks  drawn".into()
    }));
    for value in [&TIME].into_iter().chain(&MEASURED) {
        let address = format!("{:08X}", value.address);
        let told = line([&address, value.name], &|_, side| cell(value, side));
        let differs = of_crate.map_or(false, |side| cell(value, side) != cell(value, of_port));
        out += &row(&(told + if differs { "differs" } else { "" }));
    }
    out + &row(&line(["answer", ""], &|_, side| answer(side)))
}

fn cell(value: &Value, side: &Side) -> String {
    let ([a, b], [m, n]) = (value.bytes(side), value.marked(side).map(u8::from));
    let drawn = value.drawn(side).unwrap_or_else(|| NOTHING.into());
    format!("{a:02X} {b:02X}  {m} {n}    {drawn}")
}

fn answer(side: &Side) -> String {
    match &side.answer {
        Ok(records) => format!("accepted, {records} data records"),
        Err(why) => format!("refused, {why}"),
    }
}

/// The time that the old light is green beside. It is green when a dump was accepted and states its time.
pub(crate) fn old_light(side: &Side) -> Option<String> {
    TIME.drawn(side).filter(|_| side.answer.is_ok())
}

/// What the panel draws, with the old light.
fn panel(side: &Side) -> String {
    if side.answer.is_err() {
        return "  nothing new: the dump was refused, and the light is not green.\n".into();
    }
    let said = |value: &Value| match value.drawn(side) {
        Some(drawn) => format!("{} at {drawn}", value.name),
        None => format!("{} not stated", value.name),
    };
    let lines: Vec<String> = MEASURED
        .chunks(5)
        .map(|part| part.iter().map(said).collect::<Vec<_>>().join(", "))
        .collect();
    let light = match old_light(side) {
        Some(time) => format!("the old light is green, beside the time {time}"),
        None => "the old light is not green, for no time is stated".into(),
    };
    format!("  {light};\n  {}.\n", lines.join(",\n  "))
}

/// What is wrong with the crate's panel, where it is not the library's.
fn old(of_crate: &Side, of_port: &Side) -> String {
    let wrong = MEASURED
        .iter()
        .filter(|value| value.drawn(of_crate) != value.drawn(of_port))
        .count();
    if of_crate.answer.is_err() || wrong == 0 {
        return String::new();
    }
    format!(
        "  {wrong} of these are old: they come from after the end record. The next dump brings a new\n  \
         time, the tail is laid over it again, and the levels stand still under a green light.\n"
    )
}

/// A line, with no blanks at its end.
pub(crate) fn row(line: &str) -> String {
    format!("{}\n", line.trim_end())
}
