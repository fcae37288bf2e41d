//! How a port is made whose lights are wrong: by other rules, or by a change of what the port itself answers.

use ihex_sys::{COLOR_BROKEN, COLOR_FIRST, COLOR_NO_COUNT, COUNT_UNKNOWN};

use crate::inputs::lights::Dump;
use crate::inputs::tables::Kind;
use crate::models::lights::{
    as_count, color_after, last_byte, set_up, stated_in_page, After, Shown,
};
use crate::models::loads::{laid, LoadAnswer, Statement, RIGHT as LOADS};
use crate::subjects::port::{Port, Real};
use crate::subjects::told::Light;
use crate::wrong::named::{tell, Numbers, Places, Wrong};

/// A dump that is to be loaded.
pub struct Call<'a> {
    pub light: Light,
    pub kind: Kind,
    pub text: &'a [u8],
    pub known: u32,
    /// What stands where the color goes.
    pub color: u8,
    pub page: Vec<u8>,
    pub marks: Vec<u8>,
}

impl Call<'_> {
    /// The same as an input.
    fn dump(&self) -> Dump {
        Dump {
            page: self.page.len(),
            marks: self.marks.len(),
            ..Dump::new(self.light, self.kind, self.text.to_vec())
        }
    }

    /// What the port itself answers, with another light, kind or text in the place of this one.
    pub fn by_port(&self, light: Light, kind: Kind, text: &[u8]) -> After {
        let (mut page, mut marks) = (self.page.clone(), self.marks.clone());
        let (mut known, mut color, mut line, mut start) = (self.known, self.color, 0, 0);
        let (mut a, mut b, mut c) = (0, 0, 0);
        let (shown, places) = ((&mut known, &mut color), (&mut line, &mut start));
        let numbers = (&mut a, &mut b, &mut c);
        let code = match kind {
            Kind::Intel => Real.light(text, light, &mut page, &mut marks, shown, places, numbers),
            Kind::SRecords => {
                Real.light_srecords(text, light, &mut page, &mut marks, shown, places, numbers)
            }
        };
        let values = [a, b, c];
        let load = LoadAnswer {
            code,
            line,
            start,
            values,
        };
        After {
            shown: Shown { load, color, known },
            page,
            marks,
        }
    }

    /// What the port itself answers to another text.
    pub fn of_text(&self, text: &[u8]) -> After {
        self.by_port(self.light, self.kind, text)
    }

    /// What the port itself answers.
    fn right(&self) -> After {
        self.of_text(self.text)
    }

    /// What it answers if the light wants the length that the page has.
    pub fn at_any_length(&self) -> After {
        let light = Light {
            length: self.page.len(),
            ..self.light
        };
        self.by_port(light, self.kind, self.text)
    }
}

/// What a light's set-up returns, and what is known then, from what stood there before.
pub type SetUp = fn(Light, u32) -> (u32, u32);

/// A port that sets up lights so, and whose dumps come to this.
struct Panel<F> {
    set_up: SetUp,
    dump: F,
}

impl<F: Fn(&Call) -> After + Sync> Panel<F> {
    fn answer(
        &self,
        (light, kind, text): (Light, Kind, &[u8]),
        (page, marks): (&mut [u8], &mut [u8]),
        (known, color): (&mut u32, &mut u8),
        places: Places,
        numbers: Numbers,
    ) -> u32 {
        let after = (self.dump)(&Call {
            light,
            kind,
            text,
            known: *known,
            color: *color,
            page: page.to_vec(),
            marks: marks.to_vec(),
        });
        page.copy_from_slice(&after.page);
        marks.copy_from_slice(&after.marks);
        (*known, *color) = (after.shown.known, after.shown.color);
        tell(after.shown.load, places, numbers)
    }
}

impl<F: Fn(&Call) -> After + Sync> Port for Panel<F> {
    fn set_up_light(&self, light: Light, known: &mut u32) -> u32 {
        let (code, after) = (self.set_up)(light, *known);
        *known = after;
        code
    }

    fn light(
        &self,
        text: &[u8],
        light: Light,
        page: &mut [u8],
        marks: &mut [u8],
        shown: (&mut u32, &mut u8),
        places: Places,
        numbers: Numbers,
    ) -> u32 {
        let given = (light, Kind::Intel, text);
        self.answer(given, (page, marks), shown, places, numbers)
    }

    fn light_srecords(
        &self,
        text: &[u8],
        light: Light,
        page: &mut [u8],
        marks: &mut [u8],
        shown: (&mut u32, &mut u8),
        places: Places,
        numbers: Numbers,
    ) -> u32 {
        let given = (light, Kind::SRecords, text);
        self.answer(given, (page, marks), shown, places, numbers)
    }
}

/// The right set-up.
fn set_up_right(light: Light, _: u32) -> (u32, u32) {
    (set_up(light), COUNT_UNKNOWN)
}

/// A port that sets up lights so; its dumps are right.
pub fn sets_up(name: &'static str, set_up: SetUp) -> Wrong {
    let dump = |call: &Call| call.right();
    (name, Box::new(Panel { set_up, dump }))
}

/// A port whose dumps give the right answers, each changed where this holds of it.
pub fn changed(
    name: &'static str,
    holds: fn(&Call, &After) -> bool,
    change: fn(&Call, &mut After),
) -> Wrong {
    let dump = move |call: &Call| {
        let mut after = call.right();
        if holds(call, &after) {
            change(call, &mut after);
        }
        after
    };
    let set_up = set_up_right;
    (name, Box::new(Panel { set_up, dump }))
}

/// What a light goes by that carries the count from dump to dump.
#[derive(Clone, Copy)]
pub struct Rules {
    /// Whether a light for a page of a length refuses one of another.
    pub misfits: fn(usize, usize) -> bool,
    /// The byte of a place, from what an accepted dump states.
    pub byte: fn(&Call, &Statement, usize) -> Option<u8>,
    /// The count, from its high and its low byte, if there are both.
    pub count: fn(&Call, Option<u8>, Option<u8>) -> Option<u16>,
    /// The known count, from the number that stands for it.
    pub reads: fn(u32) -> Option<u16>,
    /// The color of a count, if none is known.
    pub first: u8,
    /// The color of a count after a known one.
    pub color: fn(u16, u16) -> u8,
    /// What is known after a dump of a color, from what was known, and from the count that the dump states.
    pub known: fn(u8, u32, Option<u16>) -> u32,
}

/// The right rules.
pub const RIGHT: Rules = Rules {
    misfits: |length, page| length != page,
    byte: |_, stated, place| last_byte(&stated.places, place),
    count: |_, high, low| joined(high, low),
    reads: as_count,
    first: COLOR_FIRST,
    color: color_after,
    known: remembered,
};

/// A count by its two bytes, if there are both.
pub fn joined(high: Option<u8>, low: Option<u8>) -> Option<u16> {
    Some(256 * u16::from(high?) + u16::from(low?))
}

/// What is known after a dump.
pub fn remembered(_: u8, known: u32, count: Option<u16>) -> u32 {
    count.map_or(known.min(COUNT_UNKNOWN), u32::from)
}

/// What a dump comes to by these rules.
fn dumped(rules: Rules, call: &Call) -> After {
    let stated = match (rules.misfits)(call.light.length, call.page.len()) {
        true => Err(LoadAnswer::refused(16, 0, 0, 0)),
        false => stated_in_page(call.light, &call.dump()),
    };
    let (color, count) = match &stated {
        Err(_) => (COLOR_BROKEN, None),
        Ok(stated) => {
            let byte = |place| (rules.byte)(call, stated, place);
            let count = (rules.count)(call, byte(call.light.high), byte(call.light.low));
            let color = match (count, (rules.reads)(call.known)) {
                (None, _) => COLOR_NO_COUNT,
                (Some(_), None) => rules.first,
                (Some(count), Some(known)) => (rules.color)(known, count),
            };
            (color, count)
        }
    };
    let (mut page, mut marks) = (call.page.clone(), call.marks.clone());
    After {
        shown: Shown {
            load: laid(stated, LOADS.mark, &mut page, &mut marks),
            color,
            known: (rules.known)(color, call.known, count),
        },
        page,
        marks,
    }
}

/// A port whose dumps go by these rules.
pub fn ruled(name: &'static str, rules: Rules) -> Wrong {
    let panel = Panel {
        set_up: set_up_right,
        dump: move |call: &Call| dumped(rules, call),
    };
    (name, Box::new(panel))
}
