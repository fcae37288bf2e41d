//! Lights: the model against the port and the face; and what must hold of the port's dumps whatever a model says of them.

use ihex::{BadPlace, Color};
use ihex_sys::{
    COLOR_BROKEN, COLOR_FIRST, COLOR_GREEN, COLOR_NO_COUNT, COLOR_RESTARTED, COLOR_STALE,
    COUNT_UNKNOWN, REFUSED,
};

use crate::comparisons::lent::{first_unlike, Lent};
use crate::comparisons::loads::{answer, as_port, guarded};
use crate::comparisons::run::{block_of, blocks, by_block, Kind, Plan};
use crate::comparisons::seen::Answers;
use crate::inputs::chance::Chance;
use crate::inputs::lights::{long_row, short_row, Dump, LightCase, LongRow};
use crate::inputs::lights_by_rule as by_rule;
use crate::inputs::tables::Kind as TextKind;
use crate::models::lights::{as_count, model, moved, read_part, set_up, After, Shown};
use crate::subjects::port::Port;
use crate::subjects::told::Light;

/// What lights are to be asked for: set-ups, dumps of each kind, each color, each two colors of dumps that follow each other, the
/// first as the tens, and how far the count moved.
pub static SEEN: [Answers; 6] = [
    Answers::new("set-up of a light", &[0, 280]),
    Answers::new("light", &[0, 257, 258, 262, 269, 272, 273, 277]),
    Answers::new("light of S-records", &[0, 257, 262, 269, 272, 273, 276]),
    Answers::new("light, by its color", &[0, 1, 2, 3, 4, 5]),
    Answers::new(
        "light, by two colors in a row",
        &[
            0, 1, 2, 3, 4, 5, 10, 11, 12, 13, 14, 15, 20, 21, 23, 24, 25, 30, 31, 33, 34, 35, 40,
            41, 43, 44, 45, 50, 51, 53, 54, 55,
        ],
    ),
    Answers::new(
        "light, by how far the count moved",
        &[0, 1, 2, 32_766, 32_767, 32_768, 32_769, 65_534, 65_535],
    ),
];

/// What a light that is to be set up knows before, which is a count.
const BEFORE_SET_UP: u32 = 7;
/// What the color is before a dump, which is none.
const NO_COLOR: u8 = 7;

/// A dump that is to be loaded: what the light knows, and what page and marks hold.
#[derive(Clone)]
struct Before<'a> {
    light: Light,
    dump: &'a Dump,
    known: u32,
    page: Vec<u8>,
    marks: Vec<u8>,
}

impl Before<'_> {
    /// What the port answers to this text, and what it leaves; or what it has written beside that.
    fn call(&self, port: &dyn Port, text: &[u8]) -> Result<After, String> {
        let (mut page, mut marks) = (Lent::holding(&self.page), Lent::holding(&self.marks));
        let (mut knowns, mut colors) = ([3, self.known, 5], [3, NO_COLOR, 5]);
        let load = guarded(
            text,
            &mut page,
            &mut marks,
            |text, page, marks, places, numbers| {
                let shown = (&mut knowns[1], &mut colors[1]);
                match self.dump.kind {
                    TextKind::Intel => {
                        port.light(text, self.light, page, marks, shown, places, numbers)
                    }
                    TextKind::SRecords => {
                        port.light_srecords(text, self.light, page, marks, shown, places, numbers)
                    }
                }
            },
        )?;
        let beside = (knowns[0], knowns[2], colors[0], colors[2]);
        if beside != (3, 5, 3, 5) || !page.is_guarded() || !marks.is_guarded() {
            return Err("something beside the lent ones was written".into());
        }
        Ok(After {
            shown: Shown {
                load,
                color: colors[1],
                known: knowns[1],
            },
            page: page.bytes().to_vec(),
            marks: marks.bytes().to_vec(),
        })
    }

    /// The same dump, after what it has come to.
    fn again(&self, after: &After) -> Self {
        Before {
            known: after.shown.known,
            page: after.page.clone(),
            marks: after.marks.clone(),
            ..self.clone()
        }
    }
}

/// What the port returns for the set-up of a light, and what the light knows then.
fn made(port: &dyn Port, light: Light) -> Result<(u32, u32), String> {
    let mut knowns = [3, BEFORE_SET_UP, 5];
    let code = port.set_up_light(light, &mut knowns[1]);
    match (knowns[0], knowns[2]) {
        (3, 5) => Ok((code, knowns[1])),
        _ => Err("numbers beside the lent one were written".into()),
    }
}

/// Loads each dump of a row upon what the port has left, and looks at each: at its number, and at what was before it and after it.
fn walk(
    port: &dyn Port,
    case: &LightCase,
    look: impl Fn(usize, &Before, &After) -> Result<(), String>,
) -> Result<(), String> {
    let (_, begins) = made(port, case.light)?;
    let mut known = case.known.unwrap_or(begins);
    let (mut page, mut marks) = (Vec::new(), Vec::new());
    for (n, dump) in case.dumps.iter().enumerate() {
        dump.prepare(&mut page, &mut marks);
        let before = Before {
            light: case.light,
            dump,
            known,
            page,
            marks,
        };
        let told = |wrong: String| format!("dump {n}: {wrong}");
        let after = before.call(port, &dump.text).map_err(told)?;
        look(n, &before, &after).map_err(told)?;
        (known, page, marks) = (after.shown.known, after.page, after.marks);
    }
    Ok(())
}

/// Notes what should be answered to a dump, after the color of the one before it.
fn note(before: &Before, should: Shown, color: Option<u8>) {
    let seen = match before.dump.kind {
        TextKind::Intel => &SEEN[1],
        TextKind::SRecords => &SEEN[2],
    };
    seen.note(should.load.code);
    SEEN[3].note(should.color.into());
    if let Some(color) = color {
        SEEN[4].note(10 * u32::from(color) + u32::from(should.color));
    }
    if let COLOR_GREEN | COLOR_STALE | COLOR_RESTARTED = should.color {
        let counts = [before.known, should.known].map(|known| as_count(known).unwrap_or(0));
        SEEN[5].note(moved(counts[0], counts[1]));
    }
}

/// What is wrong with what is left, if it should be this.
fn unlike(is: &[u8], should: &[u8], name: &str) -> Result<(), String> {
    first_unlike(name, is, should).map_or(Ok(()), Err)
}

/// Whether the set-up of a light is as the model says, and leaves no count.
fn set_up_right(port: &dyn Port, light: Light) -> Result<(), String> {
    let (is, should) = (made(port, light)?, (set_up(light), COUNT_UNKNOWN));
    SEEN[0].note(should.0);
    match is == should {
        true => Ok(()),
        false => Err(format!("set-up {is:?}, model {should:?}")),
    }
}

/// What is wrong with the port's answers to a row of dumps.
fn port(port: &dyn Port, case: &LightCase) -> Option<String> {
    let should = model(case);
    let colors = |n: usize| Some(should[n.checked_sub(1)?].shown.color);
    let compared = |n: usize, before: &Before, after: &After| {
        let (is, should) = (after.shown, should[n].shown);
        note(before, should, colors(n));
        match is == should {
            true => Ok(()),
            false => Err(format!("port {is:?}, model {should:?}")),
        }
    };
    let walked = walk(port, case, |n, before, after| {
        compared(n, before, after)?;
        unlike(&after.page, &should[n].page, "page")?;
        unlike(&after.marks, &should[n].marks, "marks")
    });
    walked.and_then(|()| set_up_right(port, case.light)).err()
}

/// What is wrong beside the port's own load of each dump into a page of the light's length.
fn beside_load(port: &dyn Port, case: &LightCase) -> Option<String> {
    let beside = |_: usize, before: &Before, after: &After| {
        if before.page.len() != before.light.length {
            return Ok(());
        }
        let (first, text) = (before.light.first, &before.dump.text);
        let (mut page, mut marks) = (before.page.clone(), before.marks.clone());
        let should = answer(|places, numbers| match before.dump.kind {
            TextKind::Intel => port.load(text, first, &mut page, &mut marks, places, numbers),
            TextKind::SRecords => {
                port.load_srecords(text, first, &mut page, &mut marks, places, numbers)
            }
        });
        let is = after.shown.load;
        if is != should {
            return Err(format!("light {is:?}, load {should:?}"));
        }
        unlike(&after.page, &page, "page")?;
        unlike(&after.marks, &marks, "marks")
    };
    walk(port, case, beside).err()
}

/// What is wrong with the same dump, twice running: it is green the second time.
fn twice(port: &dyn Port, case: &LightCase) -> Option<String> {
    let again = |_: usize, before: &Before, after: &After| {
        let second = before.again(after).call(port, &before.dump.text)?.shown;
        match second.color {
            COLOR_GREEN => Err(format!("{:?}, and again {second:?}", after.shown)),
            _ => Ok(()),
        }
    };
    walk(port, case, again).err()
}

/// What is wrong with a dump that ends with the line at which its load stops: it has another color, or another count is known.
fn cut(port: &dyn Port, case: &LightCase) -> Option<String> {
    let cut = |_: usize, before: &Before, after: &After| {
        let Dump { kind, text, .. } = before.dump;
        let part = read_part(*kind, text, after.shown.load);
        if part.len() == text.len() {
            return Ok(());
        }
        let (is, whole) = (before.call(port, part)?.shown, after.shown);
        match (is.color, is.known) == (whole.color, whole.known) {
            true => Ok(()),
            false => Err(format!("whole {whole:?}, up to where it stops {is:?}")),
        }
    };
    walk(port, case, cut).err()
}

/// A color of the face by its number.
pub fn number(color: Color) -> u8 {
    match color {
        Color::Broken => COLOR_BROKEN,
        Color::NoCount => COLOR_NO_COUNT,
        Color::First => COLOR_FIRST,
        Color::Green => COLOR_GREEN,
        Color::Stale => COLOR_STALE,
        Color::Restarted => COLOR_RESTARTED,
    }
}

/// Whether the place that the face names lies outside, and is the first that does.
fn is_true(why: BadPlace, light: Light) -> bool {
    let (high, low) = (light.high >= light.length, light.low >= light.length);
    match why {
        BadPlace::High { place, length } => high && (place, length) == (light.high, light.length),
        BadPlace::Low { place, length } => {
            !high && low && (place, length) == (light.low, light.length)
        }
    }
}

/// Whether each answer of a light of the face to a row of dumps is as the model says.
fn lit(light: &mut ihex::Light, case: &LightCase) -> Result<(), String> {
    let (mut page, mut marks) = (Vec::new(), Vec::new());
    for (dump, should) in case.dumps.iter().zip(model(case)) {
        dump.prepare(&mut page, &mut marks);
        let dumped = match dump.kind {
            TextKind::Intel => light.dump(&dump.text, &mut page, &mut marks),
            TextKind::SRecords => light.dump_srecords(&dump.text, &mut page, &mut marks),
        };
        let is = Shown {
            load: as_port(dumped.load),
            color: number(dumped.color),
            known: light.known().map_or(COUNT_UNKNOWN, u32::from),
        };
        if is != should.shown {
            return Err(format!("face {is:?}, model {:?}", should.shown));
        }
        unlike(&page, &should.page, "page")?;
        unlike(&marks, &should.marks, "marks")?;
    }
    Ok(())
}

/// What is wrong with a light of the face. It is set up: one that is made up by hand cannot be told to it.
fn face(case: &LightCase) -> Option<String> {
    let case = LightCase::new(case.light, case.dumps.clone());
    let Light {
        first,
        length,
        high,
        low,
    } = case.light;
    match (
        ihex::Light::new(first, length, high, low),
        set_up(case.light),
    ) {
        (Ok(mut light), 0) => lit(&mut light, &case).err(),
        (Err(why), code) if is_true(why, case.light) && code == REFUSED + why.number() => None,
        (made, code) => Some(format!("face {made:?}, model {code}")),
    }
}

/// How many short rows a block has, and how many long ones.
const FEW: u64 = 100;
const FEW_LONG: u64 = 2;

/// A kind whose inputs are short rows by chance.
fn short_rows<'a>(
    name: &'static str,
    plan: Plan,
    hundreds: u64,
    check: impl Fn(&LightCase) -> Option<String> + Sync + 'a,
) -> Kind<'a> {
    let make = block_of(FEW, short_row);
    by_block(name, plan, blocks(hundreds, plan), make, check)
}

/// What is compared with the model, by chance.
fn by_chance<'a>(port: &'a dyn Port, plan: Plan) -> Vec<Kind<'a>> {
    vec![
        short_rows("lights", plan, 1000, move |case| self::port(port, case)),
        by_block(
            "lights, rows of up to 1,000 dumps",
            plan,
            blocks(100, plan),
            block_of(FEW_LONG, long_row),
            move |case: &LongRow| self::port(port, &case.row()),
        ),
    ]
}

/// Rows by rule: what they are called, how many blocks there are, and how one is made.
type ByRule = (&'static str, u64, fn(u64, &mut Chance) -> Vec<LightCase>);

const BY_RULE: [ByRule; 6] = [
    (
        "lights, every row of 4 dumps of 9 kinds",
        by_rule::ROW_BLOCKS,
        by_rule::every_row,
    ),
    (
        "lights, every step of a count",
        by_rule::STEP_BLOCKS,
        by_rule::every_step,
    ),
    (
        "lights, places of a page and outside",
        by_rule::PLACE_BLOCKS,
        by_rule::every_place,
    ),
    (
        "lights, pages of other lengths",
        by_rule::SIZE_BLOCKS,
        by_rule::every_size,
    ),
    (
        "lights, pages that end about 2^32",
        by_rule::WINDOW_BLOCKS,
        by_rule::every_window,
    ),
    (
        "lights, every dump of 3 parts of 10 kinds",
        by_rule::PART_BLOCKS,
        by_rule::every_dump,
    ),
];

/// What is compared with the model.
fn with_model<'a>(port: &'a dyn Port, plan: Plan) -> Vec<Kind<'a>> {
    let check = move |case: &LightCase| self::port(port, case);
    let ruled = |(name, blocks, make)| by_block(name, plan, blocks, make, check);
    let mut kinds = by_chance(port, plan);
    kinds.extend(BY_RULE.map(ruled));
    kinds
}

/// What is compared with the port's own loaders.
pub fn beside_loads<'a>(port: &'a dyn Port, plan: Plan) -> Vec<Kind<'a>> {
    let check = move |case: &LightCase| beside_load(port, case);
    vec![short_rows("lights and loads", plan, 400, check)]
}

/// What is compared with the dump before, which is the same.
pub fn twice_running<'a>(port: &'a dyn Port, plan: Plan) -> Vec<Kind<'a>> {
    let check = move |case: &LightCase| twice(port, case);
    vec![short_rows("lights, each dump twice", plan, 400, check)]
}

/// What is compared with the dump that ends where its load stops.
pub fn cut_off<'a>(port: &'a dyn Port, plan: Plan) -> Vec<Kind<'a>> {
    let check = move |case: &LightCase| cut(port, case);
    vec![
        short_rows("lights, dumps cut where they stop", plan, 400, check),
        by_block(
            "lights, every dump of 3 parts cut where it stops",
            plan,
            by_rule::PART_BLOCKS,
            by_rule::every_dump,
            check,
        ),
    ]
}

/// What is compared with the port.
pub fn of_port<'a>(port: &'a dyn Port, plan: Plan) -> Vec<Kind<'a>> {
    let parts = [
        with_model(port, plan),
        beside_loads(port, plan),
        twice_running(port, plan),
        cut_off(port, plan),
    ];
    parts.into_iter().flatten().collect()
}

/// What is compared with the face.
pub fn of_face(plan: Plan) -> Vec<Kind<'static>> {
    vec![
        short_rows("face: lights", plan, 200, face),
        by_block(
            "face: lights, every row of 4 dumps of 9 kinds",
            plan,
            by_rule::ROW_BLOCKS,
            by_rule::every_row,
            face,
        ),
        by_block(
            "face: lights, places of a page and outside",
            plan,
            by_rule::PLACE_BLOCKS,
            by_rule::every_place,
            face,
        ),
    ]
}
