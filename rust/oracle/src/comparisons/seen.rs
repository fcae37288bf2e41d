//! How often each answer was called for, so that none is left out unseen.

use std::sync::atomic::{AtomicU64, Ordering};

/// The most things that a row counts.
const MOST: usize = 32;

#[allow(clippy::declare_interior_mutable_const)]
const NONE: AtomicU64 = AtomicU64::new(0);

/// How often each of some things was called for, by their numbers.
pub struct Times([AtomicU64; MOST]);

impl Times {
    #[allow(clippy::new_without_default)]
    pub const fn new() -> Self {
        Times([NONE; MOST])
    }

    /// The thing of this number was called for once more.
    pub fn note(&self, number: usize) {
        self.0[number].fetch_add(1, Ordering::Relaxed);
    }

    /// Prints how often each of these was called for, and says whether none is missing.
    pub fn show(&self, title: &str, names: impl Iterator<Item = (usize, String)>) -> bool {
        let mut whole = true;
        let mut texts = Vec::new();
        for (number, name) in names {
            let times = self.0[number].load(Ordering::Relaxed);
            whole &= times > 0;
            texts.push(format!("{name}: {times}"));
        }
        let word = if whole { "ok" } else { "FAILED" };
        println!("{word:6} {title}: {}", texts.join(", "));
        whole
    }
}

/// The codes that an entry point can answer, or that some of its calls are to have.
pub struct Answers {
    name: &'static str,
    codes: &'static [u32],
    times: Times,
}

impl Answers {
    pub const fn new(name: &'static str, codes: &'static [u32]) -> Self {
        let times = Times::new();
        Answers { name, codes, times }
    }

    /// One more answer with this code was called for.
    pub fn note(&self, code: u32) {
        if let Some(number) = self.codes.iter().position(|&one| one == code) {
            self.times.note(number);
        }
    }

    pub fn show(&self) -> bool {
        let title = format!("every answer of the {} (code: times)", self.name);
        let codes = self.codes.iter().map(u32::to_string);
        self.times.show(&title, codes.enumerate())
    }
}

/// The places that are told apart where one is named, by the least of each kind.
const PLACES: [usize; 10] = [1, 2, 3, 520, 521, 522, 523, 65_534, 65_535, 65_536];

/// The kind of a place.
fn kind(place: usize) -> usize {
    PLACES.partition_point(|&least| least <= place)
}

/// A kind of places: from its least on, up to the next kind's.
fn places(least: usize) -> String {
    match PLACES.get(kind(least)) {
        Some(&next) if next == least + 1 => least.to_string(),
        Some(&next) => format!("{least} to {}", next - 1),
        None => format!("{least} on"),
    }
}

/// The places that refusal 2 of an entry point names.
pub struct Places {
    name: &'static str,
    /// The least that can be named.
    least: usize,
    times: Times,
}

impl Places {
    pub const fn new(name: &'static str, least: usize) -> Self {
        let times = Times::new();
        Places { name, least, times }
    }

    /// One more refusal that names this place was called for, if it names one.
    pub fn note(&self, place: Option<usize>) {
        if let Some(place) = place {
            self.times.note(kind(place));
        }
    }

    pub fn show(&self) -> bool {
        let title = format!(
            "every place of refusal 2 of the {} (place: times)",
            self.name
        );
        let called = PLACES.iter().filter(|&&least| least >= self.least);
        let named = called.map(|&least| (kind(least), places(least)));
        self.times.show(&title, named)
    }
}

/// What is counted of an entry point that reads.
pub struct EntryPoint {
    pub answers: Answers,
    pub places: Places,
}

impl EntryPoint {
    pub const fn new(name: &'static str, codes: &'static [u32]) -> Self {
        EntryPoint {
            answers: Answers::new(name, codes),
            places: Places::new(name, 1),
        }
    }
}
