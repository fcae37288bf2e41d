//! How a kind of comparison is run: on which inputs, how many, and to what it comes.

use std::sync::atomic::{AtomicU64, Ordering};
use std::sync::Mutex;
use std::thread;
use std::time::{Duration, Instant};

use crate::inputs::chance::Chance;
use crate::inputs::long::{self, LongCase};
use crate::inputs::shrink::{shrink, Case};

/// How much is compared.
#[derive(Clone, Copy)]
pub struct Plan {
    pub seed: u64,
    /// How many blocks of inputs by chance a kind has, as a multiple of the usual number.
    pub times: u64,
    /// A part of the usual number, where all is not needed.
    pub part_of: u64,
    /// After how many disagreements a kind is given up.
    pub enough: u64,
}

/// What a kind of comparison came to.
pub struct Report {
    pub name: &'static str,
    pub inputs: u64,
    pub disagreements: u64,
    /// The smallest input found on which the two disagree, and how.
    pub smallest: Option<String>,
    pub time: Duration,
}

/// A block's own chance, from the seed, the kind's name and the block's number.
fn chance_of(seed: u64, name: &str, block: u64) -> Chance {
    let mut mixed = Chance::new(seed);
    for byte in name.bytes() {
        mixed = Chance::new(mixed.number() ^ u64::from(byte));
    }
    Chance::new(mixed.number() ^ block.wrapping_mul(0xD6E8_FEB8_6659_FD93))
}

/// What a search came to: how many inputs and disagreements, and some of the inputs on which the two
/// disagree.
pub struct Found<C> {
    pub inputs: u64,
    pub disagreements: u64,
    pub cases: Vec<C>,
}

/// Does the same work on each processor.
fn on_all_processors(work: impl Fn() + Sync) {
    let threads = thread::available_parallelism().map_or(1, |n| n.get());
    thread::scope(|scope| {
        for _ in 0..threads {
            scope.spawn(&work);
        }
    });
}

/// Searches every block for cases that are wrong, on all processors.
pub fn search<C: Case>(
    name: &str,
    plan: Plan,
    blocks: u64,
    make: impl Fn(u64, &mut Chance) -> Vec<C> + Sync,
    wrong: impl Fn(Vec<C>) -> Vec<C> + Sync,
) -> Found<C> {
    let (next, inputs, disagreements) = (AtomicU64::new(0), AtomicU64::new(0), AtomicU64::new(0));
    let found: Mutex<Vec<C>> = Mutex::new(Vec::new());
    let work = || loop {
        let block = next.fetch_add(1, Ordering::Relaxed);
        if block >= blocks || disagreements.load(Ordering::Relaxed) >= plan.enough {
            return;
        }
        let cases = make(block, &mut chance_of(plan.seed, name, block));
        inputs.fetch_add(cases.len() as u64, Ordering::Relaxed);
        let wrong = wrong(cases);
        let before = disagreements.fetch_add(wrong.len() as u64, Ordering::Relaxed);
        found
            .lock()
            .expect("no thread panics with the lock")
            .extend(
                wrong
                    .into_iter()
                    .take(plan.enough.saturating_sub(before) as usize),
            );
    };
    on_all_processors(work);
    Found {
        inputs: inputs.into_inner(),
        disagreements: disagreements.into_inner(),
        cases: found
            .into_inner()
            .expect("no thread panicked with the lock"),
    }
}

/// Runs a check on every case of every block.
fn compare<C: Case>(
    name: &'static str,
    plan: Plan,
    blocks: u64,
    make: impl Fn(u64, &mut Chance) -> Vec<C> + Sync,
    check: impl Fn(&C) -> Option<String> + Sync,
) -> Report {
    let start = Instant::now();
    let wrong = |mut cases: Vec<C>| {
        cases.retain(|case| check(case).is_some());
        cases
    };
    let found = search(name, plan, blocks, make, wrong);
    let small = |case| shrink(case, |other| check(other).is_some());
    let smallest = found.cases.into_iter().map(small).min_by_key(Case::size);
    let told = |case: C| format!("{}: {}", case.show(), check(&case).unwrap_or_default());
    Report {
        name,
        inputs: found.inputs,
        disagreements: found.disagreements,
        smallest: smallest.map(told),
        time: start.elapsed(),
    }
}

/// A kind of comparison, ready to run.
pub type Kind<'a> = Box<dyn Fn() -> Report + 'a>;

/// How many inputs by chance a block has, mostly.
pub const A_BLOCK: u64 = 1000;

/// How many blocks a kind has whose inputs come by chance, from the usual number.
pub fn blocks(usual: u64, plan: Plan) -> u64 {
    (usual * plan.times / plan.part_of).max(1)
}

/// A block of so many inputs by chance.
pub fn block_of<C>(
    size: u64,
    make: fn(&mut Chance) -> C,
) -> impl Fn(u64, &mut Chance) -> Vec<C> + Sync {
    move |_, chance| (0..size).map(|_| make(chance)).collect()
}

/// A kind whose inputs are made a block at once, from the block's number and its own chance.
pub fn by_block<'a, C: Case + 'a>(
    name: &'static str,
    plan: Plan,
    blocks: u64,
    make: impl Fn(u64, &mut Chance) -> Vec<C> + Sync + 'a,
    check: impl Fn(&C) -> Option<String> + Sync + 'a,
) -> Kind<'a> {
    Box::new(move || compare(name, plan, blocks, &make, &check))
}

/// A kind whose inputs come by chance.
pub fn by_chance<'a, C: Case + 'a>(
    name: &'static str,
    plan: Plan,
    thousands: u64,
    make: fn(&mut Chance) -> C,
    check: impl Fn(&C) -> Option<String> + Sync + 'a,
) -> Kind<'a> {
    by_block(
        name,
        plan,
        blocks(thousands, plan),
        block_of(A_BLOCK, make),
        check,
    )
}

/// A kind of long lines.
pub fn by_length<'a>(
    name: &'static str,
    plan: Plan,
    check: impl Fn(&LongCase) -> Option<String> + Sync + 'a,
) -> Kind<'a> {
    let lengths = long::LENGTHS.len() as u64;
    let blocks = (lengths * plan.times / plan.part_of).max(lengths);
    let make = move |block, chance: &mut Chance| {
        long::long(long::LENGTHS[(block % lengths) as usize], chance)
    };
    by_block(name, plan, blocks, make, check)
}
