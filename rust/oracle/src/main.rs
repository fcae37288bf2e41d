//! The oracle: the crate ihex 3.0.0, unchanged, against the port.
//!
//! `USAGE` says how it is called. `--long` compares twenty times as many inputs by chance, `--times N`
//! N times as many, `--short` a tenth. Its last line is 'N passed, M failed'. It counts kinds of
//! comparison, not inputs; one more for every answer having been called for; and wrong ports and
//! programs, each of which passes if a comparison finds it. `--write-stored` compares nothing: it
//! stores the crate's answers to the cases of `replay`.
//!
//! IHEX_REPLAY has the command of the program `replay`, a word a line. Without it neither the lent forms nor
//! the lights of that program are compared, and a line that begins with '-- passed over:' says so.

use std::env;
use std::io;
use std::process::exit;
use std::time::Instant;

use oracle::comparisons::all::{of_chunks, of_face, of_port, show_seen};
use oracle::comparisons::run::{Kind, Plan, Report};
use oracle::comparisons::stored::List;
use oracle::comparisons::{asks, dumps, lights, pages, replay, salvage, srecords, streams, tables};
use oracle::subjects::port::Real;
use oracle::subjects::program::{command, run};
use oracle::subjects::the_crate::{keeps_last_cr, NO_SOURCE};
use oracle::wrong;

const USAGE: &str = "\
usage: oracle [--seed N] [--long | --times N] [--short]
       oracle --write-stored";

fn usage() -> ! {
    eprintln!("{USAGE}");
    exit(2)
}

/// The plan, and whether answers are to be stored instead.
fn plan() -> (Plan, bool) {
    let mut write = false;
    let mut plan = Plan {
        seed: 1,
        times: 1,
        part_of: 1,
        enough: 20,
    };
    let mut words = env::args().skip(1);
    while let Some(word) = words.next() {
        let mut number = || {
            words
                .next()
                .and_then(|n| n.parse().ok())
                .unwrap_or_else(|| usage())
        };
        match word.as_str() {
            "--seed" => plan.seed = number(),
            "--times" => plan.times = number(),
            "--long" => plan.times = 20,
            "--short" => plan.part_of = 10,
            "--write-stored" => write = true,
            _ => usage(),
        }
    }
    (plan, write)
}

/// Prints what a kind came to, and says whether it passed.
fn show(report: &Report) -> bool {
    let ok = report.disagreements == 0;
    println!(
        "{:6} {:>9} inputs {:6.1} s  {}",
        if ok { "ok" } else { "FAILED" },
        report.inputs,
        report.time.as_secs_f64(),
        report.name,
    );
    if let Some(smallest) = &report.smallest {
        println!(
            "       {} disagree, smallest: {smallest}",
            report.disagreements
        );
    }
    ok
}

/// Enough to find what is wrong in one point.
fn few(plan: Plan) -> Plan {
    Plan {
        times: 1,
        part_of: 20,
        enough: 1,
        ..plan
    }
}

/// Whether one of the comparisons finds what is wrong.
fn finds(what: &str, kinds: Vec<Kind>) -> bool {
    for kind in kinds {
        let report = kind();
        if let Some(smallest) = report.smallest {
            println!("ok     {what}: found by {}, {smallest}", report.name);
            return true;
        }
    }
    println!("FAILED {what} is not found");
    false
}

/// What was done with the stored list, or nothing after a line that says why not.
fn done<T>(result: io::Result<T>) -> Option<T> {
    result
        .map_err(|why| println!("FAILED the stored cases: {why}"))
        .ok()
}

/// Whether the stored answers are the crate's.
fn stored_agree() -> bool {
    let outcome = done(List::read()).map(|list| list.compare());
    outcome.map_or(false, |outcome| {
        let ok = show(&outcome.report);
        println!("       {}", outcome.told);
        if outcome.over > 0 {
            let n = outcome.over;
            println!("-- passed over: {n} stored cases of replay: the oracle cannot give them to the crate");
        }
        ok
    })
}

/// Writes the crate's answers to the stored cases.
fn write_stored() -> io::Result<()> {
    let list = List::read_cases()?;
    let answered = list.answered();
    let both = list.answers.iter().zip(&answered.answers);
    let changed = both.filter(|(old, new)| old != new).count();
    println!("{changed} answers change; {}", answered.compare().told);
    answered.write()
}

/// What was counted so far.
#[derive(Default)]
struct Counts {
    passed: u64,
    failed: u64,
    lines: u64,
    texts: u64,
}

impl Counts {
    fn add(&mut self, ok: bool) {
        *(if ok {
            &mut self.passed
        } else {
            &mut self.failed
        }) += 1;
    }

    /// Makes these comparisons.
    fn compare(&mut self, kinds: Vec<Kind>) {
        for kind in kinds {
            let report = kind();
            if report.name.contains("text") {
                self.texts += report.inputs;
            } else if report.name.contains("line") {
                self.lines += report.inputs;
            }
            self.add(show(&report));
        }
    }

    /// Compares what the program of this command answers, and says whether there is one.
    fn compare_lent(&mut self, command: Option<Vec<String>>, plan: Plan) -> bool {
        match &command {
            Some(words) => self.compare(replay::of_program(&|cases| run(words, cases), plan)),
            None => println!(
                "-- passed over: the lent forms, and lights by replay: IHEX_REPLAY names no program; `tools/prove replay` builds it"
            ),
        }
        command.is_some()
    }

    /// Looks for each wrong one by these kinds of comparison.
    fn find<T: ?Sized>(
        &mut self,
        what: &str,
        wrong: Vec<(&str, Box<T>)>,
        kinds: impl for<'a> Fn(&'a T) -> Vec<Kind<'a>>,
    ) {
        for (name, one) in wrong {
            self.add(finds(&format!("{what} that {name}"), kinds(&one)));
        }
    }

    /// Looks for each wrong light by all that is compared, and for some of them by what must hold whatever a model says.
    fn find_lights(&mut self, few: Plan) {
        self.find("a light", wrong::lights::all(), |port| {
            lights::of_port(port, few)
        });
        self.find("a light", wrong::lights::unlike_loads(), |port| {
            lights::beside_loads(port, few)
        });
        self.find("a light", wrong::lights::green_again(), |port| {
            lights::twice_running(port, few)
        });
        self.find("a light", wrong::lights::beyond_stops(), |port| {
            lights::cut_off(port, few)
        });
    }

    fn compare_all(&mut self, plan: Plan) {
        self.compare(of_port(&Real, plan));
        self.compare(of_chunks(&Real, plan));
        self.compare(pages::of_port(&Real, plan));
        self.compare(srecords::of_port(&Real, plan));
        self.compare(salvage::of_port(&Real, plan));
        self.compare(tables::of_port(&Real, plan));
        self.compare(asks::of_port(&Real, plan));
        self.compare(lights::of_port(&Real, plan));
        self.compare(streams::of_port(&Real, plan));
        self.compare(of_face(plan));
        let lent = self.compare_lent(command(), plan);
        self.add(stored_agree());
        self.add(show_seen());
        self.find_all(lent, few(plan));
    }

    /// Looks for all that is wrong; for programs only if there is one.
    fn find_all(&mut self, lent: bool, few: Plan) {
        self.find("a port", wrong::all::ports(), |port| of_port(port, few));
        self.find("a chunk reader", wrong::chunks::all(), |port| {
            of_chunks(port, few)
        });
        self.find("a face", wrong::dumps::all(), |face| {
            dumps::of_face(face, few)
        });
        self.find("a page writer", wrong::pages::all(), |port| {
            pages::of_port(port, few)
        });
        self.find("a port", wrong::srecords::all(), |port| {
            srecords::of_port(port, few)
        });
        self.find("a port", wrong::salvage::all(), |port| {
            salvage::of_port(port, few)
        });
        self.find("a port", wrong::tables::all(), |port| {
            tables::of_port(port, few)
        });
        self.find("a port", wrong::asks::all(), |port| {
            asks::of_port(port, few)
        });
        self.find("a port", wrong::asks::beside_loads(), |port| {
            asks::beside_loads(port, few)
        });
        self.find_lights(few);
        self.find("a listener", wrong::streams::all(), |port| {
            streams::of_port(port, few)
        });
        if lent {
            let programs = wrong::replay::all();
            self.find("a replay", programs, |program| {
                replay::of_program(program, few)
            });
        }
    }
}

fn main() {
    let (plan, write) = plan();
    let start = Instant::now();
    if !original::AT_HAND {
        println!("-- passed over: the oracle: {NO_SOURCE}");
        println!("0 passed, 0 failed");
        exit(write.into());
    }
    if write {
        exit(done(write_stored()).is_none().into());
    }
    println!(
        "seed {}, times {}, part {}",
        plan.seed, plan.times, plan.part_of
    );
    if !keeps_last_cr() {
        println!("str::lines of this Rust drops a CR at the end of a text: the crate is given such a text with CR LF behind it");
    }
    let mut counts = Counts::default();
    counts.compare_all(plan);
    println!(
        "{} lines, {} texts, {:.1} s",
        counts.lines,
        counts.texts,
        start.elapsed().as_secs_f64()
    );
    println!("{} passed, {} failed", counts.passed, counts.failed);
    if counts.failed > 0 {
        exit(1);
    }
}
