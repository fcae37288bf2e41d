//! The stored cases that the proved program `replay` runs, and the crate's answers to them.

use std::fs;
use std::io::{self, ErrorKind};
use std::path::PathBuf;
use std::time::Instant;

use crate::comparisons::run::Report;
use crate::inputs::replay::Given;
use crate::models::replay::answer;

/// The stored list: the cases and headings, and what is stored after each.
pub struct List {
    pub cases: Vec<String>,
    pub answers: Vec<String>,
}

/// The file of this name that `replay` has.
fn file(name: &str) -> PathBuf {
    [env!("CARGO_MANIFEST_DIR"), "../../crates/replay", name]
        .iter()
        .collect()
}

fn lines_of(name: &str) -> io::Result<Vec<String>> {
    let text = fs::read_to_string(file(name))?;
    Ok(text.split_terminator('\n').map(String::from).collect())
}

/// What the comparison of a list came to.
pub struct ListReport {
    pub report: Report,
    /// How many cases of each form were compared, and how many were passed over.
    pub told: String,
    /// How many were passed over.
    pub over: usize,
}

impl List {
    pub fn read() -> io::Result<Self> {
        let cases = lines_of("stdin")?;
        let answers = lines_of("stdout")?;
        if cases.len() == answers.len() {
            return Ok(List { cases, answers });
        }
        let why = "crates/replay/stdin and stdout have not the same number of lines";
        Err(io::Error::new(ErrorKind::InvalidData, why))
    }

    /// The list with what is stored, or where that is not an answer for each case, with `?` for each, which
    /// `replay` answers to what is not a case.
    pub fn read_cases() -> io::Result<Self> {
        Self::read().or_else(|_| {
            let cases = lines_of("stdin")?;
            let answers = vec!["?".into(); cases.len()];
            Ok(List { cases, answers })
        })
    }

    /// Stores the answers.
    pub fn write(&self) -> io::Result<()> {
        fs::write(file("stdout"), self.answers.join("\n") + "\n")
    }

    /// The headings, and the cases that the crate has an answer to, by their place in the list.
    fn given(&self) -> Vec<(usize, Given)> {
        let case = |(i, line): (usize, &String)| Given::of(line).map(|given| (i, given));
        self.cases.iter().enumerate().filter_map(case).collect()
    }

    /// The same cases with the crate's answers; what is passed over is kept.
    pub fn answered(&self) -> Self {
        let mut answers = self.answers.clone();
        for (i, given) in self.given() {
            answers[i] = answer(&given);
        }
        List {
            cases: self.cases.clone(),
            answers,
        }
    }

    fn told(&self, given: &[(usize, Given)]) -> String {
        let of = |form| {
            let n = given
                .iter()
                .filter(|(i, _)| self.cases[*i].starts_with(form));
            format!("{} {form}", n.count())
        };
        let forms: Vec<String> = ['C', 'L', 'T', 'W', 'O', 'M', 'N', 'Q', 'K'].map(of).into();
        format!(
            "{}; {} of them no UTF-8, answered by the rule for bytes; {} passed over",
            forms.join(", "),
            given.iter().filter(|(_, case)| case.is_no_string()).count(),
            self.cases.len() - given.len(),
        )
    }

    /// Compares the stored answers with the crate's.
    pub fn compare(&self) -> ListReport {
        let start = Instant::now();
        let given = self.given();
        let answers = given.iter().map(|(i, case)| (*i, answer(case)));
        let wrong: Vec<_> = answers.filter(|(i, is)| *is != self.answers[*i]).collect();
        let smallest = wrong.iter().min_by_key(|(i, _)| self.cases[*i].len());
        let show = |(i, is): &(usize, String)| {
            let (case, stored) = (&self.cases[*i], &self.answers[*i]);
            format!("line {}, {case}: stored {stored}, crate {is}", i + 1)
        };
        let headings = |(_, case): &&(_, Given)| matches!(case, Given::Heading(_));
        ListReport {
            report: Report {
                name: "stored cases of replay",
                inputs: (given.len() - given.iter().filter(headings).count()) as u64,
                disagreements: wrong.len() as u64,
                smallest: smallest.map(show),
                time: start.elapsed(),
            },
            told: self.told(&given),
            over: self.cases.len() - given.len(),
        }
    }
}
