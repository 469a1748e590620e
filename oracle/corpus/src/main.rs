//! Compares the oracle with the answers of a real build: cases as JSON lines, from the files given
//! or from standard input. Ends with a summary line and, where a difference is neither equal nor
//! listed, with a status that is not zero.

mod compare;
#[cfg(test)]
mod tests;

use std::fs::File;
use std::io::{BufRead, BufReader, stdin};
use std::process::ExitCode;
use std::time::{Duration, Instant};

use compare::Comparison;
use corpus::{case, json};
use judge::predicates::DIFFERENCES;

/// Cases that take longer than this are named.
const SLOW: Duration = Duration::from_secs(1);

#[derive(Default)]
struct Summary {
    cases: usize,
    equal: usize,
    listed: usize,
    unexplained: usize,
    judged: usize,
    /// For each listed difference the cases covered that are equal and that are not.
    covered: [(usize, usize); DIFFERENCES.len()],
}

fn main() -> ExitCode {
    ssr::on_large_stack(compare_all)
}

fn compare_all() -> ExitCode {
    let files: Vec<String> = std::env::args().skip(1).collect();
    let mut summary = Summary::default();
    let read = if files.is_empty() {
        summary.read("standard input", stdin().lock())
    } else {
        files.iter().try_for_each(|name| summary.read_file(name))
    };
    if let Err(message) = read {
        eprintln!("{message}");
        return ExitCode::from(2);
    }
    summary.print();
    let failed = summary.unexplained > 0 || summary.judged < summary.cases;
    ExitCode::from(u8::from(failed))
}

impl Summary {
    fn read_file(&mut self, name: &str) -> Result<(), String> {
        let file = File::open(name).map_err(|error| format!("{name}: {error}"))?;
        self.read(name, BufReader::new(file))
    }

    fn read(&mut self, name: &str, lines: impl BufRead) -> Result<(), String> {
        for (number, line) in (1..).zip(lines.lines()) {
            let line = line.map_err(|error| format!("{name}, line {number}: {error}"))?;
            self.case(&line).map_err(|error| format!("{name}, line {number}: {error}"))?;
        }
        Ok(())
    }

    fn case(&mut self, line: &str) -> Result<(), String> {
        let case = case::read_case(&json::read(line)?)?;
        let start = Instant::now();
        let comparison = compare::compare(&case);
        let time = start.elapsed();
        if time > SLOW {
            println!("{}: {:.1} s", case.id, time.as_secs_f64());
        }
        self.count(&case.id, &comparison);
        Ok(())
    }

    fn count(&mut self, id: &str, comparison: &Comparison) {
        let Comparison { difference, covered, judged } = comparison;
        self.cases += 1;
        match judged {
            None => self.judged += 1,
            Some(what) => println!("{id}: {what}"),
        }
        match difference {
            None => self.equal += 1,
            Some(_) if !covered.is_empty() => self.listed += 1,
            Some(what) => {
                self.unexplained += 1;
                println!("{id}: unexplained: {what}");
            }
        }
        for listed in covered {
            let (equal, different) = &mut self.covered[*listed as usize];
            *if difference.is_none() { equal } else { different } += 1;
            let what = difference
                .as_deref()
                .map_or("equal".to_owned(), |what| format!("different: {what}"));
            println!("{id}: {listed:?}: {what}");
        }
    }

    fn print(&self) {
        println!("{} cases: {} judged to the very bytes", self.cases, self.judged);
        for listed in DIFFERENCES {
            let (equal, different) = self.covered[listed as usize];
            let name = format!("{listed:?}");
            println!("{name}: covers {}: {equal} equal, {different} different", equal + different);
        }
        println!(
            "{} cases: {} equal, {} different by a listed difference, {} unexplained",
            self.cases, self.equal, self.listed, self.unexplained
        );
    }
}
