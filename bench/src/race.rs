//! Solvers on the same sheets: the tables of what they took, and the solvers as whole processes, from a problem to its solution in a file.

use crate::families;
use crate::problem::Problem;
use crate::progress::Progress;
use crate::rivals::{value_of, Solver, LIMIT, RIVALS};
use crate::stats::{at, timed, MEDIAN, NINETY_NINTH, WORST};
use crate::twin::{self, WITH_SCALES};

/// What a solver did on the sheets of a row: sorted seconds, how many sheets it did not do in time, and on how many it has the best value.
#[derive(Clone, Default)]
pub struct Race {
    pub seconds: Vec<f64>,
    pub late: usize,
    right: usize,
}

impl Race {
    /// Of sheets that were all done, and rightly.
    pub fn of(seconds: &[f64]) -> Race {
        Race { seconds: seconds.to_vec(), late: 0, right: seconds.len() }
    }

    pub fn at(&self, share: usize) -> f64 {
        at(&self.seconds, share).unwrap_or(0.0)
    }

    pub fn sort(&mut self) {
        self.seconds.sort_by(f64::total_cmp);
    }

    pub fn add(&mut self, value: Option<f64>, seconds: f64, best: f64) {
        let is_done = value.is_some() && seconds < LIMIT as f64;
        self.late += !is_done as usize;
        self.seconds.push(if is_done { seconds } else { LIMIT as f64 });
        self.right += value.is_some_and(|v| is_done && (v - best).abs() <= 1e-9 * best.abs()) as usize;
    }

    /// Two races as one.
    pub fn with(mut self, other: &Race) -> Race {
        self.seconds.extend(&other.seconds);
        self.sort();
        self.late += other.late;
        self.right += other.right;
        self
    }
}

/// A row of a table: some sheets of a family, with a bound and so many continuous items, and what each solver did on them, ours first.
#[derive(Default)]
pub struct Raced {
    pub name: &'static str,
    pub continuous: usize,
    pub bound: i64,
    pub races: Vec<Race>,
}

/// Ours, and the others that are installed.
pub fn solvers() -> Vec<Solver> {
    let mut solvers = vec![Solver::Ours];
    solvers.extend(RIVALS.into_iter().filter(|r| r.is_installed()));
    solvers
}

fn value(p: &Problem) -> Option<f64> {
    value_of(&twin::plan(p, WITH_SCALES).text)
}

pub fn has_best(p: &Problem) -> bool {
    value(p).is_some()
}

/// The best value, by the twin.
pub fn best(p: &Problem) -> f64 {
    value(p).expect("a best value")
}

pub fn races(solvers: &[Solver], problems: &[Problem], progress: &mut Progress) -> Vec<Race> {
    let mut races = vec![Race::default(); solvers.len()];
    for (k, p) in problems.iter().enumerate() {
        progress.show(|| format!("{k} of {} sheets by other solvers", problems.len()));
        let best = best(p).abs();
        for (solver, race) in solvers.iter().zip(&mut races) {
            let (value, seconds) = timed(|| solver.solve(p));
            race.add(value, seconds, best);
        }
    }
    races.iter_mut().for_each(Race::sort);
    races
}

/// The races of each family, all rows of it together.
pub fn by_family(rows: &[&Raced]) -> Vec<(&'static str, Vec<Race>)> {
    let mut families: Vec<(&str, Vec<Race>)> = vec![];
    for row in rows {
        match families.iter_mut().find(|f| f.0 == row.name) {
            Some((_, races)) => races.iter_mut().zip(&row.races).for_each(|(sum, r)| *sum = std::mem::take(sum).with(r)),
            None => families.push((row.name, row.races.clone())),
        }
    }
    families
}

// ---- tables

/// Median and worst of each solver, in ms.
pub fn show_rows(names: &[&str], rows: &[&Raced]) {
    let heads: String = names.iter().map(|name| format!("{name:>9} {:>9}  |", "worst")).collect();
    println!("{:24} {:>10} {:>5} |{heads}", "family", "continuous", "bound");
    for row in rows {
        let times = |r: &Race| format!("{:>9.3} {:>9.3}{} |", r.at(MEDIAN) * 1e3, r.at(WORST) * 1e3, if r.late > 0 { '+' } else { ' ' });
        println!("{:24} {:>10} {:>5} |{}", row.name, row.continuous, row.bound, row.races.iter().map(times).collect::<String>());
    }
}

fn show_sum(name: &str, all: &Race) {
    let times = [MEDIAN, NINETY_NINTH, WORST].map(|share| format!("{:>9.3}", all.at(share) * 1e3)).join(" ");
    let other = all.seconds.len() - all.right - all.late;
    println!("{name:24} {:>7} {:>10} {other:>7} {:>9} |{times}", all.seconds.len(), all.right, all.late);
}

fn show_sums_heading() {
    println!("{:24} {:>7} {:>10} {:>7} {:>9} |{:>9} {:>9} {:>9}", "all rows, ms", "sheets", "best value", "another", "not done", "median", "99th", "worst");
}

fn sum<'a>(races: impl Iterator<Item = &'a Race>) -> Race {
    races.fold(Race::default(), Race::with)
}

/// What all rows come to, solver by solver. Whether the first has the best value on every sheet.
fn show_solver_sums(names: &[&str], rows: &[&Raced]) -> bool {
    let sums: Vec<Race> = (0..names.len()).map(|k| sum(rows.iter().map(|row| &row.races[k]))).collect();
    names.iter().zip(&sums).for_each(|(name, all)| show_sum(name, all));
    println!("another: a value that is called optimal by the solver's own tolerances, and is not the best one");
    sums[0].right == sums[0].seconds.len()
}

pub fn show_sums(names: &[&str], rows: &[&Raced]) -> bool {
    show_sums_heading();
    show_solver_sums(names, rows)
}

/// A rival's times by ours.
fn ratio(row: &Raced, rival: usize, share: usize) -> f64 {
    row.races[rival].at(share) / row.races[0].at(share)
}

/// How ours stands to each of the others: on how many rows it is ahead in the median and in the worst sheet, and on which it is not.
pub fn show_standing(names: &[&str], rows: &[&Raced]) {
    for (k, name) in names.iter().enumerate().skip(1) {
        for (share, what) in [(MEDIAN, "the median"), (WORST, "the worst sheet")] {
            let behind: Vec<&&Raced> = rows.iter().filter(|row| ratio(row, k, share) <= 1.0).collect();
            let least = rows.iter().map(|row| ratio(row, k, share)).fold(f64::MAX, f64::min);
            let ahead = rows.len() - behind.len();
            println!("in {what} ours is ahead of {name} on {ahead} of {} rows; the least of its times by ours is {least:.2}", rows.len());
            for row in behind {
                println!("  behind: {}, {} continuous, bound {}: {:.2}", row.name, row.continuous, row.bound, ratio(row, k, share));
            }
        }
    }
}

fn show_start(solver: Solver) {
    let one = families::unit_sheet();
    let mut seconds: Vec<f64> = (0..9).map(|_| timed(|| solver.solve(&one)).1).collect();
    seconds.sort_by(f64::total_cmp);
    println!("{}: a sheet of one item takes {:.2} ms, the median of 9", solver.name(), at(&seconds, MEDIAN).unwrap() * 1e3);
}

/// The table of whole processes, and how ours stands; `calls` are ours without a process.
pub fn show(solvers: &[Solver], rows: &[&Raced], calls: &[Race], raced: usize) {
    println!();
    println!("Whole processes, from a problem to its solution in a file: median and worst of the first {raced} sheets of each row, in ms,");
    println!("the least of three runs, of one if it takes a quarter of a second; + if one was not done in {LIMIT} s");
    for rival in RIVALS.into_iter().filter(|r| solvers.iter().all(|s| s.name() != r.name())) {
        println!("{} is not installed", rival.name());
    }
    solvers.iter().for_each(|&s| show_start(s));
    let names: Vec<&str> = solvers.iter().map(|s| s.name()).collect();
    println!();
    show_rows(&names, rows);
    println!();
    show_sums_heading();
    show_sum("ours, a call", &sum(calls.iter()));
    show_solver_sums(&names, rows);
    println!();
    show_standing(&names, rows);
}
