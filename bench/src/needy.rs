//! Needs: how many cases they come to, and ours beside other solvers that have the same needs as rows of their models.

use crate::draw::Rng;
use crate::families::needing;
use crate::ours;
use crate::problem::Problem;
use crate::progress::Progress;
use crate::race;
use crate::stats::{at, timed, MEDIAN, WORST};
use crate::twin;

/// How many needs sixteen items have, and their bounds.
const NEEDS: [usize; 4] = [1, 4, 8, 16];
const BOUNDS: [i64; 3] = [1, 10, 100];

fn cases(problems: &[Problem]) -> Vec<u64> {
    let mut list: Vec<u64> = problems.iter().map(|p| twin::plan(p, ours::RULES).cases).collect();
    list.sort();
    list
}

fn calls(problems: &[Problem]) -> Vec<f64> {
    let mut list: Vec<f64> = problems.iter().map(|p| timed(|| ours::plan(&p.sheet())).1).collect();
    list.sort_by(f64::total_cmp);
    list
}

/// Median and worst of each row.
pub fn needs(seed: u64, sheets: usize, raced: usize) -> bool {
    let solvers = race::solvers();
    let names: String = solvers.iter().map(|s| format!("{:>9} {:>9} |", s.name(), "worst")).collect();
    println!("Needs: sixteen integer items, {sheets} sheets a row, seed {seed}; cases by the twin, ms a call, ms a process on the first {raced}");
    println!("{:>5} {:>5} |{:>6} {:>6} |{:>9} {:>9} |{names}", "needs", "bound", "cases", "most", "a call", "worst");
    for count in NEEDS {
        for bound in BOUNDS {
            let mut rng = Rng(seed);
            let problems: Vec<Problem> = (0..sheets).map(|_| needing(&mut rng, bound, count)).collect();
            let (cases, calls) = (cases(&problems), calls(&problems));
            let races = race::races(&solvers, &problems[..raced.min(sheets)], &mut Progress::new());
            let [most, median] = [WORST, MEDIAN].map(|share| at(&cases, share).unwrap_or(0));
            let [slowest, usual] = [WORST, MEDIAN].map(|share| at(&calls, share).unwrap_or(0.0) * 1e3);
            print!("{count:>5} {bound:>5} |{median:>6} {most:>6} |{usual:>9.3} {slowest:>9.3} |");
            races.iter().for_each(|r| print!("{:>9.2} {:>9.2} |", r.at(MEDIAN) * 1e3, r.at(WORST) * 1e3));
            println!();
        }
    }
    true
}
