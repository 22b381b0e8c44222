//! The speed table inside one process: a call of ours beside calls of the libraries of glpk and cbc, where bench/run has found them.

#[cfg(cbc)]
mod cbc;
#[cfg(glpk)]
mod glpk;

use crate::draw::Rng;
use crate::families::{Family, FAMILIES, TIED};
use crate::model::Model;
use crate::ours;
use crate::picture::{self, Picture, Series};
use crate::problem::Problem;
use crate::progress::Progress;
use crate::race::{self, Race, Raced};
use crate::rivals::{value_of, LIMIT};
use crate::speed::Options;
use crate::stats::{processor_seconds, LONG};

/// What a call is handed: the sheet to ours, columns and rows to the others.
struct Task {
    sheet: Vec<u8>,
    #[cfg_attr(not(any(glpk, cbc)), allow(dead_code))]
    model: Model,
}

/// A solver as a call that tells the best value.
struct Library {
    series: Series,
    call: fn(&Task) -> Option<f64>,
}

/// Runs of each solver on a sheet, and the least time counts; one where some solver takes long.
const RUNS: usize = 3;

fn libraries() -> Vec<Library> {
    vec![
        Library { series: picture::OURS, call: |t| value_of(&ours::plan(&t.sheet)) },
        #[cfg(glpk)]
        Library { series: picture::GLPSOL.called("glpk"), call: |t| glpk::solve(&t.model) },
        #[cfg(cbc)]
        Library { series: picture::CBC, call: |t| cbc::solve(&t.model) },
    ]
}

/// Values and seconds of one run of each.
fn run(libraries: &[Library], task: &Task) -> Vec<(Option<f64>, f64)> {
    let once = |l: &Library| {
        let began = processor_seconds();
        let value = (l.call)(task);
        (value, processor_seconds() - began)
    };
    libraries.iter().map(once).collect()
}

/// The same number of runs for all, in turns.
fn timed(libraries: &[Library], task: &Task) -> Vec<(Option<f64>, f64)> {
    let mut least = run(libraries, task);
    for _ in 1..RUNS {
        if least.iter().any(|r| r.1 > LONG) {
            break;
        }
        least.iter_mut().zip(run(libraries, task)).for_each(|(l, r)| l.1 = l.1.min(r.1));
    }
    least
}

/// Each value is held to the twin's.
fn races(libraries: &[Library], problems: &[Problem]) -> Vec<Race> {
    let mut races = vec![Race::default(); libraries.len()];
    for p in problems {
        let task = Task { sheet: p.sheet(), model: Model::of(p) };
        let best = race::best(p);
        races.iter_mut().zip(timed(libraries, &task)).for_each(|(race, (value, seconds))| race.add(value, seconds, best));
    }
    races.iter_mut().for_each(Race::sort);
    races
}

fn families() -> impl Iterator<Item = &'static Family> {
    FAMILIES.iter().chain(&TIED)
}

fn rows(libraries: &[Library], o: &Options) -> Vec<Raced> {
    let mut rows = vec![];
    let mut progress = Progress::new();
    for family in families().filter(|f| f.name.contains(&o.family)) {
        for &continuous in o.continuous {
            for bound in family.bounds {
                progress.show(|| format!("{}, {continuous} continuous, bound {bound}: {} rows done", family.name, rows.len()));
                let mut rng = Rng(o.seed);
                let problems: Vec<Problem> = (0..o.raced).map(|_| family.draw(&mut rng, bound, continuous)).collect();
                rows.push(Raced { name: family.name, continuous, bound, races: races(libraries, &problems) });
            }
        }
    }
    rows
}

fn introduce(libraries: &[Library], o: &Options) {
    println!("Inside one process: {} sheets a row, seed {}; the same sheets for all", o.raced, o.seed);
    println!("ms of processor time: ours from a sheet to its text, the others from figures to a value, by calls that build and solve a model;");
    println!("the least of {RUNS} runs of each, of one where some solver takes a quarter of a second; + if one was not done in {LIMIT} s");
    for (name, package) in [("glpk", "libglpk-dev"), ("cbc", "coinor-libcbc-dev")] {
        if libraries.iter().all(|l| l.series.name != name) {
            println!("The library of {name} is not installed: it is in the package {package}.");
        }
    }
}

/// Whether ours has the best value on every sheet.
pub fn inside(o: &Options) -> bool {
    let libraries = libraries();
    introduce(&libraries, o);
    let rows = rows(&libraries, o);
    let list: Vec<&Raced> = rows.iter().collect();
    let names: Vec<&str> = libraries.iter().map(|l| l.series.name).collect();
    println!();
    race::show_rows(&names, &list);
    println!();
    let is_right = race::show_sums(&names, &list);
    println!();
    race::show_standing(&names, &list);
    if let Some(file) = &o.picture {
        let words = format!("{} sheets by call; seed {}; an arrow: not done in {LIMIT} s", o.raced * rows.len(), o.seed);
        let series = libraries.into_iter().map(|l| l.series).collect();
        let strips = race::by_family(&list);
        std::fs::write(file, Picture { title: "A call inside one process", series, strips, words }.draw()).expect("a file for the picture");
        println!("picture: {file}");
    }
    is_right
}
