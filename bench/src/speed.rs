//! The speed table: ours, the twin and other solvers side by side, on drawn sheets of the field's families.

use crate::draw::Rng;
use crate::families::{Family, FAMILIES, ITEMS};
use crate::independent;
use crate::load;
use crate::ours;
use crate::picture::{self, Picture};
use crate::problem::Problem;
use crate::progress::Progress;
use crate::race::{self, Race, Raced};
use crate::rivals::{Solver, LIMIT};
use crate::stats::{at, timed, MEDIAN, NINETY_NINTH, WORST};
use crate::twin::{self, Rules};

#[derive(Clone)]
pub struct Options {
    pub seed: u64,
    pub sheets: usize,
    pub raced: usize,
    /// the twin's
    pub rules: Rules,
    pub continuous: &'static [usize],
    /// only families whose name has this in it
    pub family: String,
    pub picture: Option<String>,
}

impl Options {
    /// With so many sheets a row.
    pub fn of(&self, sheets: u64) -> Options {
        Options { sheets: sheets as usize, ..self.clone() }
    }
}

/// The sheets of a family with a bound and some continuous items: the twin's work, and seconds of both; and the solvers as processes on the
/// first sheets.
#[derive(Default)]
struct Row {
    raced: Raced,
    steps: Vec<u64>,
    cells: Vec<u64>,
    ours: Vec<f64>,
    twin: Vec<f64>,
    both: Both,
}

/// Ours beside the twin: how many sheets, on how many work and text agree, seconds; and cells and seconds of the deep ones.
#[derive(Clone, Copy, Default)]
struct Both {
    count: usize,
    agree: usize,
    same: usize,
    seconds: Pair,
    deep_cells: u64,
    deep: Pair,
}

/// Ours and the twin's.
#[derive(Clone, Copy, Default)]
struct Pair {
    ours: f64,
    twin: f64,
}

const LOAD: &str = "test load";

/// From so many cells on the steps of a sheet do not count.
const DEEP: u64 = 1_000_000;

impl Pair {
    fn plus(self, other: Pair) -> Pair {
        Pair { ours: self.ours + other.ours, twin: self.twin + other.twin }
    }

    fn ratio(self) -> f64 {
        self.ours / self.twin
    }
}

impl Both {
    fn plus(self, other: Both) -> Both {
        Both {
            count: self.count + other.count,
            agree: self.agree + other.agree,
            same: self.same + other.same,
            seconds: self.seconds.plus(other.seconds),
            deep_cells: self.deep_cells + other.deep_cells,
            deep: self.deep.plus(other.deep),
        }
    }
}

fn measure(p: &Problem, o: &Options, row: &mut Row) {
    let sheet = p.sheet();
    let (twin, twin_time) = timed(|| twin::plan_both(&independent::read(&sheet).expect("a good sheet"), o.rules));
    let (text, our_time) = timed(|| ours::plan(&sheet));
    let work = ours::work(&sheet);
    row.steps.push(twin.steps);
    row.cells.push(twin.cells);
    row.twin.push(twin_time);
    row.ours.push(our_time);
    let seconds = Pair { ours: our_time, twin: twin_time };
    let is_deep = twin.cells >= DEEP;
    row.both = row.both.plus(Both {
        count: 1,
        agree: (work.steps == twin.steps && work.cells == twin.cells) as usize,
        same: (text == twin.text) as usize,
        seconds,
        deep_cells: if is_deep { twin.cells } else { 0 },
        deep: if is_deep { seconds } else { Pair::default() },
    });
}

pub fn sheets(family: &Family, bound: i64, continuous: usize, o: &Options) -> Vec<Problem> {
    let mut rng = Rng(o.seed);
    (0..o.sheets).map(|_| family.draw(&mut rng, bound, continuous)).collect()
}

/// A row of these problems; the races are on the first of them that have a best value.
fn measured(raced: Raced, problems: &[Problem], solvers: &[Solver], o: &Options) -> Row {
    let (name, bound) = (raced.name, raced.bound);
    let mut row = Row { raced, ..Default::default() };
    let mut progress = Progress::new();
    for (k, p) in problems.iter().enumerate() {
        progress.show(|| format!("{name}, bound {bound}: {k} of {} sheets", problems.len()));
        measure(p, o, &mut row);
    }
    let raced: Vec<Problem> = problems.iter().filter(|p| race::has_best(p)).take(o.raced).cloned().collect();
    row.raced.races = race::races(solvers, &raced, &mut progress);
    row.steps.sort();
    row.cells.sort();
    row.ours.sort_by(f64::total_cmp);
    row.twin.sort_by(f64::total_cmp);
    row
}

/// Median, 99th of a hundred and worst, in columns of a width.
fn three<T: Copy>(list: &[T], width: usize, text: impl Fn(T) -> String) -> String {
    [MEDIAN, NINETY_NINTH, WORST].map(|share| format!("{:>width$}", at(list, share).map_or("-".into(), &text))).join(" ")
}

fn ratio_text(ratio: f64) -> String {
    if ratio.is_nan() {
        "-".into()
    } else {
        format!("{ratio:.2}")
    }
}

impl Row {
    /// Ours as a call on all sheets.
    fn calls(&self) -> Race {
        Race::of(&self.ours)
    }

    fn show(&self) {
        let micro = |seconds: f64| format!("{:.1}", seconds * 1e6);
        println!(
            "{:24} {:>5} |{} |{} |{} |{} |{:>6}",
            self.raced.name,
            self.raced.bound,
            three(&self.steps, 6, |n| n.to_string()),
            three(&self.cells, 6, |n| n.div_ceil(1000).to_string()),
            three(&self.ours, 9, micro),
            three(&self.twin, 9, micro),
            ratio_text(self.both.seconds.ratio())
        );
    }
}

fn heading(continuous: usize) {
    println!();
    println!("{} integer items and {continuous} continuous ones", ITEMS - continuous);
    let three = |width: usize| ["median", "99th", "worst"].map(|w| format!("{w:>width$}")).join(" ");
    println!("{:30} |{:>20} |{:>20} |{:>29} |{:>29} |", "", "steps", "1,000 cells", "ours us", "twin us");
    println!("{:24} {:>5} |{} |{} |{} |{} |{:>6}", "family", "bound", three(6), three(6), three(9), three(9), "ratio");
}

fn introduce(o: &Options) {
    println!("Speed: {} sheets a row, seed {}; the same sheets for all", o.sheets, o.seed);
    println!("steps, cells: the twin's, which searches for {} steps and then goes by scales", o.rules.steps);
    println!("us: from a sheet to its text, the least of three runs; ratio: our time by the twin's, of all sheets");
}

/// What all rows come to. Whether work and text are the same on all sheets.
fn sum_up(rows: &[Row]) -> bool {
    let both = rows.iter().fold(Both::default(), |sum, r| sum.plus(r.both));
    let most = |list: fn(&Row) -> &[u64]| rows.iter().filter_map(|r| at(list(r), WORST)).max().unwrap_or(0);
    let highest = rows.iter().map(|r| r.both.seconds.ratio()).fold(0.0, f64::max);
    let Both { count, agree, same, deep_cells, deep, .. } = both;
    println!();
    println!("work agrees on {agree} of {count} sheets; texts agree on {same} of {count}");
    println!("most steps {}, most cells {}; highest ratio of a row {highest:.2}", most(|r| &r.steps), most(|r| &r.cells));
    if deep_cells > 0 {
        let per_cell = |seconds: f64| seconds * 1e9 / deep_cells as f64;
        println!(
            "a cell, on sheets of {DEEP} or more: ours {:.2} ns, the twin {:.2} ns, ratio {:.2}",
            per_cell(deep.ours),
            per_cell(deep.twin),
            deep.ratio()
        );
    }
    agree == count && same == count
}

/// The picture: ours as a call, then each solver as a process.
fn drawn(solvers: &[Solver], rows: &[Row], o: &Options) -> String {
    let with_call = |r: &Row| {
        let races = std::iter::once(r.calls()).chain(r.raced.races.iter().cloned()).collect();
        Raced { name: r.raced.name, races, ..Default::default() }
    };
    let raced: usize = rows.iter().map(|r| r.raced.races.first().map_or(0, |r| r.seconds.len())).sum();
    let rows: Vec<Raced> = rows.iter().map(with_call).collect();
    Picture {
        title: "From a problem to its solution",
        series: picture::series(solvers),
        strips: race::by_family(&rows.iter().collect::<Vec<&Raced>>()),
        words: format!("{} sheets by call, {raced} by process; seed {}; an arrow: not done in {LIMIT} s", o.sheets * rows.len(), o.seed),
    }
    .draw()
}

/// Whether what was measured is the same work and the same text wherever ours and the twin go by the same rules.
pub fn speed(o: &Options) -> bool {
    let solvers = race::solvers();
    introduce(o);
    let mut rows = vec![];
    for &continuous in o.continuous {
        heading(continuous);
        for family in FAMILIES.iter().filter(|f| f.name.contains(&o.family)) {
            for bound in family.bounds {
                let raced = Raced { name: family.name, continuous, bound, ..Default::default() };
                let row = measured(raced, &sheets(family, bound, continuous, o), &solvers, o);
                row.show();
                rows.push(row);
            }
        }
    }
    if let Some(file) = &o.picture {
        std::fs::write(file, drawn(&solvers, &rows, o)).expect("a file for the picture");
    }
    let problems = load::problems();
    if LOAD.contains(&o.family) {
        println!();
        println!("The test load: all its sheets, of 1 to 16 items; any bounds, some absent, some crossing");
        let row = measured(Raced { name: LOAD, bound: 10_000, ..Default::default() }, &problems, &solvers, o);
        row.show();
        rows.push(row);
    }
    let is_same = sum_up(&rows);
    if o.raced > 0 {
        let raced: Vec<&Raced> = rows.iter().map(|r| &r.raced).collect();
        let calls: Vec<Race> = rows.iter().map(Row::calls).collect();
        race::show(&solvers, &raced, &calls, o.raced);
    }
    o.picture.iter().for_each(|file| println!("picture: {file}"));
    let is_stored = load::is_stored(&problems);
    println!("the stored test load is {}as drawn here", if is_stored { "" } else { "NOT " });
    is_stored && (o.rules != ours::RULES || is_same)
}
