//! A speed table as a picture in SVG: a family a row, times on a logarithmic scale, the median and the worst sheet of each solver.

use crate::race::Race;
use crate::rivals::Solver;
use crate::stats::{MEDIAN, WORST};

const WIDTH: f64 = 960.0;
const LEFT: f64 = 200.0;
const RIGHT: f64 = 930.0;
const TOP: f64 = 92.0;
const LINE: f64 = 11.0;
const GAP: f64 = 12.0;

/// The ends of the axis, in powers of ten of a second.
const FROM: f64 = -5.0;
const TO: f64 = 0.5;

const GRID: [(f64, &str); 6] = [(-5.0, "10 µs"), (-4.0, "0.1 ms"), (-3.0, "1 ms"), (-2.0, "10 ms"), (-1.0, "0.1 s"), (0.0, "1 s")];

/// What is drawn of a solver.
#[derive(Clone, Copy)]
pub struct Series {
    pub name: &'static str,
    colour: &'static str,
    mark: fn(f64, f64, &str) -> String,
}

pub const OURS: Series = Series { name: "ours", colour: "#1b6ca8", mark: circle };
pub const GLPSOL: Series = Series { name: "glpsol", colour: "#c1440e", mark: diamond };
pub const CBC: Series = Series { name: "cbc", colour: "#5a5a5a", mark: square };

impl Series {
    pub const fn called(self, name: &'static str) -> Series {
        Series { name, ..self }
    }
}

/// A strip for each family, with a race for each of the series.
pub struct Picture {
    pub title: &'static str,
    pub series: Vec<Series>,
    pub strips: Vec<(&'static str, Vec<Race>)>,
    pub words: String,
}

fn across(seconds: f64) -> f64 {
    let share = (seconds.max(1e-9).log10() - FROM) / (TO - FROM);
    LEFT + share.clamp(0.0, 1.0) * (RIGHT - LEFT)
}

fn text(x: f64, y: f64, anchor: &str, words: &str) -> String {
    format!("<text x=\"{x:.1}\" y=\"{y:.1}\" text-anchor=\"{anchor}\">{words}</text>\n")
}

fn polygon(points: &[(f64, f64)], colour: &str) -> String {
    let list: Vec<String> = points.iter().map(|(x, y)| format!("{x:.1},{y:.1}")).collect();
    format!("<polygon points=\"{}\" fill=\"{colour}\"/>\n", list.join(" "))
}

fn circle(x: f64, y: f64, colour: &str) -> String {
    format!("<circle cx=\"{x:.1}\" cy=\"{y:.1}\" r=\"4\" fill=\"{colour}\"/>\n")
}

fn ring(x: f64, y: f64, colour: &str) -> String {
    format!("<circle cx=\"{x:.1}\" cy=\"{y:.1}\" r=\"3.4\" fill=\"white\" stroke=\"{colour}\" stroke-width=\"1.6\"/>\n")
}

fn square(x: f64, y: f64, colour: &str) -> String {
    polygon(&[(x - 3.6, y - 3.6), (x + 3.6, y - 3.6), (x + 3.6, y + 3.6), (x - 3.6, y + 3.6)], colour)
}

fn diamond(x: f64, y: f64, colour: &str) -> String {
    polygon(&[(x - 5.0, y), (x, y - 5.0), (x + 5.0, y), (x, y + 5.0)], colour)
}

/// Ours as a call and as a process, then the others.
pub fn series(solvers: &[Solver]) -> Vec<Series> {
    let of = |s: &Solver| match s {
        Solver::Ours => OURS.called("ours, a process"),
        Solver::Glpsol => GLPSOL,
        Solver::Cbc => CBC,
    };
    std::iter::once(Series { name: "ours, a call", mark: ring, ..OURS }).chain(solvers.iter().map(of)).collect()
}

/// A line from the median's mark to the worst sheet's end; an arrow if that was not done in time.
fn strip(s: &Series, r: &Race, y: f64) -> String {
    let (from, to) = (across(r.at(MEDIAN)), across(r.at(WORST)));
    let colour = s.colour;
    let mut out = format!("<path d=\"M{from:.1} {y:.1}H{to:.1}\" stroke=\"{colour}\" stroke-width=\"1.6\"/>\n");
    out += &if r.late > 0 {
        polygon(&[(to, y - 4.5), (to + 8.0, y), (to, y + 4.5)], colour)
    } else {
        format!("<path d=\"M{to:.1} {:.1}V{:.1}\" stroke=\"{colour}\" stroke-width=\"1.6\"/>\n", y - 4.0, y + 4.0)
    };
    out + &(s.mark)(from, y, colour)
}

fn grid(bottom: f64) -> String {
    let mut out = String::new();
    for (power, label) in GRID {
        let x = across(10f64.powf(power));
        out += &format!("<path d=\"M{x:.1} {TOP:.1}V{bottom:.1}\" stroke=\"#d8d8d8\"/>\n");
        out += &text(x, TOP - 6.0, "middle", label);
    }
    out
}

fn legend(list: &[Series]) -> String {
    let place = |k: usize| LEFT + 8.0 + 150.0 * k as f64;
    list.iter().enumerate().map(|(k, s)| (s.mark)(place(k), 50.0, s.colour) + &text(place(k) + 11.0, 54.0, "start", s.name)).collect()
}

impl Picture {
    fn strips(&self, height: f64) -> String {
        let mut out = String::new();
        for (k, (name, races)) in self.strips.iter().enumerate() {
            let top = TOP + height * k as f64;
            out += &format!("<path d=\"M14 {top:.1}H{RIGHT:.1}\" stroke=\"#d8d8d8\"/>\n");
            out += &text(LEFT - 12.0, top + height / 2.0 + 4.0, "end", name);
            for (j, (s, r)) in self.series.iter().zip(races).enumerate() {
                out += &strip(s, r, top + GAP / 2.0 + LINE * (j as f64 + 0.5));
            }
        }
        out
    }

    pub fn draw(&self) -> String {
        let height = LINE * self.series.len() as f64 + GAP;
        let bottom = TOP + height * self.strips.len() as f64;
        let mut out = format!(
            "<svg xmlns=\"http://www.w3.org/2000/svg\" viewBox=\"0 0 {WIDTH} {0}\" width=\"{WIDTH}\" height=\"{0}\" font-family=\"sans-serif\" font-size=\"12\">\n",
            bottom + 32.0
        );
        out += &format!("<rect width=\"{WIDTH}\" height=\"{}\" fill=\"white\"/>\n", bottom + 32.0);
        out += &format!("<text x=\"14\" y=\"26\" font-size=\"16\">{}: the median sheet (mark) and the worst (end of the line)</text>\n", self.title);
        out += &(legend(&self.series) + &grid(bottom) + &self.strips(height));
        out + &text(RIGHT, bottom + 20.0, "end", &self.words) + "</svg>\n"
    }
}
