//! Of the points of least loss, the one that comes first: least amount of item 1, then of item 2, and so on.

use super::ceiling::{first_of_frame, Frame, Shape};
use super::relaxation::Mixed;
use super::scales::Cells;

/// Amounts over one divisor.
pub struct Point {
    pub amounts: Vec<i64>,
    pub divisor: i64,
}

impl Point {
    fn of(h: &Shape, f: &Frame) -> Point {
        let divisor = f.scale as i64;
        let amount = |k: usize| {
            let y = f.low[k] as i64 * if f.cut == Some(k) { 1 } else { divisor };
            h.light[k] * divisor + if h.falls[k] { -y } else { y }
        };
        Point { amounts: (0..h.count).map(amount).collect(), divisor }
    }

    pub fn comes_before(&self, other: &Point) -> bool {
        let ours = self.amounts.iter().map(|x| x * other.divisor);
        ours.lt(other.amounts.iter().map(|x| x * self.divisor))
    }
}

/// The first of the frames' first points that are worth the best value.
pub fn first_point(mut h: Shape, best: Mixed, cells: &mut Cells) -> Point {
    h.fill_early();
    let least = h.loss(best);
    let mut first: Option<Point> = None;
    for l in 0..h.frames() {
        if !h.can_lose(l, least) {
            continue;
        }
        let next = first_of_frame(&h, l, least, cells).map(|f| Point::of(&h, &f));
        first = match (first, next) {
            (Some(x), Some(y)) => Some(if y.comes_before(&x) { y } else { x }),
            (x, y) => x.or(y),
        };
    }
    first.expect("a frame has the least loss")
}
