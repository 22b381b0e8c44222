//! Branch and bound over the places of a box, step for step as the planner does it.

use super::amount;
use super::relaxation::{less, Fill, Mixed};
use super::setting::{Ends, Setting};

/// A place, and the starts of its levels along it.
#[derive(Default)]
pub struct Path {
    pub place: [i64; 16],
    starts: [i64; 16],
}

/// The best point so far: its place, its value, and its amounts over the value's divisor.
#[derive(Clone, Copy)]
pub struct Incumbent {
    pub place: [i64; 16],
    pub value: Mixed,
    pub point: [i64; 16],
}

/// What a look settled: the rest of the segment of a level, or every place with the first amounts.
enum Settled {
    Run(usize),
    Prefix(usize),
}

/// The levels above `from` settle nothing. With `ties`, of points that are worth as much the one that comes first is looked for.
pub struct Search<'a> {
    s: &'a Setting,
    ties: bool,
    path: Path,
    best: Option<Incumbent>,
    pub steps: u64,
    from: usize,
}

impl<'a> Search<'a> {
    pub fn new(s: &'a Setting, ties: bool) -> Search<'a> {
        let mut search = Search { s, ties, path: Path::default(), best: None, steps: 0, from: 0 };
        search.dive(0);
        search
    }

    /// The levels from j on at their starts.
    fn dive(&mut self, j: usize) {
        let s = self.s;
        let mut e = self.fixed(j);
        for d in j..s.levels {
            let k = s.level[d];
            let v = s.start(&e, s.fill(&e), k);
            (e.lo[k], e.hi[k]) = (v, v);
            (self.path.place[d], self.path.starts[d]) = (v, v);
        }
    }

    fn fixed(&self, levels: usize) -> Ends {
        self.s.fixed(&self.path.place, levels)
    }

    /// Whether the filling f of the box e, worth v, is ahead of the incumbent: worth more, or as much and coming before.
    fn is_ahead(&self, e: &Ends, f: Fill, v: Mixed, best: &Incumbent) -> bool {
        if less(best.value, v) || less(v, best.value) || !self.ties {
            return less(best.value, v);
        }
        let first = |k: usize| amount(self.s, e, f, v.parts, k) * best.value.parts;
        (0..self.s.count).map(first).lt((0..self.s.count).map(|k| best.point[k] * v.parts))
    }

    /// The value that the box e has to exceed: one less than the incumbent's where the lower corner of the box comes before it.
    fn threshold(&self, e: &Ends, best: &Incumbent) -> i64 {
        let corner = (0..self.s.count).map(|k| e.lo[k] * best.value.parts);
        best.value.whole - (self.ties && corner.lt(best.point.iter().copied().take(self.s.count))) as i64
    }

    /// Whether the box e of a run at level d holds nothing ahead of the incumbent.
    fn is_cut(&self, e: &Ends, d: usize) -> bool {
        let f = self.s.fill(e);
        if f.room < 0 {
            return true;
        }
        let Some(best) = self.best else {
            return false;
        };
        let v = self.s.bound(f);
        !self.is_ahead(e, f, v, &best) || (!self.s.free && self.s.off_lattice(f, d, self.threshold(e, &best)))
    }

    /// Whether a pair of level d and one above can be taken away from the place within the box.
    fn is_paired(&self, d: usize) -> bool {
        let s = self.s;
        let x = &self.path.place;
        let within = |k: usize, y: i64| s.ends.lo[k] <= y && y <= s.ends.hi[k];
        let i = s.level[d];
        (0..d).any(|e| {
            let j = s.level[e];
            s.pairs[16 * i + j].is_some_and(|(r, t)| within(i, x[d] - r) && within(j, x[e] - t))
        })
    }

    /// The first level whose run can be set aside, or that a pair discards; else the place is tried. And whether that is a better one.
    fn look(&mut self) -> (Settled, bool) {
        let s = self.s;
        let mut e = self.fixed(self.from);
        for d in self.from..s.levels {
            let k = s.level[d];
            let x = self.path.place[d];
            if x < self.path.starts[d] {
                e.hi[k] = x;
            } else {
                e.lo[k] = x;
            }
            if self.is_cut(&e, d) {
                return (Settled::Run(d), false);
            }
            if self.is_paired(d) {
                return (Settled::Prefix(d + 1), false);
            }
            (e.lo[k], e.hi[k]) = (x, x);
        }
        (Settled::Prefix(s.levels), self.try_place(&e))
    }

    fn try_place(&mut self, e: &Ends) -> bool {
        let f = self.s.fill(e);
        if f.room < 0 {
            return false;
        }
        let value = self.s.bound(f);
        let better = self.best.is_none_or(|b| self.is_ahead(e, f, value, &b));
        if better {
            let mut point = [0; 16];
            for k in 0..self.s.count {
                point[k] = amount(self.s, e, f, value.parts, k);
            }
            self.best = Some(Incumbent { place: self.path.place, value, point });
        }
        better
    }

    /// The first place after what was settled, as a level and its amount.
    fn next(&self, settled: Settled) -> Option<(usize, i64)> {
        let (x, starts) = (&self.path.place, &self.path.starts);
        let lo = |d: usize| self.s.ends.lo[self.s.level[d]];
        let hi = |d: usize| self.s.ends.hi[self.s.level[d]];
        let below = |d: usize| (lo(d) < starts[d]).then(|| (d, starts[d] - 1));
        let levels = match settled {
            Settled::Prefix(n) => n,
            Settled::Run(d) => {
                if x[d] >= starts[d] && lo(d) < starts[d] {
                    return below(d);
                }
                d
            }
        };
        (0..levels).rev().find_map(|d| {
            if x[d] < starts[d] {
                (lo(d) < x[d]).then(|| (d, x[d] - 1))
            } else if x[d] < hi(d) {
                Some((d, x[d] + 1))
            } else {
                below(d)
            }
        })
    }

    /// The best place, if the search ends within so many steps; else the best so far, if there is one.
    pub fn run(&mut self, limit: u64) -> Result<Incumbent, Option<Incumbent>> {
        while self.steps < limit {
            self.steps += 1;
            let (settled, better) = self.look();
            let Some((d, v)) = self.next(settled) else {
                return Ok(self.best.expect("the box has a feasible place"));
            };
            self.from = if better { 0 } else { d };
            self.path.place[d] = v;
            self.dive(d + 1);
        }
        Err(self.best)
    }
}
