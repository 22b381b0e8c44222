//! The relaxation of a box: items are filled in order, from their light ends.

use super::setting::{Ends, Setting};

/// The ranks before `at` are raised, `room` of the limit is left, the amounts are worth `worth`.
#[derive(Clone, Copy)]
pub struct Fill {
    pub at: usize,
    pub room: i64,
    pub worth: i64,
}

/// whole + part / parts.
#[derive(Clone, Copy)]
pub struct Mixed {
    pub whole: i64,
    pub part: i64,
    pub parts: i64,
}

pub fn less(a: Mixed, b: Mixed) -> bool {
    if a.whole != b.whole {
        a.whole < b.whole
    } else {
        a.part * b.parts < b.part * a.parts
    }
}

fn light_end(a: i64, c: i64, l: i64, u: i64) -> i64 {
    if a > 0 || (a == 0 && c <= 0) {
        l
    } else {
        u
    }
}

pub fn heavy_end(a: i64, l: i64, u: i64) -> i64 {
    if a < 0 {
        l
    } else {
        u
    }
}

impl Setting {
    /// The box with the first levels fixed at a place.
    pub fn fixed(&self, place: &[i64; 16], levels: usize) -> Ends {
        let mut e = self.ends;
        for d in 0..levels {
            let k = self.level[d];
            (e.lo[k], e.hi[k]) = (place[d], place[d]);
        }
        e
    }

    pub fn light(&self, e: &Ends, k: usize) -> i64 {
        light_end(self.weight[k], self.price[k], e.lo[k], e.hi[k])
    }

    pub fn begin(&self, e: &Ends) -> Fill {
        let mut f = Fill { at: 0, room: self.limit, worth: 0 };
        for k in 0..self.count {
            let x = self.light(e, k);
            f.room -= self.weight[k] * x;
            f.worth += self.price[k] * x;
        }
        f
    }

    pub fn fill(&self, e: &Ends) -> Fill {
        let mut f = self.begin(e);
        if f.room < 0 {
            return f;
        }
        while f.at < self.live {
            let k = self.order[f.at];
            let width = e.hi[k] - e.lo[k];
            let need = self.size[f.at] * width;
            if f.room < need {
                break;
            }
            f.room -= need;
            f.worth += self.rate[f.at] * width;
            f.at += 1;
        }
        f
    }

    pub fn bound(&self, f: Fill) -> Mixed {
        if f.at < self.live {
            let (x, parts) = (self.rate[f.at] * f.room, self.size[f.at]);
            Mixed { whole: f.worth + x / parts, part: x % parts, parts }
        } else {
            Mixed { whole: f.worth, part: 0, parts: 1 }
        }
    }

    /// Item k's amount in the relaxation, rounded towards its light end.
    pub fn start(&self, e: &Ends, f: Fill, k: usize) -> i64 {
        let (a, l, u) = (self.weight[k], e.lo[k], e.hi[k]);
        let v = self.rank[k];
        if f.room >= 0 && v < f.at {
            return heavy_end(a, l, u);
        }
        if f.room >= 0 && v == f.at && f.at < self.live {
            let q = f.room / self.size[f.at];
            return if a < 0 { u - q } else { l + q };
        }
        self.light(e, k)
    }
}
