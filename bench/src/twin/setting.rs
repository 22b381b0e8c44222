//! What does not change during a search: the box, the orders of filling and of branching, lattices, pairs.

use super::lattice::Lattice;
use crate::problem::{Item, Problem};

/// What stands for an absent bound.
const REACH: i64 = 300_000_000;

#[derive(Clone, Copy, Default)]
pub struct Ends {
    pub lo: [i64; 16],
    pub hi: [i64; 16],
}

/// By item: weight, price, rank. By rank, in the order of filling: item, size and rate (weight and price without the weight's sign).
/// By level, in the order of branching: item and lattice.
#[derive(Clone, Default)]
pub struct Setting {
    pub count: usize,
    pub limit: i64,
    pub weight: [i64; 16],
    pub price: [i64; 16],
    pub rank: [usize; 16],
    pub order: [usize; 16],
    pub size: [i64; 16],
    pub rate: [i64; 16],
    pub live: usize,
    pub ends: Ends,
    pub levels: usize,
    pub level: [usize; 16],
    pub free: bool,
    pub lattice: [Lattice; 16],
    pub pairs: Vec<Option<(i64, i64)>>,
}

pub fn gcd(a: i64, b: i64) -> i64 {
    if b == 0 {
        a.abs()
    } else {
        gcd(b, a % b)
    }
}
/// A continuous item that is not fixed.
fn is_free(i: &Item) -> bool {
    !i.integer && (i.lower.is_none() || i.lower != i.upper)
}

/// Weight and price with the sign of the weight taken out.
fn turned(i: &Item) -> (i64, i64) {
    if i.weight < 0 {
        (-i.weight, -i.price)
    } else {
        (i.weight, i.price)
    }
}

/// The items by falling price per weight, those of weight 0 last; of equals, those first that lack the bound where they are lightest.
fn filling_order(p: &Problem) -> Vec<usize> {
    let mut order: Vec<usize> = (0..p.items.len()).collect();
    order.sort_by(|&x, &y| {
        let (i, j) = (&p.items[x], &p.items[y]);
        let ((a, c), (b, d)) = (turned(i), turned(j));
        if a == 0 || b == 0 {
            return (a == 0).cmp(&(b == 0));
        }
        (d * a).cmp(&(c * b)).then(has_light_end(i).cmp(&has_light_end(j)))
    });
    order
}

fn has_light_end(i: &Item) -> bool {
    if i.weight < 0 {
        i.upper.is_some()
    } else {
        i.lower.is_some()
    }
}

/// The integer items by falling reduced price at the critical item's price per weight, equals by number.
fn branching_order(p: &Problem, s: &Setting) -> Vec<usize> {
    let f = s.fill(&s.ends);
    let (c, a) = if f.room >= 0 && f.at < s.live { (s.rate[f.at], s.size[f.at]) } else { (0, 1) };
    let mut order: Vec<usize> = (0..s.count).filter(|&k| p.items[k].integer).collect();
    order.sort_by_key(|&k| if s.weight[k] == 0 { 1 } else { -(a * s.price[k] - c * s.weight[k]).abs() });
    order
}

pub fn prepare(p: &Problem) -> Setting {
    let mut s = Setting { count: p.items.len(), limit: p.limit, ..Default::default() };
    for (k, i) in p.items.iter().enumerate() {
        (s.weight[k], s.price[k]) = (i.weight, i.price);
        s.ends.lo[k] = i.lower.unwrap_or(-REACH);
        s.ends.hi[k] = i.upper.unwrap_or(REACH);
    }
    for (r, &k) in filling_order(p).iter().enumerate() {
        (s.order[r], s.rank[k]) = (k, r);
        (s.size[r], s.rate[r]) = turned(&p.items[k]);
    }
    while s.live < s.count && s.size[s.live] > 0 && s.rate[s.live] > 0 {
        s.live += 1;
    }
    for (d, &k) in branching_order(p, &s).iter().enumerate() {
        s.level[d] = k;
        s.levels += 1;
    }
    s.free = p.items.iter().any(is_free);
    let mut lattice = Lattice::default();
    for d in (0..s.levels).rev() {
        let k = s.level[d];
        lattice = lattice.with(s.weight[k], s.price[k]);
        s.lattice[d] = lattice;
    }
    s
}

/// How far each item has to go in a search, by the problem's own figures.
pub fn spans(p: &Problem) -> Vec<i64> {
    let is_open = |i: &Item| i.lower.is_none() || i.upper.is_none();
    let own = |i: &Item| [i.lower, i.upper].iter().flatten().map(|b| b.abs()).max().unwrap_or(0);
    let weight = p.items.iter().filter(|i| is_open(i)).map(|i| i.weight.abs()).max().unwrap_or(0);
    let bound = p.items.iter().map(own).max().unwrap_or(0);
    let lead = |i: &Item| own(i) + if is_open(i) { weight } else { 0 };
    let reach = p.limit.abs() + p.items.iter().map(|i| i.weight.abs() * lead(i)).sum::<i64>() + weight;
    p.items.iter().map(|i| bound + weight + reach / i.weight.abs().max(1) + 1).collect()
}

impl Setting {
    /// In the order of filling that gives the first of the relaxed optima: of equal prices per weight what falls comes first, by number, then what rises,
    /// the last number first.
    pub fn tied(&self) -> Setting {
        let mut s = self.clone();
        let early = |k: usize| if s.weight[k] < 0 { k } else { 2 * s.count - k };
        let turned = |k: usize| (s.weight[k].abs(), s.price[k] * s.weight[k].signum());
        let mut order: Vec<usize> = (0..s.count).collect();
        order.sort_by(|&j, &k| {
            let ((a, c), (b, d)) = (turned(j), turned(k));
            if a == 0 || b == 0 {
                return (a == 0).cmp(&(b == 0)).then(early(j).cmp(&early(k)));
            }
            (d * a).cmp(&(c * b)).then(early(j).cmp(&early(k)))
        });
        let live = |k: usize| s.weight[k] != 0 && (turned(k).1 > 0 || (turned(k).1 == 0 && s.weight[k] < 0));
        s.live = order.iter().filter(|&&k| live(k)).count();
        for (r, &k) in order.iter().enumerate() {
            (s.order[r], s.rank[k]) = (k, r);
            (s.size[r], s.rate[r]) = (self.weight[k].abs(), self.price[k] * self.weight[k].signum());
        }
        s
    }

    /// No end of an item lies beyond its span.
    pub fn narrow(&mut self, spans: &[i64]) {
        for (k, &r) in spans.iter().enumerate() {
            self.ends.lo[k] = self.ends.lo[k].clamp(-r, r);
            self.ends.hi[k] = self.ends.hi[k].clamp(-r, r);
        }
    }
}
