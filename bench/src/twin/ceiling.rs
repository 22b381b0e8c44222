//! The driver of the engine: the least loss of a box, and a place that has it.
//!
//! Items are seen from their light ends: y units away from it, y = 0 ..= width, weighing size and gaining rate for each. For any p >= 0, q > 0
//!     q * value = top - loss,   loss = sum of |edge| * (units away from the good end) + p * slack,   edge = q * rate - p * size,
//! where the good end is the heavy one if edge > 0 and the light one if not. So the best point has the least loss.
//!
//! A frame is one arrangement of the continuous items: those before one of them, in the order of filling, stand at their heavy ends, those
//! after it at their light ends, and it is itself cut into granules of weight 1. Everything is then whole: 17 parts (the items and the
//! slack), each with an amount low ..= low + range, that weigh exactly the room. Losses of a frame are in units of 1/scale.

use super::relaxation::Mixed;
use super::scales::{Cells, Load, HIGHEST, PARTS};
use super::setting::Setting;
use crate::problem::Problem;

const ITEMS: usize = 16;
const SLACK: usize = 16;

/// What the driver has to know of a box. `falls`: the amount falls from the light end on. `soft`: the continuous items that can be worth
/// filling, in the order of filling.
#[derive(Default)]
pub struct Shape {
    pub count: usize,
    size: [i64; ITEMS],
    rate: [i64; ITEMS],
    width: [i64; ITEMS],
    pub light: [i64; ITEMS],
    pub falls: [bool; ITEMS],
    integer: [bool; ITEMS],
    room: i64,
    worth: i64,
    p: i64,
    q: i64,
    soft: Vec<usize>,
}

/// A loss: num / den, den at most 1000.
#[derive(Clone, Copy)]
pub struct Loss {
    num: u64,
    den: u64,
}

/// Some point of a box loses less than this at the critical item's ratio.
pub const DEEPEST: Loss = Loss { num: 10_000_000, den: 1 };

/// `cut`: the item in granules.
#[derive(Clone, Copy)]
pub struct Frame {
    pub scale: u64,
    pub cut: Option<usize>,
    room: u64,
    weight: [u64; PARTS],
    most: [u64; PARTS],
    cost: [u64; PARTS],
    heavy: [bool; PARTS],
    falls: [bool; PARTS],
    pub low: [u64; PARTS],
    range: [u64; PARTS],
}

// ---- shapes

impl Shape {
    pub fn of(p: &Problem, s: &Setting) -> Shape {
        let mut h = Shape { count: s.count, ..Default::default() };
        for k in 0..s.count {
            let (a, c) = (s.weight[k], s.price[k]);
            h.falls[k] = a < 0 || (a == 0 && c > 0);
            h.size[k] = a.abs();
            h.rate[k] = if h.falls[k] { -c } else { c };
            h.width[k] = s.ends.hi[k] - s.ends.lo[k];
            h.light[k] = s.light(&s.ends, k);
            h.integer[k] = p.items[k].integer;
        }
        let (corner, f) = (s.begin(&s.ends), s.fill(&s.ends));
        (h.room, h.worth) = (corner.room, corner.worth);
        // the multiplier p / q is the critical item's ratio
        (h.p, h.q) = if f.at < s.live { (s.rate[f.at], s.size[f.at]) } else { (0, 1) };
        h.soft = s.order[..s.live].iter().copied().filter(|&k| !h.integer[k] && h.width[k] > 0).collect();
        h
    }

    /// Of equal ratios falling items are filled first, by number, then rising ones, the last number first: so the first point of those worth
    /// as much has a frame. Falling items that are worth nothing come last.
    pub fn fill_early(&mut self) {
        let early = |k: usize| if self.falls[k] { k } else { 2 * ITEMS - k };
        let ratio = |j: usize, k: usize| (self.rate[k] * self.size[j]).cmp(&(self.rate[j] * self.size[k]));
        let counts = |&k: &usize| self.rate[k] > 0 || (self.rate[k] == 0 && self.falls[k]);
        let is_soft = |&k: &usize| !self.integer[k] && self.width[k] > 0 && self.size[k] > 0;
        let mut soft: Vec<usize> = (0..self.count).filter(is_soft).filter(counts).collect();
        soft.sort_by(|&j, &k| ratio(j, k).then(early(j).cmp(&early(k))));
        self.soft = soft;
    }

    fn edge(&self, k: usize) -> i64 {
        self.q * self.rate[k] - self.p * self.size[k]
    }

    /// How much q times a value is below the top of the box, unless that is too deep.
    pub fn loss(&self, v: Mixed) -> Loss {
        let gains = (0..self.count).map(|k| self.edge(k).max(0) * self.width[k]);
        let whole = (self.q * self.worth + self.p * self.room + gains.sum::<i64>() - self.q * v.whole) as u64;
        if whole > DEEPEST.num {
            return DEEPEST;
        }
        Loss { num: whole * v.parts as u64 - (self.q * v.part) as u64, den: v.parts as u64 }
    }

    /// One for each soft item; one if there is none.
    pub fn frames(&self) -> usize {
        self.soft.len().max(1)
    }

    /// Whether some frame cuts an item.
    pub fn cuts_some(&self) -> bool {
        !self.soft.is_empty()
    }

    /// Into how many pieces a unit of the item that frame l cuts goes.
    fn scale(&self, l: usize) -> u64 {
        self.soft.get(l).map_or(1, |&k| self.size[k] as u64)
    }

    /// Whether a point of frame l can have the loss.
    pub fn can_lose(&self, l: usize, t: Loss) -> bool {
        self.scale(l) * t.num % t.den == 0
    }

    /// All items with their widths, and the slack.
    fn whole_frame(&self, scale: u64) -> Frame {
        let (none, no) = ([0; PARTS], [false; PARTS]);
        let room = self.room as u64;
        let mut f = Frame { scale, cut: None, room, weight: none, most: none, cost: none, heavy: no, falls: no, low: none, range: none };
        for k in 0..self.count {
            f.weight[k] = self.size[k] as u64;
            f.most[k] = self.width[k] as u64;
            f.cost[k] = scale * self.edge(k).unsigned_abs();
            f.heavy[k] = self.edge(k) > 0;
            f.falls[k] = self.falls[k];
            f.range[k] = if self.integer[k] { f.most[k] } else { 0 };
        }
        f.weight[SLACK] = 1;
        (f.most[SLACK], f.range[SLACK]) = (room, room);
        f.cost[SLACK] = scale * self.p as u64;
        f
    }

    /// Soft item l is cut: size granules make a unit, which costs scale = size times as much.
    fn frame(&self, l: usize) -> Frame {
        let mut f = self.whole_frame(self.scale(l));
        for &j in &self.soft[..l] {
            f.low[j] = f.most[j];
        }
        let Some(&k) = self.soft.get(l) else {
            return f;
        };
        f.cut = Some(k);
        f.most[k] *= f.weight[k];
        f.range[k] = f.most[k];
        f.weight[k] = 1;
        f.cost[k] = self.edge(k).unsigned_abs();
        f
    }
}

// ---- what is below a cap

/// A cap less what so many units cost; 0 if that is no less than the cap.
fn less_units(cap: u64, units: u64, cost: u64) -> u64 {
    if units > 0 && cost > cap / units {
        0
    } else {
        cap - units * cost
    }
}

impl Frame {
    fn fix(&mut self, k: usize, amount: u64) {
        self.low[k] = amount;
        self.range[k] = 0;
    }

    /// How many units the part is away from its good end at least.
    fn away(&self, k: usize) -> u64 {
        if self.heavy[k] {
            self.most[k] - self.low[k] - self.range[k]
        } else {
            self.low[k]
        }
    }

    /// What is left of a cap on losses when every part is as near to its good end as it may be.
    fn remaining(&self, cap: u64) -> u64 {
        (0..PARTS).fold(cap, |left, k| less_units(left, self.away(k), self.cost[k]))
    }

    /// Amounts that alone would cost `left` or more are taken out.
    fn narrow(&mut self, left: u64) {
        for k in 0..PARTS {
            if self.cost[k] > 0 && self.range[k] > (left - 1) / self.cost[k] {
                let range = (left - 1) / self.cost[k];
                if self.heavy[k] {
                    self.low[k] += self.range[k] - range;
                }
                self.range[k] = range;
            }
        }
    }

    /// The room that is left when every part has its least amount.
    fn rest(&self) -> i64 {
        (0..PARTS).fold(self.room as i64, |rest, k| rest - (self.weight[k] * self.low[k]) as i64)
    }

    /// By how much the room is exceeded when every part has its highest amount.
    fn spare(&self) -> i64 {
        (0..PARTS).fold(-(self.room as i64), |spare, k| spare + (self.weight[k] * (self.low[k] + self.range[k])) as i64)
    }

    /// How many units of part k weigh no more than that.
    fn units(&self, k: usize, weight: i64) -> u64 {
        self.range[k].min((weight as u64).checked_div(self.weight[k]).unwrap_or(u64::MAX))
    }

    /// Amounts that alone would lose too much, weigh too much, or leave too little weight are taken out.
    fn near(&mut self, cap: u64) {
        let left = self.remaining(cap);
        if left > 0 {
            self.narrow(left);
        }
        let rest = self.rest();
        for k in (0..PARTS).filter(|_| rest >= 0) {
            self.range[k] = self.units(k, rest);
        }
        let spare = self.spare();
        for k in (0..PARTS).filter(|_| spare >= 0) {
            let range = self.units(k, spare);
            self.low[k] += self.range[k] - range;
            self.range[k] = range;
        }
    }

    /// Of the amounts of part k the first and `range` more.
    fn shorten(&mut self, k: usize, range: u64) {
        if self.falls[k] {
            self.low[k] += self.range[k] - range;
        }
        self.range[k] = range;
    }

    /// Part after part before `to` at the first amount that is left to it, and part `to` at a share of them.
    fn open(&mut self, cap: u64, to: usize, share: u64) {
        for k in 0..to {
            self.near(cap);
            self.shorten(k, 0);
        }
        self.near(cap);
        self.shorten(to, self.range[to] / share);
        self.near(cap);
    }
}

// ---- keys: the amounts of a group of parts as one number, that of the first part foremost

/// The parts from .. to have `base` keys in all, those after part k have radix[k].
struct Group {
    from: usize,
    to: usize,
    base: u64,
    radix: [u64; PARTS],
}

impl Frame {
    /// As many parts from `from` on, before `end`, as keep left * base within HIGHEST.
    fn group(&self, from: usize, end: usize, left: u64) -> Group {
        let mut g = Group { from, to: from, base: 1, radix: [0; PARTS] };
        while g.to < end && self.range[g.to] < HIGHEST / left / g.base {
            g.base *= self.range[g.to] + 1;
            g.to += 1;
        }
        let mut keys = 1;
        for k in (from..g.to).rev() {
            g.radix[k] = keys;
            keys *= self.range[k] + 1;
        }
        g
    }

    /// The group's parts at the amounts of a key. A digit counts from the item's least amount: a light end may be the upper one.
    fn decode(&mut self, g: &Group, key: u64) {
        let mut rest = key;
        for k in g.from..g.to {
            let digit = rest / g.radix[k];
            rest %= g.radix[k];
            self.fix(k, self.low[k] + if self.falls[k] { self.range[k] - digit } else { digit });
        }
    }

    /// Costs are losses * base + keys.
    fn load(&self, g: &Group, capacity: u64, left: u64) -> Load {
        let mut l = Load { weight: [0; PARTS], range: self.range, taken: g.radix, left: [0; PARTS], capacity, cap: left * g.base };
        for k in 0..PARTS {
            l.weight[k] = self.weight[k] as usize;
            if self.falls[k] {
                (l.taken[k], l.left[k]) = (0, g.radix[k]);
            }
            let loss = if self.range[k] > 0 { self.cost[k] * g.base } else { 0 };
            if self.heavy[k] {
                l.left[k] += loss;
            } else {
                l.taken[k] += loss;
            }
        }
        l
    }
}

// ---- a free part

/// Where the other parts weigh less in all, a run is short as it is.
const HEAVY: u64 = 16_384;

impl Frame {
    /// Whether part k costs nothing and is so wide that it can make up for all others: only their weights modulo its own matter then.
    fn absorbs(&self, k: usize, room: u64) -> bool {
        let all = self.weight[k] * (self.range[k] + 1);
        let others: u64 = (0..PARTS).filter(|&j| j != k).map(|j| self.weight[j] * self.range[j]).sum();
        self.cost[k] == 0 && self.weight[k] > 0 && others >= HEAVY && others < room + self.weight[k] && room < all
    }
}

impl Load {
    /// Weights modulo that of the free part, from the nearer side: from above, a part is counted from its other end.
    fn fold(&mut self, free: usize) {
        let modulus = self.weight[free];
        for k in (0..PARTS).filter(|&k| k != free) {
            let residue = self.weight[k] % modulus;
            self.weight[k] = residue;
            if 2 * residue > modulus {
                self.weight[k] = modulus - residue;
                (self.taken[k], self.left[k]) = (self.left[k], self.taken[k]);
                self.capacity += self.weight[k] as u64 * self.range[k];
            }
        }
        self.range[free] = self.capacity / modulus as u64;
    }
}

// ---- runs

/// The least loss below a cap, or the cap. If it is below, the frame has lost what is at or above the cap, and a group of its parts from ..
/// is fixed at the first amounts of the points that have this loss; the first part that is not fixed is told too.
fn run(f: &mut Frame, cap: u64, from: usize, cells: &mut Cells) -> (u64, usize) {
    let left = f.remaining(cap);
    if left == 0 {
        return (cap, from);
    }
    let mut n = *f;
    n.narrow(left);
    let room = n.rest();
    if room < 0 {
        return (cap, from);
    }
    let free = (from + 1..PARTS).find(|&k| n.absorbs(k, room as u64));
    let g = n.group(from, free.unwrap_or(ITEMS).min(ITEMS), left);
    let mut l = n.load(&g, room as u64, left);
    free.into_iter().for_each(|k| l.fold(k));
    let cost = cells.least_cost(l);
    if cost == l.cap {
        return (cap, from);
    }
    n.decode(&g, cost % g.base);
    *f = n;
    (cap - left + cost / g.base, g.to)
}

/// From part `from` on, the first amounts of those that lose just less than the cap, where none loses less; whether any does.
fn onward(f: &mut Frame, cap: u64, mut from: usize, cells: &mut Cells) -> bool {
    while from < ITEMS {
        let (loss, to) = run(f, cap, from, cells);
        if loss == cap && from == 0 {
            return false;
        }
        assert!(loss + 1 == cap && to > from, "a run's least cost is attained");
        from = to;
    }
    true
}

/// So many parts are tried at their first amounts, and the next one at this share of those that are left to it.
const LEAPS: [(usize, u64); 7] = [(12, 1), (8, 1), (4, 1), (3, 16), (2, 16), (1, 16), (0, 16)];

/// A run over these amounts; if it finds a loss below the cap, it is that of the first point. The first part that is not fixed is told; 0 if
/// no leap finds any.
fn leap(f: &mut Frame, cap: u64, cells: &mut Cells) -> usize {
    for (to, share) in LEAPS {
        let mut n = *f;
        n.open(cap, to, share);
        if n.spare() < 0 {
            continue;
        }
        let (loss, next) = run(&mut n, cap, to, cells);
        if loss < cap {
            *f = n;
            return next;
        }
    }
    0
}

/// The first point of frame l that has exactly the loss t, if one has; none has less. The items are decoded group by group.
pub fn first_of_frame(h: &Shape, l: usize, t: Loss, cells: &mut Cells) -> Option<Frame> {
    let mut f = h.frame(l);
    let cap = f.scale * t.num / t.den + 1;
    let from = leap(&mut f, cap, cells);
    onward(&mut f, cap, from, cells).then_some(f)
}

/// The amounts of the integer items at the first point of a frame that has the least loss of the box; none if no loss is less than `known`.
pub fn better_amounts(h: &Shape, known: Loss, cells: &mut Cells) -> Option<[i64; ITEMS]> {
    let (mut best, mut found) = (known, None);
    for l in 0..h.frames() {
        let mut f = h.frame(l);
        let cap = (f.scale * best.num).div_ceil(best.den);
        let (loss, to) = run(&mut f, cap, 0, cells);
        if loss < cap {
            best = Loss { num: loss, den: f.scale };
            assert!(onward(&mut f, loss + 1, to, cells), "a run's least cost is attained");
            found = Some(f);
        }
    }
    let f = found?;
    let mut x = [0; ITEMS];
    for k in 0..h.count {
        let y = f.low[k] as i64;
        x[k] = h.light[k] + if h.falls[k] { -y } else { y };
    }
    Some(x)
}
