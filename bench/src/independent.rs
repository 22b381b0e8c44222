//! A second planner, written from paper 01 alone and by other means: the dual of the relaxation, and dynamic programming over weights
//! in a window around the relaxation's point. It names the kind of reply and the best value; `first` names the best point that comes first.

mod converter;
mod first;
mod needs;
mod reader;

use crate::problem::{gcd, Item, Problem, Ranged, SENSES};
pub use converter::{convert, without_blanks};
pub use first::Point;
pub use needs::{first, plan};
pub use reader::{read, read_by, Blanks, Refusal};
use std::ops::{Add, Mul, Sub};

#[derive(Clone, Copy, Debug, PartialEq)]
pub enum Reply {
    Infeasible,
    Unbounded,
    Best(i128, i128),
}

/// The sure reply, then the possible one.
pub fn plan_both(p: &Ranged) -> [Reply; 2] {
    SENSES.map(|sense| plan(&p.in_sense(sense)))
}

fn crosses<W>(i: &Item<W>) -> bool {
    i.lower.zip(i.upper).is_some_and(|(l, u)| l > u)
}

// ---- the dual of the relaxation

/// The dual at the price p / q for a unit of weight: no point within the room r is worth more than (p r + rest) / q.
#[derive(Clone, Copy)]
struct Line {
    p: i64,
    q: i64,
    rest: i64,
}

impl Line {
    fn reduced(&self, i: &Item) -> i64 {
        self.q * i.price - self.p * i.weight
    }

    fn at(&self, room: i64) -> i128 {
        self.p as i128 * room as i128 + self.rest as i128
    }
}

/// The dual's corners. The least of them is the relaxation's value, where anything is feasible; with none, the value has no end.
fn dual(items: &[Item]) -> Vec<Line> {
    let ratios = items.iter().filter(|i| i.weight != 0).map(|i| (i.price * i.weight.signum(), i.weight.abs()));
    let corners = std::iter::once((0, 1)).chain(ratios.filter(|&(p, _)| p > 0));
    corners.filter_map(|(p, q)| corner(items, Line { p, q, rest: 0 })).collect()
}

fn corner(items: &[Item], mut line: Line) -> Option<Line> {
    for i in items {
        let gain = line.reduced(i);
        line.rest += match gain.signum() {
            1 => gain * i.upper?,
            -1 => gain * i.lower?,
            _ => 0,
        };
    }
    Some(line)
}

fn least(lines: &[Line], room: i64) -> Option<Line> {
    lines.iter().copied().min_by(|l, m| (l.at(room) * m.q as i128).cmp(&(m.at(room) * l.q as i128)))
}

/// What the items weigh at least; none if they have no least weight.
fn lightest(items: &[Item]) -> Option<i64> {
    items.iter().filter(|i| i.weight != 0).try_fold(0, |sum, i| {
        let end = if i.weight > 0 { i.lower } else { i.upper };
        Some(sum + i.weight * end?)
    })
}

/// The relaxation's point, its one fraction rounded: each item where the dual's best corner has it; those that it leaves open start at
/// a bound, or at 0, and fill the room up, or give way where it is overdrawn.
fn relaxed_point(p: &Problem, line: Line) -> Vec<i64> {
    let start = |i: &Item| match line.reduced(i).signum() {
        1 => i.upper.unwrap(),
        -1 => i.lower.unwrap(),
        _ => i.lower.or(i.upper).unwrap_or(0),
    };
    let mut point: Vec<i64> = p.items.iter().map(start).collect();
    let mut room = p.limit - p.items.iter().zip(&point).map(|(i, x)| i.weight * x).sum::<i64>();
    for (i, x) in p.items.iter().zip(&mut point) {
        let wanted = if line.p > 0 { room } else { room.min(0) };
        if line.reduced(i) != 0 || i.weight == 0 || wanted == 0 {
            continue;
        }
        let end = if (wanted > 0) == (i.weight > 0) { i.upper } else { i.lower };
        match end {
            Some(e) if (i.weight * (e - *x)).abs() <= wanted.abs() => {
                room -= i.weight * (e - *x);
                *x = e;
            }
            _ => {
                room -= wanted;
                *x += wanted.div_euclid(i.weight);
            }
        }
    }
    assert!(room == 0 || (line.p == 0 && room > 0), "the corner is the dual's least");
    point
}

// ---- dynamic programming

/// What a table counts in; NEVER is the worth of a weight that nothing has.
trait Worth: Copy + Ord + From<i64> + Add<Output = Self> + Sub<Output = Self> + Mul<Output = Self> {
    const NEVER: Self;
}

impl Worth for i64 {
    const NEVER: i64 = i64::MIN;
}

impl Worth for i128 {
    const NEVER: i128 = i128::MIN;
}

/// The most that some items are worth for each weight of a window, both counted from a point.
struct Table<W> {
    low: i64,
    worth: Vec<W>,
}

impl<W: Worth> Table<W> {
    /// Of no items.
    fn new() -> Table<W> {
        Table { low: 0, worth: vec![W::from(0)] }
    }

    fn high(&self) -> i64 {
        self.low + self.worth.len() as i64 - 1
    }

    /// With an item more, of weight a other than 0 and price c, in from ..= to units; within the window.
    fn with(&self, a: i64, c: W, from: i64, to: i64, window: i64) -> Table<W> {
        if a < 0 {
            return self.with(-a, W::from(0) - c, -to, -from, window);
        }
        let low = (self.low + a * from).max(-window);
        let high = (self.high() + a * to).min(window);
        let mut worth = vec![W::NEVER; (high - low + 1) as usize];
        for class in 0..a.min(high - low + 1) {
            self.with_class(a, c, from, to, low + class, &mut worth[class as usize..]);
        }
        Table { low, worth }
    }

    /// The weights first, first + a, …: new[w] = max over t of old[w - a t] + c t. What is behind the queue's front in both place and
    /// worth is never the most again.
    fn with_class(&self, a: i64, c: W, from: i64, to: i64, first: i64, worth: &mut [W]) {
        let mut queue = std::collections::VecDeque::new();
        let mut next = (first - a * to).max(self.low + (first - self.low).rem_euclid(a));
        for (j, new) in worth.iter_mut().step_by(a as usize).enumerate() {
            let w = first + a * j as i64;
            while next <= (w - a * from).min(self.high()) {
                let old = self.worth[(next - self.low) as usize];
                if old != W::NEVER {
                    let level = old - c * W::from((next - first).div_euclid(a));
                    while queue.back().is_some_and(|&(_, l)| l <= level) {
                        queue.pop_back();
                    }
                    queue.push_back((next, level));
                }
                next += a;
            }
            while queue.front().is_some_and(|&(v, _)| v < w - a * to) {
                queue.pop_front();
            }
            if let Some(&(_, level)) = queue.front() {
                *new = level + c * W::from(j as i64);
            }
        }
    }
}

/// Let the integer items weigh at most D each, x be the relaxation's point, and z the best point whose integer amounts are nearest to
/// x. Take the way from x to z in unit steps of integer items, and parts of continuous items, the unused room being one of them. No
/// steps with such parts weigh 0 together: without them z would be no worse and nearer, for with them x would be no better. So, if
/// steps that weigh more than 0 and less than 0 are taken in turns that keep the sum within (-D, D], no sum comes twice: fewer than 2 D
/// steps. Steps that are left then all have one sign; the parts that could balance one weigh less than it; so, with the fraction that
/// rounding x took, they weigh less than 2 D. Each sign weighs at most D D + 2 D in all, and D more for rounding x. So no item is
/// farther than 4 D from x, and in whatever order the items come, no sum leaves D D + 3 D.
fn integer_table(p: &Problem, point: &[i64]) -> Table<i64> {
    let integers: Vec<(&Item, i64)> =
        p.items.iter().zip(point.iter().copied()).filter(|(i, _)| i.integer && i.weight != 0).collect();
    let most = integers.iter().map(|(i, _)| i.weight.abs()).max().unwrap_or(0);
    let window = most * most + 3 * most;
    let far = 4 * most;
    let mut table = Table::new();
    for (i, x) in integers {
        let down = i.lower.map_or(far, |l| far.min(x - l));
        let up = i.upper.map_or(far, |u| far.min(u - x));
        table = table.with(i.weight, i.price, -down, up, window);
    }
    table
}

/// The best value of a problem without needs, where the relaxation has one.
fn best_value(p: &Problem, line: Line) -> (i128, i128) {
    let point = relaxed_point(p, line);
    let table = integer_table(p, &point);
    let continuous: Vec<Item> = p.items.iter().filter(|i| !i.integer).copied().collect();
    let lines = dual(&continuous);
    let need = lightest(&continuous);
    let fixed = || p.items.iter().zip(&point).filter(|(i, _)| i.integer);
    let room = p.limit - fixed().map(|(i, x)| i.weight * x).sum::<i64>();
    let worth = fixed().map(|(i, x)| i.price * x).sum::<i64>();
    let mut best: Option<(i128, i128)> = None;
    for (k, &gain) in table.worth.iter().enumerate() {
        let left = room - table.low - k as i64;
        if gain == i64::NEVER || need.is_some_and(|n| left < n) {
            continue;
        }
        let rest = least(&lines, left).expect("a dual of the continuous items");
        let value = (rest.at(left) + (worth + gain) as i128 * rest.q as i128, rest.q as i128);
        if best.is_none_or(|b| less(b, value)) {
            best = Some(value);
        }
    }
    let (n, d) = best.expect("a feasible point");
    lowest(n, d)
}

fn less(a: (i128, i128), b: (i128, i128)) -> bool {
    a.0 * b.1 < b.0 * a.1
}

fn lowest(n: i128, d: i128) -> (i128, i128) {
    (n / gcd(n, d), d / gcd(n, d))
}

/// Of a problem without needs: where no bounds cross the light corner is a point, so that it is infeasible only if that is too heavy.
fn is_infeasible(p: &Problem) -> bool {
    p.items.iter().any(crosses) || lightest(&p.items).is_some_and(|w| w > p.limit)
}
