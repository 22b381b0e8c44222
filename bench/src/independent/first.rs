//! The best point that comes first (paper 02, request 5): least amount of item 1, then of item 2, and so on, over all best points.
//!
//! It has at most one amount that is not whole, and then the limit is used up. So a continuous item of weight a is cut into granules of weight
//! 1, |a| to a unit, and every item is a part in whole numbers; so is the unused room, of weight 1. Let a point be better if it is worth more,
//! or as much and comes before. Then the first best point z is the only best one. Let x be the relaxation's, its one fraction rounded, and D
//! the greatest weight of an integer item. Take the way from x to z in unit steps. No steps of it weigh 0 together: z without them would be
//! worse, so they gain; but then x with a little of them would be better. So, as in `integer_table`, steps of both signs in turns are fewer
//! than 2 D, and those that are left, all of one sign, weigh less than 2 D. No part is farther than 4 D from x, and no sum leaves D D + 3 D.

use super::{lowest, Line, Table, Worth};
use crate::problem::{gcd, Item, Problem};

/// Amounts p / q in lowest terms.
pub type Point = Vec<(i128, i128)>;

/// An item in whole units, `units` to an amount of 1: what a unit weighs, what an amount of 1 is worth, how many units the item has at the
/// relaxation's point, and how far it may be from there.
struct Part {
    units: i64,
    weight: i64,
    price: i64,
    start: i64,
    from: i64,
    to: i64,
}

/// Prices are over one divisor. Up to these, a price times 2,100,000 steps of a window fits into 64 and 128 bits.
const NARROW: i128 = 100_000_000;
const WIDE: i128 = 1_000_000_000_000_000_000_000_000_000;

// ---- the relaxation's first point

/// What an item can weigh, at least and at most; none if that has no end.
fn weights(i: &Item) -> (Option<i64>, Option<i64>) {
    let (at_lower, at_upper) = (i.lower.map(|l| i.weight * l), i.upper.map(|u| i.weight * u));
    if i.weight > 0 {
        (at_lower, at_upper)
    } else {
        (at_upper, at_lower)
    }
}

/// Weights at the relaxation's first point. Items that the dual's corner leaves open share what the others leave; each takes the least
/// amount that the later ones, and the unused room where it is free, still allow.
fn first_weights(p: &Problem, line: Line) -> Vec<i64> {
    let is_tied = |i: &Item| line.reduced(i) == 0 && i.weight != 0;
    let decided = |i: &Item| if line.reduced(i) > 0 { i.upper.unwrap() } else { i.lower.unwrap() };
    let mut left = p.limit - p.items.iter().filter(|i| !is_tied(i)).map(|i| i.weight * decided(i)).sum::<i64>();
    let mut point = vec![];
    for (k, i) in p.items.iter().enumerate() {
        if !is_tied(i) {
            point.push(i.weight * decided(i));
            continue;
        }
        let later = || p.items[k + 1..].iter().filter(|i| is_tied(i)).map(weights);
        let (least, most) = weights(i);
        let weight = if i.weight > 0 {
            let room = if line.p == 0 { None } else { later().map(|w| w.1).sum::<Option<i64>>() };
            least.unwrap().max(room.map_or(i64::MIN, |r| left - r))
        } else {
            most.unwrap().min(later().map(|w| w.0).sum::<Option<i64>>().map_or(i64::MAX, |r| left - r))
        };
        left -= weight;
        point.push(weight);
    }
    point
}

// ---- parts

/// How many units an item may be away from the dual's end, if only best points count: each costs its reduced price, and all together what
/// the best value is below the dual's, gap.0 / gap.1.
fn farthest(i: &Item, units: i64, line: Line, gap: (i128, i128)) -> i64 {
    let most = gap.0 * units as i128 / (gap.1 * line.reduced(i).unsigned_abs() as i128);
    most.min(i64::MAX as i128) as i64
}

fn part(i: &Item, weight: i64, line: Line, gap: (i128, i128), far: i64) -> Part {
    let units = if i.integer || i.weight == 0 { 1 } else { i.weight.abs() };
    let start = match i.weight {
        0 if line.reduced(i) > 0 => i.upper.unwrap(),
        0 => i.lower.unwrap(),
        a if i.integer => (weight * a.signum()).div_euclid(a.abs()),
        a => weight * a.signum(),
    };
    let down = far.min(start - i.lower.unwrap() * units);
    let up = i.upper.map_or(far, |u| far.min(u * units - start));
    let (from, to) = match line.reduced(i).signum() {
        _ if i.weight == 0 => (0, 0),
        1 => (-down.min(farthest(i, units, line, gap)), 0),
        -1 => (0, up.min(farthest(i, units, line, gap))),
        _ => (-down, up),
    };
    Part { units, weight: i.weight / units, price: i.price, start, from, to }
}

/// The parts, the window of their weights, and one divisor for the prices of all units that move.
fn parts(p: &Problem, line: Line, value: (i128, i128)) -> (Vec<Part>, i64, i128) {
    let gap = (line.at(p.limit) * value.1 - line.q as i128 * value.0, value.1);
    let heaviest = p.items.iter().filter(|i| i.integer).map(|i| i.weight.abs()).max().unwrap_or(0).max(1);
    let weights = first_weights(p, line);
    let parts: Vec<Part> = p.items.iter().zip(weights).map(|(i, w)| part(i, w, line, gap, 4 * heaviest)).collect();
    let divisor =
        parts.iter().filter(|m| m.from < m.to).fold(1, |d: i128, m| (d / gcd(d, m.units as i128)).saturating_mul(m.units as i128));
    (parts, heaviest * heaviest + 3 * heaviest, divisor)
}

// ---- the first best point among them

/// Of the steps that gain most within the room: the least of the first part, then of the second, and so on.
fn first_steps<W: Worth>(parts: &[&Part], prices: &[W], window: i64, room: i64) -> Vec<i64> {
    let mut tables = vec![Table::new()];
    for (m, &c) in parts.iter().zip(prices).rev() {
        tables.push(tables[tables.len() - 1].with(m.weight, c, m.from, m.to, window));
    }
    tables.iter_mut().for_each(Table::accumulate);
    let mut left = room;
    let mut need = tables.pop().unwrap().within(room);
    let mut steps = vec![];
    for (m, &c) in parts.iter().zip(prices) {
        let rest = tables.pop().unwrap();
        let reaches = |t: &i64| {
            let worth = rest.within(left - m.weight * t);
            worth != W::NEVER && worth + c * W::from(*t) == need
        };
        let t = (m.from..=m.to).find(reaches).expect("the most is reached");
        need = need - c * W::from(t);
        left -= m.weight * t;
        steps.push(t);
    }
    steps
}

impl<W: Worth> Table<W> {
    /// A weight has the most worth of all weights up to it from now on.
    fn accumulate(&mut self) {
        for k in 1..self.worth.len() {
            self.worth[k] = self.worth[k].max(self.worth[k - 1]);
        }
    }

    fn within(&self, weight: i64) -> W {
        if weight < self.low {
            W::NEVER
        } else {
            self.worth[(weight.min(self.high()) - self.low) as usize]
        }
    }
}

/// The first best point of a problem without needs, with all lower bounds, the dual's best corner and a best value; none if no type holds the
/// prices.
pub fn first_of(p: &Problem, line: Line, value: (i128, i128)) -> Option<Point> {
    let (mut parts, window, divisor) = parts(p, line, value);
    let room = p.limit - parts.iter().map(|m| m.weight * m.start).sum::<i64>();
    let moving: Vec<&Part> = parts.iter().filter(|m| m.from < m.to).collect();
    let prices: Vec<i128> = moving.iter().map(|m| m.price as i128 * (divisor / m.units as i128)).collect();
    let steps = if divisor <= NARROW {
        first_steps(&moving, &prices.iter().map(|&c| c as i64).collect::<Vec<i64>>(), window, room)
    } else if divisor <= WIDE {
        first_steps(&moving, &prices, window, room)
    } else {
        return None;
    };
    parts.iter_mut().filter(|m| m.from < m.to).zip(steps).for_each(|(m, t)| m.start += t);
    let point: Point = parts.iter().map(|m| lowest(m.start as i128, m.units as i128)).collect();
    assert_eq!(worth(p, &point), value, "the first best point is worth the best value");
    Some(point)
}

/// What a point with at most one fraction is worth.
fn worth(p: &Problem, point: &Point) -> (i128, i128) {
    let d = point.iter().map(|x| x.1).max().unwrap_or(1);
    lowest(p.items.iter().zip(point).map(|(i, x)| i.price as i128 * x.0 * (d / x.1)).sum(), d)
}
