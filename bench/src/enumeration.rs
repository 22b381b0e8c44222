//! Plain enumeration of small problems: every point on a grid, in order.

use crate::problem::{Need, Range, Ranged, Sense};

/// Continuous amounts are tried in steps of 1 / GRID. A best point has one there if the weights of continuous items divide it.
pub const GRID: i64 = 12;

/// A point over GRID, and GRID times its value.
#[derive(Clone, Debug)]
pub struct Found {
    pub amounts: Vec<i64>,
    pub value: i64,
}

/// The first of the best points on the grid in a sense; an absent upper bound is taken `beyond` the lower one, which is there.
pub fn first_best(p: &Ranged, sense: Sense, beyond: i64) -> Option<Found> {
    let mut search = Enumeration { p, sense, beyond, amounts: vec![], best: None };
    search.descend(p.limit * GRID, 0);
    search.best
}

struct Enumeration<'a> {
    p: &'a Ranged,
    sense: Sense,
    beyond: i64,
    amounts: Vec<i64>,
    best: Option<Found>,
}

/// What an amount x comes to: for every weight of the range it is at most this, for some at least this.
fn weight(r: Range, sense: Sense, x: i64) -> i64 {
    match sense {
        Sense::Sure => (r.low * x).max(r.high * x),
        Sense::Possible => (r.low * x).min(r.high * x),
    }
}

impl Enumeration<'_> {
    /// All amounts of the items that are left, the least of each first. Only more than the best so far counts.
    fn descend(&mut self, room: i64, value: i64) {
        let Some(i) = self.p.items.get(self.amounts.len()) else {
            let breaks = |n: &Need| self.amounts[n.item] > 0 && self.amounts[n.cover] < GRID;
            let is_better = self.best.as_ref().is_none_or(|b| b.value < value);
            if room >= 0 && is_better && !self.p.needs.iter().any(breaks) {
                self.best = Some(Found { amounts: self.amounts.clone(), value });
            }
            return;
        };
        let lower = i.lower.expect("a lower bound");
        let upper = i.upper.unwrap_or(lower + self.beyond);
        let step = if i.integer { GRID } else { 1 };
        for x in (lower * GRID..=upper * GRID).step_by(step as usize) {
            self.amounts.push(x);
            self.descend(room - weight(i.weight, self.sense, x), value + i.price * x);
            self.amounts.pop();
        }
    }
}
