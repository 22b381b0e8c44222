//! Needs by cases, above problems without them (paper 02, request 7). A need that the plain best point breaks is kept in two ways: none of its item,
//! or one at least of its cover.

use super::first::Point;
use super::relaxation::{less, Mixed};
use super::{plain, Answer, Rules, Work};
use crate::problem::{Need, Problem};

impl Point {
    fn breaks(&self, n: &Need) -> bool {
        self.amounts[n.item] > 0 && self.amounts[n.cover] < self.divisor
    }
}

struct Cases<'a> {
    rules: Rules,
    work: &'a mut Work,
    best: Option<(Mixed, Point)>,
}

impl Cases<'_> {
    fn is_better(&self, v: Mixed, x: &Point) -> bool {
        self.best.as_ref().is_none_or(|(w, y)| less(*w, v) || (self.rules.first && !less(v, *w) && x.comes_before(y)))
    }

    /// One case more.
    fn look(&mut self, p: &Problem) {
        let answer = plain(p, self.rules, self.work);
        self.take(p, answer);
    }

    /// The best point of a problem whose plain answer is this, if it is better than the one so far. No point of it is better than its plain best point.
    fn take(&mut self, p: &Problem, answer: Answer) {
        let Answer::Best(v, x) = answer else {
            return;
        };
        if !self.is_better(v, &x) {
            return;
        }
        match p.needs.iter().find(|n| x.breaks(n)) {
            Some(n) => cases(p, n).iter().for_each(|q| self.look(q)),
            None => self.best = Some((v, x)),
        }
    }
}

/// Without the item, and with its cover.
fn cases(p: &Problem, n: &Need) -> [Problem; 2] {
    let (mut without, mut with) = (p.clone(), p.clone());
    let (upper, lower) = (&mut without.items[n.item].upper, &mut with.items[n.cover].lower);
    *upper = upper.map(|u| u.min(0));
    *lower = lower.map(|l| l.max(1));
    [without, with]
}

/// A ray moves no item that a need names: it can be repeated from every point. Where all prices are 0 each point is best.
pub fn by_cases(p: &Problem, rules: Rules, work: &mut Work) -> Answer {
    let answer = plain(p, rules, work);
    let mut cases = Cases { rules, work, best: None };
    if let Answer::Unbounded(x, steps) = answer {
        if !p.needs.iter().any(|n| x.breaks(n)) {
            return Answer::Unbounded(x, steps);
        }
        let mut q = p.clone();
        q.items.iter_mut().for_each(|i| i.price = 0);
        cases.look(&q);
        return cases.best.map_or(Answer::Infeasible, |(_, x)| Answer::Unbounded(x, steps));
    }
    cases.take(p, answer);
    cases.best.map_or(Answer::Infeasible, |(v, x)| Answer::Best(v, x))
}
