//! Needs by cases (paper 02, request 7): an item that needs another is left out, or both go in. A problem is split until its bounds keep every
//! need; each of its points is then in one of the cases, and these are plain problems.

use super::first::{first_of, Point};
use super::{best_value, dual, is_infeasible, least, less, Line, Reply};
use crate::problem::Problem;

/// A plain problem and the dual's best corner.
type Case = (Problem, Line);

/// The cases that have a point.
fn cases(p: &Problem) -> Vec<Problem> {
    if is_infeasible(p) {
        return vec![];
    }
    let item = |k: usize| &p.items[k];
    let Some(n) = p.needs.iter().find(|n| item(n.item).upper > Some(0) && item(n.cover).lower < Some(1)) else {
        return vec![p.clone()];
    };
    let (mut without, mut with) = (p.clone(), p.clone());
    without.items[n.item].upper = Some(0);
    with.items[n.item].lower = item(n.item).lower.max(Some(1));
    with.items[n.cover].lower = Some(1);
    [cases(&without), cases(&with)].concat()
}

/// What no point of a case exceeds.
fn bound((p, line): &Case) -> (i128, i128) {
    (line.at(p.limit), line.q as i128)
}

/// Those first that promise most. None if the value has no end: items that needs name are bounded, so that every case has a dual or none has.
fn in_order(cases: Vec<Problem>) -> Option<Vec<Case>> {
    let case = |p: Problem| least(&dual(&p.items), p.limit).map(|line| (p, line));
    let mut list = cases.into_iter().map(case).collect::<Option<Vec<Case>>>()?;
    list.sort_by(|x, y| (bound(y).0 * bound(x).1).cmp(&(bound(x).0 * bound(y).1)));
    Some(list)
}

pub fn plan(p: &Problem) -> Reply {
    let cases = cases(p);
    if cases.is_empty() {
        return Reply::Infeasible;
    }
    let Some(cases) = in_order(cases) else {
        return Reply::Unbounded;
    };
    let mut best: Option<(i128, i128)> = None;
    for case in &cases {
        if best.is_some_and(|b| !less(b, bound(case))) {
            break;
        }
        let value = best_value(&case.0, case.1);
        best = best.filter(|b| !less(*b, value)).or(Some(value));
    }
    let (n, d) = best.expect("a case");
    Reply::Best(n, d)
}

fn comes_before(x: &Point, y: &Point) -> bool {
    x.iter().zip(y).find(|(x, y)| x != y).is_some_and(|(x, y)| less(*x, *y))
}

/// The first best point; none if a lower bound is absent, if there is no best point, or if it would take too wide numbers.
pub fn first(p: &Problem) -> Option<Point> {
    let Reply::Best(n, d) = plan(p) else {
        return None;
    };
    if p.items.iter().any(|i| i.lower.is_none()) {
        return None;
    }
    let mut first: Option<Point> = None;
    for (case, line) in in_order(cases(p))?.iter().filter(|case| !less(bound(case), (n, d))) {
        if best_value(case, *line) == (n, d) {
            let x = first_of(case, *line, (n, d))?;
            first = first.filter(|y| comes_before(y, &x)).or(Some(x));
        }
    }
    first
}
