//! Domination pairs, tabled before a search.

use crate::problem::{Item, Problem};

fn is_eligible(i: &Item) -> bool {
    i.integer && i.weight.signum() * i.price.signum() > 0
}

fn has_room(i: &Item, steps: i64) -> bool {
    match (i.lower, i.upper) {
        (Some(l), Some(u)) => steps <= u - l,
        _ => true,
    }
}

/// The least pair of x, worth less per weight, and y.
fn one_way(x: &Item, y: &Item) -> Option<(i64, i64)> {
    let (a, c, b, d) = (x.weight.abs(), x.price.abs(), y.weight.abs(), y.price.abs());
    let partner = |r: i64| c * r / d + 1;
    let give = (1..b).find(|&r| b * partner(r) <= a * r).unwrap_or(b);
    let take = partner(give);
    (has_room(x, give) && has_room(y, take)).then(|| (give * x.weight.signum(), -take * y.weight.signum()))
}

fn least_pair(x: &Item, y: &Item) -> Option<(i64, i64)> {
    if !is_eligible(x) || !is_eligible(y) {
        return None;
    }
    let (left, right) = (x.price.abs() * y.weight.abs(), y.price.abs() * x.weight.abs());
    match left.cmp(&right) {
        std::cmp::Ordering::Less => one_way(x, y),
        std::cmp::Ordering::Greater => one_way(y, x).map(|(r, s)| (s, r)),
        std::cmp::Ordering::Equal => None,
    }
}

pub fn pair_table(p: &Problem) -> Vec<Option<(i64, i64)>> {
    let mut table = vec![None; 256];
    for (i, x) in p.items.iter().enumerate() {
        for (j, y) in p.items.iter().enumerate() {
            if i != j && !p.is_named(i) && !p.is_named(j) {
                table[16 * i + j] = least_pair(x, y);
            }
        }
    }
    table
}
