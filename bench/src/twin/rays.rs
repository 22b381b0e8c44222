//! Rays: whole steps on one or two items that gain for ever.

use crate::problem::Problem;

/// Item u / 2, upwards if u is even: what a unit weighs and is worth, if no bound stops it.
fn direction(p: &Problem, u: usize) -> Option<(i64, i64)> {
    let i = &p.items[u / 2];
    if u % 2 == 0 {
        i.upper.is_none().then_some((i.weight, i.price))
    } else {
        i.lower.is_none().then_some((-i.weight, -i.price))
    }
}

pub fn ray(p: &Problem) -> Option<[i64; 16]> {
    let sign = |u: usize| if u % 2 == 0 { 1 } else { -1 };
    for u in 0..2 * p.items.len() {
        let Some((a, c)) = direction(p, u).filter(|&(_, c)| c > 0) else {
            continue;
        };
        let mut steps = [0; 16];
        if a <= 0 {
            steps[u / 2] = sign(u);
            return Some(steps);
        }
        for w in 0..2 * p.items.len() {
            let Some((b, d)) = direction(p, w).filter(|&(b, _)| b < 0) else {
                continue;
            };
            if c * -b + d * a > 0 {
                steps[u / 2] = sign(u) * -b;
                steps[w / 2] = sign(w) * a;
                return Some(steps);
            }
        }
    }
    None
}
