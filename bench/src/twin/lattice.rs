//! The lattice cut: what integer items can change at all.

use super::relaxation::Fill;
use super::setting::{gcd, Setting};

/// How many changes of weight the lattice cut looks at.
const TRIES: i64 = 100;

/// Stands for gap 0: beyond all worths of a search.
const FAR: i64 = 100_000_000;

/// Weights and prices of a level and those below it: whole multiples of (weight, price) and (0, gap).
#[derive(Clone, Copy, Default)]
pub struct Lattice {
    pub weight: i64,
    pub price: i64,
    pub gap: i64,
}

impl Lattice {
    /// With an item more: Euclid's algorithm on the weights, the prices carried along.
    pub fn with(self, weight: i64, price: i64) -> Lattice {
        let (mut a, mut c) = (self.weight, self.price);
        let (mut b, mut d) = (weight, price);
        while b != 0 {
            let q = a / b;
            (a, c, b, d) = (b, d, a - q * b, c - q * d);
        }
        if a < 0 {
            (a, c) = (-a, -c);
        }
        let gap = gcd(self.gap, d);
        let price = if gap > 0 { c.rem_euclid(gap) } else { c };
        Lattice { weight: a, price, gap }
    }
}

impl Setting {
    /// No point of the lattice of level d within the limit and under the relaxation is worth more than b; the heaviest weights are tried.
    pub fn off_lattice(&self, f: Fill, d: usize, b: i64) -> bool {
        let l = self.lattice[d];
        if f.at >= self.live || l.weight == 0 {
            return false;
        }
        let (rate, size) = (self.rate[f.at], self.size[f.at]);
        let gap = if l.gap == 0 { FAR } else { l.gap };
        let heaviest = f.room / l.weight;
        for n in (heaviest - TRIES + 1..=heaviest).rev() {
            let top = f.worth + (rate * l.weight * n).div_euclid(size);
            if top <= b {
                return true;
            }
            if top - (top - f.worth - l.price * n).rem_euclid(gap) > b {
                return false;
            }
        }
        false
    }
}
