//! The families of the speed table: 16 items, most of them integer, by what ties prices to weights. Those of the field's literature, and those
//! that are hard for a search.

use crate::draw::{with_needs, Rng};
use crate::problem::{Item, Need, Problem};

/// What an item weighs and is worth.
type Figures = (i64, i64);

/// How the sixteen items of a sheet are drawn, and the bounds of the family's rows.
pub struct Family {
    pub name: &'static str,
    pub bounds: [i64; 4],
    figures: fn(&mut Rng, usize) -> Vec<Figures>,
    /// amounts from -bound, not from 0
    both_ways: bool,
    odd_limit: bool,
    needs: bool,
}

pub const ITEMS: usize = 16;

/// How many continuous items the rows of a family have, in full and in a quick run.
pub const CONTINUOUS: [usize; 4] = [0, 1, 2, 4];
pub const FEW_CONTINUOUS: [usize; 2] = [0, 2];

const WIDE: [i64; 4] = [1, 10, 100, 10_000];
const NARROW: [i64; 4] = [3, 10, 30, 100];

const fn family(name: &'static str, figures: fn(&mut Rng, usize) -> Vec<Figures>) -> Family {
    Family { name, bounds: WIDE, figures, both_ways: false, odd_limit: false, needs: false }
}

pub const FAMILIES: [Family; 15] = [
    family("uncorrelated", |rng, _| items(rng, |rng, a| (a, rng.between(1, 1000)))),
    family("weakly correlated", |rng, _| items(rng, weakly)),
    family("strongly correlated", |rng, _| items(rng, |_, a| (a, a + SURCHARGE))),
    family("inversely correlated", |rng, _| items(rng, inversely)),
    family("subset sum", |rng, _| items(rng, |_, a| (a, a))),
    Family { odd_limit: true, ..family("even weights, odd limit", |rng, _| items(rng, even)) },
    family("similar weights", |rng, _| items(rng, |rng, _| (rng.between(900, 1000), rng.between(1, 1000)))),
    Family { bounds: NARROW, ..family("ingots and a surcharge", ingots) },
    family("multiples of two weights", multiples),
    family("similar and correlated", |rng, _| items(rng, similar)),
    family("ceilings of prices", |rng, _| items(rng, |_, a| (a, (a + CEILING - 1) / CEILING * CEILING))),
    family("prices on a circle", |rng, _| items(rng, |_, a| (a, on_circle(a)))),
    Family { both_ways: true, ..family("both signs", |rng, _| items(rng, either_sign)) },
    family("covering, minus signs", |rng, _| items(rng, |_, a| (-a, -a - SURCHARGE))),
    Family { needs: true, ..family("needs", |rng, _| items(rng, weakly)) },
];

/// Families full of ties: one price for a unit of weight of all items, continuous ones too. The bench runs them inside one process.
pub const TIED: [Family; 4] = [
    family("one price per weight", |rng, _| tied(rng, |rng| rng.between(1, 1000))),
    Family { odd_limit: true, ..family("even weights, one price", |rng, _| tied(rng, |rng| 2 * rng.between(1, 500))) },
    family("near-equal weights", |rng, _| tied(rng, |rng| rng.between(990, 1000))),
    family("multiples, one price", |rng, _| tied_multiples(rng)),
];

const SURCHARGE: i64 = 100;
const CEILING: i64 = 3;
const RADIUS: i64 = 1000;

/// Sixteen items, each from a weight of 1 to 1,000.
fn items(rng: &mut Rng, figures: fn(&mut Rng, i64) -> Figures) -> Vec<Figures> {
    (0..ITEMS)
        .map(|_| {
            let a = rng.between(1, 1000);
            figures(rng, a)
        })
        .collect()
}

fn weakly(rng: &mut Rng, a: i64) -> Figures {
    (a, rng.between(a - SURCHARGE, a + SURCHARGE).max(1))
}

fn inversely(rng: &mut Rng, _: i64) -> Figures {
    let c = rng.between(1, 900);
    (c + SURCHARGE, c)
}

fn even(rng: &mut Rng, _: i64) -> Figures {
    let a = 2 * rng.between(1, 500);
    (a, a)
}

fn similar(rng: &mut Rng, _: i64) -> Figures {
    let a = rng.between(900, 1000);
    (a, a + SURCHARGE)
}

fn either_sign(rng: &mut Rng, a: i64) -> Figures {
    if rng.chance(50) {
        (a, a + SURCHARGE)
    } else {
        (-a, -a - SURCHARGE)
    }
}

/// Two thirds of the height, at a, of a circle of twice the radius through 0.
fn on_circle(a: i64) -> i64 {
    let square = 4 * RADIUS * RADIUS - (a - 2 * RADIUS) * (a - 2 * RADIUS);
    (2.0 / 3.0 * (square as f64).sqrt()).round() as i64
}

/// Nearly equal weights, a price for a unit of weight and a fixed surcharge.
fn ingots(rng: &mut Rng, _: usize) -> Vec<Figures> {
    let (price, surcharge) = (rng.between(1, 9), rng.between(1, 500));
    (0..ITEMS)
        .map(|_| {
            let a = rng.between(930, 950);
            (a, price * a + surcharge)
        })
        .collect()
}

/// Small multiples of two items; continuous ones are worth less for their weight.
fn multiples(rng: &mut Rng, continuous: usize) -> Vec<Figures> {
    let mut base = || {
        let a = rng.between(50, 100);
        (a, a + SURCHARGE / 10)
    };
    let bases = [base(), base()];
    (0..ITEMS)
        .map(|k| {
            let ((a, c), m) = (rng.pick(&bases), rng.between(1, 10));
            let loose = rng.between(1, 1000);
            if k + continuous < ITEMS {
                (m * a, m * c)
            } else {
                (loose, loose)
            }
        })
        .collect()
}

/// A price for a unit of weight, and weights.
fn tied(rng: &mut Rng, weight: impl Fn(&mut Rng) -> i64) -> Vec<Figures> {
    let price = rng.between(1, 9);
    (0..ITEMS)
        .map(|_| {
            let a = weight(rng);
            (a, price * a)
        })
        .collect()
}

/// Small multiples of two weights.
fn tied_multiples(rng: &mut Rng) -> Vec<Figures> {
    let bases = [rng.between(50, 100), rng.between(50, 100)];
    tied(rng, |rng| rng.pick(&bases) * rng.between(1, 10))
}

impl Family {
    /// The last items are continuous; the limit is halfway between the least and the most that all weigh, at most 100,000,000.
    pub fn draw(&self, rng: &mut Rng, bound: i64, continuous: usize) -> Problem {
        let lower = if self.both_ways { -bound } else { 0 };
        let item = |(k, (weight, price)): (usize, Figures)| Item {
            integer: k + continuous < ITEMS,
            weight,
            price,
            lower: Some(lower),
            upper: Some(bound),
        };
        let items: Vec<Item> = (self.figures)(rng, continuous).into_iter().enumerate().map(item).collect();
        let half = items.iter().map(|i| i.weight * (lower + bound)).sum::<i64>() / 2;
        let limit = if self.odd_limit { (half | 1).min(99_999_999) } else { half.clamp(-100_000_000, 100_000_000) };
        let p = Problem::plain(limit, items);
        if self.needs {
            with_needs(rng, p)
        } else {
            p
        }
    }
}

/// A sheet of one item, of weight and price 1.
pub fn unit_sheet() -> Problem {
    Problem::plain(7, vec![Item { integer: true, weight: 1, price: 1, lower: Some(0), upper: Some(9) }])
}

/// Sixteen integer items, weakly correlated, with so many needs drawn among them.
pub fn needing(rng: &mut Rng, bound: i64, count: usize) -> Problem {
    let mut p = FAMILIES[1].draw(rng, bound, 0);
    while p.needs.len() < count {
        let need = Need { item: rng.between(0, 15) as usize, cover: rng.between(0, 15) as usize };
        if need.item != need.cover && !p.needs.contains(&need) {
            p.needs.push(need);
        }
    }
    p.needs.sort();
    p
}
