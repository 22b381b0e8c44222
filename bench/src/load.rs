//! The test load (paper 02, requests 8, 9 and 11), drawn here from the paper alone. The sheets that the proved program writes are held to it.

use crate::problem::{Item, Problem};

/// What the proved program writes for seed 1.
const STORED: &[u8] = include_bytes!("../../crates/load/stdout");

struct Load(u64);

impl Load {
    fn draw(&mut self) -> u64 {
        self.0 = self.0.wrapping_add(0x9E37_79B9_7F4A_7C15);
        let mut t = self.0;
        t ^= t << 13;
        t ^= t >> 7;
        t ^ t << 17
    }

    fn between(&mut self, low: i64, high: i64) -> i64 {
        low + (self.draw() % (high - low + 1) as u64) as i64
    }

    fn bound(&mut self) -> Option<i64> {
        (self.between(0, 3) != 3).then(|| self.between(-10_000, 10_000))
    }

    /// A price drawn as 0 beside weight 0 becomes 1.
    fn item(&mut self) -> Item {
        let integer = self.between(0, 1) == 0;
        let (weight, price) = (self.between(-1000, 1000), self.between(-10_000, 10_000));
        let item = Item { integer, weight, price, lower: None, upper: None };
        Item { price: if item.is_blank() { 1 } else { price }, ..item }
    }

    fn problem(&mut self) -> Problem {
        let limit = self.between(-100_000_000, 100_000_000);
        let n = self.between(1, 16);
        let mut items: Vec<Item> = (0..n).map(|_| self.item()).collect();
        items.iter_mut().for_each(|i| i.lower = self.bound());
        items.iter_mut().for_each(|i| i.upper = self.bound());
        Problem::plain(limit, items)
    }
}

/// The thousand problems for seed 1.
pub fn problems() -> Vec<Problem> {
    let mut load = Load(1);
    (0..1000).map(|_| load.problem()).collect()
}

/// Whether the stored sheets are those of these problems.
pub fn is_stored(problems: &[Problem]) -> bool {
    problems.iter().flat_map(|p| p.sheet()).eq(STORED.iter().copied())
}
