//! Drawn sheets of mixed kinds, for the comparison. Every draw comes from one seed, by splitmix64.

use crate::families::FAMILIES;
use crate::problem::{Item, Need, Problem, Range, Ranged};

pub struct Rng(pub u64);

impl Rng {
    pub fn next(&mut self) -> u64 {
        self.0 = self.0.wrapping_add(0x9E37_79B9_7F4A_7C15);
        let mut z = self.0;
        z = (z ^ (z >> 30)).wrapping_mul(0xBF58_476D_1CE4_E5B9);
        z = (z ^ (z >> 27)).wrapping_mul(0x94D0_49BB_1331_11EB);
        z ^ (z >> 31)
    }

    /// A number of lo ..= hi.
    pub fn between(&mut self, lo: i64, hi: i64) -> i64 {
        lo + (self.next() % (hi - lo + 1) as u64) as i64
    }

    pub fn chance(&mut self, percent: i64) -> bool {
        self.between(1, 100) <= percent
    }

    pub fn pick<T: Copy>(&mut self, list: &[T]) -> T {
        list[self.between(0, list.len() as i64 - 1) as usize]
    }
}

/// A kind of sheet, and how many of a thousand are of it.
pub type Kind = (&'static str, i64, fn(&mut Rng) -> Vec<u8>);

pub const KINDS: [Kind; 13] = [
    ("small", 250, |rng| sheet_of(rng, small)),
    ("never below 0", 100, |rng| sheet_of(rng, positive)),
    ("equal ratios", 100, |rng| sheet_of(rng, equal_ratios)),
    ("absent bounds", 150, |rng| sheet_of(rng, open)),
    ("wide", 60, |rng| sheet_of(rng, |rng| wide(rng, 100))),
    ("widest", 5, |rng| sheet_of(rng, |rng| wide(rng, 1000))),
    ("ends of the ranges", 10, |rng| sheet_of(rng, at_the_ends)),
    ("far out", 5, |rng| sheet_of(rng, far_out)),
    ("families", 30, |rng| sheet_of(rng, some_family)),
    ("needs", 150, |rng| sheet_of(rng, needy)),
    ("wrong ranges", 100, |rng| wrong_ranges(rng).sheet()),
    ("damaged", 300, damaged),
    ("long", 40, long),
];

/// How many of the kinds, from the first on, have nothing but good sheets.
pub const GOOD: usize = KINDS.len() - 3;

/// The sheet of a drawn problem, some of its weights made ranges.
pub fn sheet_of(rng: &mut Rng, draw: fn(&mut Rng) -> Problem) -> Vec<u8> {
    let p = draw(rng);
    with_ranges(rng, &p).sheet()
}

/// Which of the kinds is drawn next.
pub fn kind(rng: &mut Rng, kinds: &[Kind]) -> usize {
    let mut left = rng.between(0, kinds.iter().map(|k| k.1).sum::<i64>() - 1);
    kinds
        .iter()
        .position(|k| {
            left -= k.1;
            left < 0
        })
        .unwrap()
}

/// A price of 0 beside a weight of 0 becomes 1.
fn item(rng: &mut Rng, weight: i64, price: i64, lower: i64, upper: i64, absent: i64) -> Item {
    Item {
        integer: rng.chance(67),
        weight,
        price: if weight == 0 && price == 0 { 1 } else { price },
        lower: (!rng.chance(absent)).then_some(lower),
        upper: (!rng.chance(absent)).then_some(upper),
    }
}

/// A range with this weight at one of its ends.
fn range(rng: &mut Rng, a: i64) -> Range {
    let wide = rng.between(1, 9);
    let b = rng.pick(&[a - 1, a + 1, a - wide, a + wide, 0, 2 * a, -a]).clamp(-1000, 1000);
    Range::over(a, b)
}

/// Half of the problems have ranges, of items whose amounts are never below 0. Blank items stay so.
fn ranged_by(rng: &mut Rng, p: &Problem, range: fn(&mut Rng, i64) -> Range) -> Ranged {
    let share = rng.pick(&[0, 0, 30, 80]);
    p.weighed(|i| match i.weight {
        a if i.is_never_below_nought() && !i.is_blank() && rng.chance(share) => range(rng, a),
        a => Range::exact(a),
    })
}

pub fn with_ranges(rng: &mut Rng, p: &Problem) -> Ranged {
    ranged_by(rng, p, range)
}

/// Ranges turned round, ranges of items that may go below 0, and blank items among them.
fn wrong_ranges(rng: &mut Rng) -> Ranged {
    let p = rng.pick::<fn(&mut Rng) -> Problem>(&[small, positive, needy])(rng);
    let mut p = with_ranges(rng, &p);
    for _ in 0..rng.between(1, 3) {
        let k = rng.between(0, p.items.len() as i64 - 1) as usize;
        let Range { low, high } = p.items[k].weight;
        match rng.between(0, 4) {
            0 => p.items[k].weight = Range { low: high, high: low },
            1 => p.items[k].weight = Range { low, high: (low - 1).max(-1000) },
            2 => (p.items[k].weight, p.items[k].price) = (Range::exact(0), 0),
            _ => {
                p.items[k].lower = rng.pick(&[None, Some(-1), Some(0)]);
                p.items[k].weight = range(rng, low);
            }
        }
    }
    p
}

/// How many bounds of a hundred cross in a small problem.
const CROSSING: i64 = 5;

pub fn small(rng: &mut Rng) -> Problem {
    let (a, c, b) = rng.pick(&[(2, 3, 2), (5, 7, 4), (10, 20, 6), (30, 50, 20)]);
    let absent = rng.pick(&[0, 0, 20]);
    let items = (0..rng.between(1, 6))
        .map(|_| {
            let lower = rng.between(-b, b);
            let upper = if rng.chance(CROSSING) { lower - 1 } else { lower + rng.between(0, 2 * b) };
            let (weight, price) = (rng.between(-a, a), rng.between(-c, c));
            item(rng, weight, price, lower, upper, absent)
        })
        .collect();
    Problem::plain(rng.between(-a * b, 3 * a * b), items)
}

/// A small problem whose amounts are never below 0.
fn positive(rng: &mut Rng) -> Problem {
    let mut p = small(rng);
    for i in &mut p.items {
        let lower = rng.pick(&[0, 0, 0, 1, 2]);
        *i = Item { lower: Some(lower), upper: i.upper.map(|u| lower + u.abs()), ..*i };
    }
    p
}

/// Those of continuous items in tiny problems: they divide 12.
const DIVIDING: [i64; 11] = [-6, -4, -3, -2, -1, 0, 1, 2, 3, 4, 6];

/// For plain enumeration.
pub fn tiny(rng: &mut Rng) -> Ranged {
    let p = tiny_plain(rng);
    ranged_by(rng, &p, |rng, a| Range::over(a, rng.pick(&DIVIDING)))
}

/// Small, with every lower bound; ratios are often equal.
fn tiny_plain(rng: &mut Rng) -> Problem {
    let (style, soft, open) = (rng.between(0, 3), rng.pick(&[0, 20, 50]), rng.pick(&[0, 0, 20]));
    let mut continuous = 0;
    let items: Vec<Item> = (0..rng.between(1, 4))
        .map(|_| {
            let is_soft = continuous < 2 && rng.chance(soft);
            continuous += is_soft as i64;
            let weight = rng.pick(&DIVIDING) + if is_soft { 0 } else { rng.pick(&[0, 0, 1]) };
            let price = match style {
                0 => weight,
                1 => rng.between(-7, 7),
                2 => 2 * weight + weight.signum(),
                _ => weight * rng.between(0, 1) + rng.between(0, 1) * weight.signum(),
            };
            let lower = rng.between(-2, 2);
            let upper = lower + rng.between(0, if is_soft { 3 } else { 6 });
            Item { integer: !is_soft, weight, price, lower: Some(lower), upper: (!rng.chance(open)).then_some(upper) }
        })
        .collect();
    let (least, most) = weights(&items);
    let mut p = Problem::plain(rng.between(least.clamp(-40, 40) - 3, most.clamp(-40, 40) + 3), items);
    if rng.chance(40) {
        p = with_needs(rng, p);
    }
    if rng.chance(20) {
        p = with_blanks(rng, p);
    }
    p
}

/// Up to sixteen needs among the items that may be named.
pub fn with_needs(rng: &mut Rng, mut p: Problem) -> Problem {
    let named: Vec<usize> = (0..p.items.len()).filter(|&k| p.items[k].may_be_named()).collect();
    for _ in 0..if named.is_empty() { 0 } else { rng.pick(&[1, 1, 2, 3, 5, 16]) } {
        let need = Need { item: rng.pick(&named), cover: rng.pick(&named) };
        if need.item != need.cover && !p.needs.contains(&need) {
            p.needs.push(need);
        }
    }
    p.needs.sort();
    p
}

pub fn needy(rng: &mut Rng) -> Problem {
    let mut p = if rng.chance(75) { small(rng) } else { wide(rng, 100) };
    for i in &mut p.items {
        let lower = rng.pick(&[0, 0, 0, 1]);
        if rng.chance(60) {
            *i = Item { integer: true, lower: Some(lower), upper: Some(lower + rng.between(0, 9)), ..*i };
        }
    }
    with_needs(rng, p)
}

fn equal_ratios(rng: &mut Rng) -> Problem {
    let ratio = rng.between(-1, 3);
    let items = (0..rng.between(2, 8))
        .map(|_| {
            let weight = rng.pick(&[-6, -4, -3, -2, -1, 1, 2, 3, 4, 6, 9, 10, 15]);
            let lower = rng.between(-3, 3);
            let upper = lower + rng.between(0, 5);
            let price = weight * ratio + rng.pick(&[0, 0, 0, 0, 1]);
            item(rng, weight, price, lower, upper, 20)
        })
        .collect();
    Problem::plain(rng.between(-30, 30), items)
}

fn open(rng: &mut Rng) -> Problem {
    let mut p = small(rng);
    for i in &mut p.items {
        if rng.chance(50) {
            i.upper = None;
        }
        if rng.chance(40) {
            i.lower = None;
        }
    }
    p.limit = rng.pick(&[p.limit, p.limit, 0, -100_000_000, 100_000_000, -12_345_678]);
    p
}

/// What the items weigh at least and at most, absent bounds taken at the ends of their range.
fn weights(items: &[Item]) -> (i64, i64) {
    let ends = |i: &Item| {
        let (l, u) = (i.weight * i.lower.unwrap_or(-10_000), i.weight * i.upper.unwrap_or(10_000));
        (l.min(u), l.max(u))
    };
    items.iter().map(ends).fold((0, 0), |sum, e| (sum.0 + e.0, sum.1 + e.1))
}

fn wide(rng: &mut Rng, heaviest: i64) -> Problem {
    let absent = rng.pick(&[0, 0, 10, 30]);
    let near = rng.chance(30);
    let items: Vec<Item> = (0..rng.pick(&[1, 2, 3, 5, 8, 12, 16, 16]))
        .map(|_| {
            let weight = rng.between(-heaviest, heaviest);
            let price = if near { 9 * weight + rng.between(-40, 40) } else { rng.between(-10_000, 10_000) };
            let lower = rng.pick(&[0, -10_000, -50, -7, 3]);
            let upper = lower + rng.pick(&[1, 10, 100, 10_000]);
            item(rng, weight, price, lower, upper.min(10_000), absent)
        })
        .collect();
    let (least, most) = weights(&items);
    let limit = match rng.between(0, 5) {
        0 => least - 1,
        1 => least,
        2 => most,
        _ => rng.between(least, most),
    };
    Problem::plain(limit.clamp(-100_000_000, 100_000_000), items)
}

fn at_the_ends(rng: &mut Rng) -> Problem {
    let mut end = |m: i64| rng.pick(&[-m, m, -m, m, 0, 1, -1, m - 1, 1 - m]);
    let limit = end(100_000_000);
    let figures: Vec<[i64; 4]> = (0..16).map(|_| [end(1000), end(10_000), end(10_000), end(10_000)]).collect();
    let count = rng.pick(&[1, 2, 3, 16]);
    let items = figures[..count].iter().map(|f| item(rng, f[0], f[1], f[2].min(f[3]), f[2].max(f[3]), 25)).collect();
    Problem::plain(limit, items)
}

/// Amounts driven far out: free items against heavy ones.
fn far_out(rng: &mut Rng) -> Problem {
    let items = (0..rng.pick(&[2, 4, 16]))
        .map(|k| {
            let weight = if k < 2 { rng.pick(&[1, -1, 2, 3, -3, 7]) } else { rng.pick(&[300, -300, 299, -299, 297]) };
            let price = weight * rng.pick(&[1, 2, 3, 9]);
            let (lower, upper) = (rng.pick(&[-10_000, 0]), rng.pick(&[10_000, 0]));
            item(rng, weight, price, lower, upper, if k < 2 { 60 } else { 10 })
        })
        .collect();
    Problem::plain(rng.pick(&[100_000_000, -100_000_000, 30_000_000]), items)
}

fn some_family(rng: &mut Rng) -> Problem {
    let family = &FAMILIES[rng.between(0, FAMILIES.len() as i64 - 1) as usize];
    let (bound, continuous) = (rng.pick(&[1, 2, 5, 10, 100, 10_000]), rng.pick(&[0, 0, 1, 2]));
    let mut p = family.draw(rng, bound, continuous);
    let count = rng.pick(&[4, 8, 16]);
    p.items.truncate(count);
    p.needs.retain(|n| n.item < count && n.cover < count);
    let (least, most) = weights(&p.items);
    p.limit = ((least + most) / 2).clamp(-100_000_000, 100_000_000);
    p
}

const BAD_FIELDS: [&[u8]; 39] = [
    b"", b"00", b"01", b"-0", b"-01", b"+1", b"-", b"--1", b"1-", b"1.0", b"1e3", b"0x1", b"1,0", b"none", b"a", b"W", b"L",
    b"w", b"WL", b"X", b"\t1", b"1\t", b"1\r", b"\0", b"\xff", b"/", b":", b"1/2", b"007", b"limit", b"items", b"item", b"Limit",
    b"lower", b"upper", b"uppers", b"nonee", b"None", b"needs",
];

const EDGES: [&[u8]; 28] = [
    b"0",
    b"1",
    b"-1",
    b"2",
    b"3",
    b"15",
    b"16",
    b"17",
    b"-16",
    b"999",
    b"1000",
    b"1001",
    b"-1000",
    b"-1001",
    b"9999",
    b"10000",
    b"10001",
    b"-10000",
    b"-10001",
    b"100000000",
    b"100000001",
    b"-100000000",
    b"-100000001",
    b"4294967297",
    b"18446744073709551617",
    b"-9223372036854775809",
    b"9223372036854775807",
    b"340282366920938463463374607431768211457",
];

/// Some items without weight and price: such a sheet is refused, but the converter takes it.
pub fn with_blanks(rng: &mut Rng, mut p: Problem) -> Problem {
    p.items.iter_mut().filter(|_| rng.chance(25)).for_each(|i| (i.weight, i.price) = (0, 0));
    p
}

/// A sheet with one thing changed; it may still be one.
fn damaged(rng: &mut Rng) -> Vec<u8> {
    let mut p = rng.pick::<fn(&mut Rng) -> Problem>(&[small, small, |rng| wide(rng, 30), needy])(rng);
    if rng.chance(5) {
        p = with_blanks(rng, p);
    }
    let sheet = with_ranges(rng, &p).sheet();
    damaged_in_one(rng, sheet)
}

pub fn damaged_in_one(rng: &mut Rng, sheet: Vec<u8>) -> Vec<u8> {
    let mut lines: Vec<Vec<Vec<u8>>> =
        sheet[..sheet.len() - 1].split(|&b| b == b'\n').map(|l| l.split(|&b| b == b' ').map(<[u8]>::to_vec).collect()).collect();
    let k = rng.between(0, lines.len() as i64 - 1) as usize;
    let f = rng.between(0, lines[k].len() as i64 - 1) as usize;
    match rng.between(0, 13) {
        0 | 1 => lines[k][f] = rng.pick(&BAD_FIELDS).to_vec(),
        2 | 3 => *lines[k].last_mut().unwrap() = rng.pick(&EDGES).to_vec(),
        4 => lines[k][f] = rng.pick(&EDGES).to_vec(),
        5 => drop(lines[k].remove(f)),
        6 => lines[k].insert(f, rng.pick(&BAD_FIELDS).to_vec()),
        7 => drop(lines.remove(k)),
        8 => lines.insert(k, lines[k].clone()),
        9 => lines.insert(k, vec![vec![]]),
        10 => {
            let j = rng.between(0, lines.len() as i64 - 1) as usize;
            lines.swap(j, k);
        }
        _ => return damaged_bytes(rng, sheet),
    }
    [lines.iter().map(|l| l.join(&b' ')).collect::<Vec<_>>().join(&b'\n'), vec![b'\n']].concat()
}

fn damaged_bytes(rng: &mut Rng, mut sheet: Vec<u8>) -> Vec<u8> {
    let at = rng.between(0, sheet.len() as i64 - 1) as usize;
    let byte = if rng.chance(50) { rng.pick(b"\n 0123456789-WL") } else { rng.next() as u8 };
    match rng.between(0, 4) {
        0 => sheet.truncate(at),
        1 => sheet.push(byte),
        2 => sheet[at] = byte,
        3 => sheet.insert(at, byte),
        _ => drop(sheet.remove(at)),
    }
    sheet
}

/// Sheets around the greatest length: a figure of thousands of digits, lines too many, or noise.
pub fn long(rng: &mut Rng) -> Vec<u8> {
    let mut sheet = small(rng).sheet();
    let length = rng.pick(&[4094, 4095, 4096, 4097, 4098, 4500, 9000]);
    match rng.between(0, 2) {
        0 => {
            let at = sheet.iter().rposition(|b| matches!(b, b'1'..=b'9')).unwrap();
            let digits = vec![rng.pick(b"0123456789"); rng.between(1, 4200) as usize];
            sheet.splice(at + 1..at + 1, digits);
        }
        1 => {
            let more = rng.pick(&[b"1 1\n".as_slice(), b"\n", b"0"]);
            while sheet.len() < length {
                sheet.extend(more);
            }
        }
        _ => sheet = (0..length).map(|_| rng.next() as u8).collect(),
    }
    sheet
}
