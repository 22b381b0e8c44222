//! Good sheets damaged in one place, in every place: our verdict held to the independent reader's.

use crate::draw::{Rng, GOOD, KINDS};
use crate::independent;
use crate::ours;
use std::collections::BTreeMap;

const SHEETS: usize = 12;

/// So many differences are shown.
const SHOWN: u64 = 5;

/// A way to damage a sheet, and all that it makes of one.
type Way = (&'static str, fn(&[u8]) -> Vec<Vec<u8>>);

/// Each of n places with each byte.
fn places(n: usize) -> impl Iterator<Item = (usize, u8)> {
    (0..n).flat_map(|k| (0..=u8::MAX).map(move |b| (k, b)))
}

const WAYS: [Way; 4] = [
    ("a byte deleted", |s| (0..s.len()).map(|k| [&s[..k], &s[k + 1..]].concat()).collect()),
    ("a byte inserted", |s| places(s.len() + 1).map(|(k, b)| [&s[..k], &[b], &s[k..]].concat()).collect()),
    ("a byte replaced", |s| places(s.len()).map(|(k, b)| [&s[..k], &[b], &s[k + 1..]].concat()).collect()),
    ("cut short", |s| (0..s.len()).map(|k| s[..k].to_vec()).collect()),
];

/// Number and line of a refusal, zeros if the sheet is accepted; as the independent reader has it.
fn verdict(sheet: &[u8]) -> (u64, u64) {
    independent::read(sheet).map_or_else(|f| (f.number, f.line), |_| (0, 0))
}

/// How often each number was expected, and how often ours differs.
#[derive(Default)]
struct Counts {
    told: BTreeMap<u64, u64>,
    differ: u64,
}

fn compare(sheet: &[u8], counts: &mut Counts) {
    let (expected, ours) = (verdict(sheet), ours::read(sheet));
    *counts.told.entry(expected.0).or_default() += 1;
    if ours != expected {
        counts.differ += 1;
        if counts.differ <= SHOWN {
            println!("number and line {expected:?} expected, ours {ours:?}, for\n{:?}", String::from_utf8_lossy(sheet));
        }
    }
}

fn show(name: &str, counts: &Counts) {
    let all: u64 = counts.told.values().sum();
    let part = |(n, count): (&u64, &u64)| if *n == 0 { format!("{count} accepted") } else { format!("{count} refused {n}") };
    let parts: Vec<String> = counts.told.iter().map(part).collect();
    println!("{name:16} {all:>7} sheets: {}; {} differ", parts.join(", "), counts.differ);
}

/// Whether no verdict differs.
pub fn damage(seed: u64) -> bool {
    let mut rng = Rng(seed);
    let sheets: Vec<Vec<u8>> = (0..SHEETS).map(|k| KINDS[k % GOOD].2(&mut rng)).collect();
    println!("Damage: {SHEETS} sheets, seed {seed}, each damaged in every place, by every byte");
    let mut good = true;
    for (name, damaged) in WAYS {
        let mut counts = Counts::default();
        sheets.iter().flat_map(|s| damaged(s)).for_each(|s| compare(&s, &mut counts));
        show(name, &counts);
        good &= counts.differ == 0;
    }
    good
}
