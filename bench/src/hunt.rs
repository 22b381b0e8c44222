//! Hill climbing for the sheet that takes most work, in steps and cells of the twin: a sheet near the hard ones is drawn, then changed a little
//! again and again, and every change that does not lessen the work is kept.

use crate::draw::Rng;
use crate::ours;
use crate::problem::{Item, Problem};
use crate::progress::Progress;
use crate::stats::timed;
use crate::twin::{self, Rules};

const ITEMS: i64 = 16;

/// A climb ends when so many changes in a row gained nothing, or after so many sheets.
const STALLED: u64 = 300;
const LONGEST: u64 = 6000;

/// A step of the search takes about as long as so many cells.
const STEP: u64 = 500;

/// Upper bounds that climbs are fond of: near powers of two all digits count.
const UPPERS: [i64; 11] = [5, 8, 15, 30, 60, 100, 300, 1000, 4095, 8191, 10_000];

/// A sheet on its way, and the price for a unit of weight that its items are near.
#[derive(Clone)]
struct Climber {
    problem: Problem,
    ratio: i64,
}

fn start(rng: &mut Rng) -> Climber {
    let ratio = rng.between(1, 9);
    let surcharge = if rng.chance(67) { rng.between(-20, 300) } else { 0 };
    let noise = rng.pick(&[0, 0, 0, 3]);
    let heaviest = if rng.chance(25) { rng.between(100, 1000) } else { rng.between(900, 1000) };
    let (continuous, open) = (rng.between(0, 60), rng.between(0, 60));
    let items: Vec<Item> = (0..ITEMS)
        .map(|_| {
            let weight = rng.between((heaviest - 60).max(1), heaviest);
            let price = (ratio * weight + surcharge + rng.between(-noise, noise)).clamp(1, 10_000);
            let sign = if rng.chance(20) { -1 } else { 1 };
            let integer = !rng.chance(continuous);
            let upper = (!rng.chance(open)).then_some(rng.pick(&UPPERS[3..]));
            Item { integer, weight: sign * weight, price: sign * price, lower: Some(0), upper }
        })
        .collect();
    let all: i64 = items.iter().map(|i| i.weight * i.upper.unwrap_or(10_000)).sum();
    Climber { problem: in_range(Problem::plain(all * rng.between(5, 95) / 100, items)), ratio }
}

fn in_range(mut p: Problem) -> Problem {
    p.limit = p.limit.clamp(-100_000_000, 100_000_000);
    for i in &mut p.items {
        i.price = i.price.clamp(-10_000, 10_000);
        i.upper = i.upper.map(|u| u.clamp(0, 10_000));
    }
    p
}

/// One change of an item or of the limit.
fn change(rng: &mut Rng, c: &mut Climber) {
    let other = c.problem.items[rng.between(0, ITEMS - 1) as usize];
    let i = &mut c.problem.items[rng.between(0, ITEMS - 1) as usize];
    match rng.between(0, 9) {
        0 => {
            let surplus = i.price - c.ratio * i.weight;
            i.weight = i.weight.signum() * (i.weight.abs() + rng.between(-5, 5)).clamp(1, 1000);
            i.price = c.ratio * i.weight + surplus;
        }
        1 => i.price += rng.between(-3, 3),
        2 => i.upper = Some(rng.pick(&UPPERS) + rng.between(-3, 3)),
        3 => i.upper = if i.upper.is_some() { None } else { Some(rng.pick(&UPPERS)) },
        4 => i.integer = !i.integer,
        5 => (i.weight, i.price) = (-i.weight, -i.price),
        6 => c.problem.limit += rng.between(-2000, 2000),
        7 => c.problem.limit = c.problem.limit * rng.between(80, 120) / 100,
        8 => *i = other,
        _ => i.price = c.ratio * i.weight + rng.between(-2, 2) * rng.between(0, 1),
    }
}

fn changed(rng: &mut Rng, c: &Climber) -> Climber {
    let mut c = c.clone();
    for _ in 0..rng.between(1, 3) {
        change(rng, &mut c);
    }
    Climber { problem: in_range(c.problem), ..c }
}

fn work(p: &Problem, rules: Rules) -> u64 {
    let o = twin::plan(p, rules);
    o.cells + STEP * o.steps
}

/// The end of one climb.
fn climb(rng: &mut Rng, rules: Rules, told: &mut dyn FnMut(u64, u64)) -> (Problem, u64) {
    let mut c = start(rng);
    let mut most = work(&c.problem, rules);
    let (mut stalled, mut tried) = (0, 1);
    while stalled < STALLED && tried < LONGEST {
        let next = changed(rng, &c);
        let w = work(&next.problem, rules);
        tried += 1;
        stalled = if w > most { 0 } else { stalled + 1 };
        if w >= most {
            (c, most) = (next, w);
        }
        told(tried, most);
    }
    (c.problem, most)
}

fn show(p: &Problem, rules: Rules) {
    let (o, twin_time) = timed(|| twin::plan(p, rules));
    println!("most: {} steps, {} cells; the twin takes {:.1} ms", o.steps, o.cells, twin_time * 1e3);
    if ours::RULES == rules {
        let sheet = p.sheet();
        let (_, our_time) = timed(|| ours::plan(&sheet));
        println!("ours takes {:.1} ms, {:.2} times the twin's", our_time * 1e3, our_time / twin_time);
    }
    print!("{}", String::from_utf8_lossy(&p.sheet()));
}

/// The hardest sheet of some climbs is shown.
pub fn hunt(seed: u64, rounds: u64, rules: Rules) -> bool {
    println!("Hunt: {rounds} climbs, seed {seed}; work is counted in cells, a step as {STEP}");
    let mut rng = Rng(seed);
    let mut progress = Progress::new();
    let mut hardest: Option<(Problem, u64)> = None;
    for round in 1..=rounds {
        let before = hardest.as_ref().map_or(0, |h| h.1);
        let (p, most) = climb(&mut rng, rules, &mut |tried, most| {
            progress.show(|| format!("climb {round} of {rounds}: {tried} sheets tried, now {most}; most of earlier climbs {before}"))
        });
        println!("climb {round}: {most}");
        if most > before {
            hardest = Some((p, most));
        }
    }
    if let Some((p, _)) = hardest {
        show(&p, rules);
    }
    true
}
