//! The bench tried on itself: the twin and the independent planner held to plain enumeration of small problems, and to each other on large ones.

use crate::check::{check_is, check_point, own};
use crate::draw::{tiny, with_ranges, Rng};
use crate::enumeration::{first_best, Found, GRID};
use crate::families::{CONTINUOUS, FAMILIES};
use crate::independent::{self, without_blanks, Point, Reply};
use crate::ours;
use crate::problem::{Problem, Ranged, SENSES};
use crate::progress::Progress;
use crate::twin::{self, Rules, FIRST, WITH_SCALES};

/// How far an absent upper bound is taken beyond the lower one.
const BEYOND: i64 = 7;

/// The numbers of steps that the twin's search is given before the scales.
const STEPS: [u64; 4] = [0, 1, 3, 1000];

/// What was compared: best values, points that come first, other kinds.
#[derive(Default)]
struct Counts {
    values: u64,
    firsts: u64,
    others: u64,
    differ: u64,
}

/// The twin's reply begins as the independent one, whatever the steps.
fn check_twin(p: &Problem, expected: Reply) -> Result<(), String> {
    let line = match expected {
        Reply::Best(n, d) => format!("best {n} {d}\n"),
        Reply::Unbounded => "unbounded\n".into(),
        Reply::Infeasible => "infeasible\n".into(),
    };
    for steps in STEPS {
        for rules in [ours::RULES, WITH_SCALES] {
            let text = twin::plan(p, Rules { steps, ..rules }).text;
            if !text.starts_with(&line) {
                return Err(format!("the twin after {steps} steps says {text}"));
            }
        }
    }
    Ok(())
}

/// The independent first point is a point, and the twin's is the same, whatever the steps.
fn check_point_of(p: &Problem) -> Result<Point, String> {
    let first = independent::first(p).ok_or("no first best point")?;
    let shown = own(p, &first);
    check_point(p, &shown)?;
    for steps in STEPS {
        check_is(&shown, &twin::plan(p, Rules { steps, ..FIRST }).text)?;
    }
    Ok(first)
}

/// A point over GRID.
fn on_grid(point: &Point) -> Result<Vec<i64>, String> {
    let over = |x: &(i128, i128)| (GRID as i128 % x.1 == 0).then(|| (x.0 * (GRID as i128 / x.1)) as i64);
    point.iter().map(over).collect::<Option<Vec<i64>>>().ok_or_else(|| format!("{point:?} is not on the grid"))
}

/// Value and first point beside the enumerated ones. Beyond where absent bounds are taken there may be better points, and earlier ones.
fn check_first(p: &Problem, value: (i128, i128), found: &Found, counts: &mut Counts) -> Result<(), String> {
    let (ours, enumerated) = (value.0 * GRID as i128, found.value as i128 * value.1);
    let is_closed = p.items.iter().all(|i| i.upper.is_some());
    counts.values += 1;
    if ours < enumerated || (is_closed && ours > enumerated) {
        return Err(format!("the value is not {} / {GRID}", found.value));
    }
    let first = on_grid(&check_point_of(p)?)?;
    if ours > enumerated {
        return Ok(());
    }
    counts.firsts += 1;
    let is_inside = p.items.iter().zip(&first).all(|(i, &x)| i.upper.is_some() || x <= (i.lower.unwrap() + BEYOND) * GRID);
    if first == found.amounts || (!is_inside && first < found.amounts) {
        Ok(())
    } else {
        Err(format!("first is {first:?}, enumerated {:?}, over {GRID}", found.amounts))
    }
}

/// Kind and value are the same without blank items, where these can go.
fn check_blanks(p: &Problem, expected: Reply) -> Result<(), String> {
    match without_blanks(p) {
        Ok(q) if independent::plan(&q) != expected => Err("another reply without blank items".into()),
        _ => Ok(()),
    }
}

fn check_small(p: &Ranged, counts: &mut Counts) -> Result<(), String> {
    for sense in SENSES {
        check_found(&p.in_sense(sense), first_best(p, sense, BEYOND), counts)?;
    }
    check_order(p)
}

/// Where both replies are best the sure value is no greater, and what is best or unbounded for sure is not infeasible otherwise.
fn check_order(p: &Ranged) -> Result<(), String> {
    let is_in_order = match independent::plan_both(p) {
        [Reply::Best(n, d), Reply::Best(m, e)] => n * e <= m * d,
        [sure, possible] => sure == possible || sure == Reply::Infeasible || possible == Reply::Unbounded,
    };
    if is_in_order { Ok(()) } else { Err("the sure reply is above the possible one".into()) }
}

/// A problem in a sense beside what was enumerated in it.
fn check_found(p: &Problem, found: Option<Found>, counts: &mut Counts) -> Result<(), String> {
    let expected = independent::plan(p);
    check_twin(p, expected)?;
    check_blanks(p, expected)?;
    match (expected, found) {
        (Reply::Best(n, d), Some(found)) => return check_first(p, (n, d), &found, counts),
        (Reply::Infeasible, None) => {}
        (Reply::Infeasible, Some(found)) => return Err(format!("{:?} / {GRID} is feasible", found.amounts)),
        (_, _) if p.items.iter().all(|i| i.upper.is_some()) => return Err(format!("{expected:?}")),
        _ => {}
    }
    counts.others += 1;
    Ok(())
}

/// A sheet of a family with ranges, one in three with some upper bounds absent, but of no item that a need names.
fn large(rng: &mut Rng) -> Ranged {
    let family = &FAMILIES[rng.between(0, FAMILIES.len() as i64 - 1) as usize];
    let (bound, continuous) = (rng.pick(&family.bounds), rng.pick(&CONTINUOUS));
    let mut p = family.draw(rng, bound, continuous);
    let absent = rng.pick(&[0, 0, 20]);
    for k in 0..p.items.len() {
        if !p.is_named(k) && rng.chance(absent) {
            p.items[k].upper = None;
        }
    }
    with_ranges(rng, &p)
}

/// Too large for enumeration: the twin and the independent planner are held to each other.
fn check_large(p: &Ranged, counts: &mut Counts) -> Result<(), String> {
    for sense in SENSES {
        check_each_other(&p.in_sense(sense), counts)?;
    }
    check_order(p)
}

fn check_each_other(p: &Problem, counts: &mut Counts) -> Result<(), String> {
    let expected = independent::plan(p);
    check_twin(p, expected)?;
    if let Reply::Best(..) = expected {
        counts.values += 1;
        check_point_of(p)?;
        counts.firsts += 1;
    } else {
        counts.others += 1;
    }
    Ok(())
}

type Check = fn(&Ranged, &mut Counts) -> Result<(), String>;

/// Whether nothing differs.
fn try_all(what: &str, count: u64, rng: &mut Rng, draw: fn(&mut Rng) -> Ranged, check: Check) -> bool {
    let mut counts = Counts::default();
    let mut progress = Progress::new();
    for done in 0..count {
        progress.show(|| format!("{done} of {count} {what} problems tried, {} differ", counts.differ));
        let p = draw(rng);
        if let Err(why) = check(&p, &mut counts) {
            counts.differ += 1;
            println!("{what} problem {done}: {why}\n{}", String::from_utf8_lossy(&p.sheet()));
        }
    }
    let Counts { values, firsts, others, differ } = counts;
    println!(
        "{count} {what} problems, in both senses: {values} best values, {firsts} first best points and {others} other replies compared; {differ} differ"
    );
    differ == 0
}

/// How many small problems come to a large one.
const SMALL: u64 = 200;

pub fn trial(seed: u64, count: u64) -> bool {
    println!(
        "The bench itself, seed {seed}: the twin, after {STEPS:?} steps, and the independent planner; small problems by enumeration too"
    );
    let mut rng = Rng(seed);
    let small = try_all("small", count, &mut rng, tiny, check_small);
    try_all("large", count / SMALL, &mut rng, large, check_large) && small
}
