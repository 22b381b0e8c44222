//! Our converter beside the independent one, on drawn sheets with blank items (paper 02, request 9).

use crate::check::check;
use crate::draw::{damaged_in_one, kind, long, needy, small, sheet_of, with_blanks, Kind, Rng};
use crate::independent::{self, Blanks, Refusal};
use crate::ours;
use crate::problem::Problem;
use crate::progress::Progress;

const KINDS: [Kind; 8] = [
    ("none blank", 100, |rng| sheet_of(rng, whole)),
    ("some blank", 250, |rng| sheet_of(rng, blanked)),
    ("harmless ones", 250, |rng| sheet_of(rng, harmless)),
    ("one crosses", 100, |rng| sheet_of(rng, crossing)),
    ("one is named", 100, |rng| sheet_of(rng, named)),
    ("all blank", 50, |rng| sheet_of(rng, all_blank)),
    ("damaged", 200, |rng| {
        let sheet = sheet_of(rng, blanked);
        damaged_in_one(rng, sheet)
    }),
    ("long", 20, long),
];

/// How many items of a hundred are made blank where they do no harm.
const HARMLESS: i64 = 40;

/// Bytes of a lent buffer behind the text.
const BEHIND: usize = 9;

/// What lent buffers hold before.
const FILLER: u8 = 7;

// ---- the sheets

fn whole(rng: &mut Rng) -> Problem {
    if rng.chance(50) {
        small(rng)
    } else {
        needy(rng)
    }
}

/// Whatever the bounds and the needs of blank items are.
fn blanked(rng: &mut Rng) -> Problem {
    let p = whole(rng);
    with_blanks(rng, p)
}

fn make_blank(p: &mut Problem, k: usize) {
    (p.items[k].weight, p.items[k].price) = (0, 0);
}

/// Some items that no need names become blank, their bounds in order.
fn with_harmless(rng: &mut Rng, mut p: Problem) -> Problem {
    for k in 0..p.items.len() {
        if p.is_named(k) || !rng.chance(HARMLESS) {
            continue;
        }
        make_blank(&mut p, k);
        if let (Some(l), Some(u)) = (p.items[k].lower, p.items[k].upper) {
            (p.items[k].lower, p.items[k].upper) = (Some(l.min(u)), Some(l.max(u)));
        }
    }
    p
}

fn harmless(rng: &mut Rng) -> Problem {
    let p = whole(rng);
    with_harmless(rng, p)
}

/// Among harmless ones, before it or behind it.
fn crossing(rng: &mut Rng) -> Problem {
    let mut p = harmless(rng);
    let k = rng.between(0, p.items.len() as i64 - 1) as usize;
    make_blank(&mut p, k);
    (p.items[k].lower, p.items[k].upper) = (Some(1), Some(0));
    p
}

fn named(rng: &mut Rng) -> Problem {
    let mut p = needy(rng);
    while p.needs.is_empty() {
        p = needy(rng);
    }
    let mut p = with_harmless(rng, p);
    let need = rng.pick(&p.needs);
    make_blank(&mut p, rng.pick(&[need.item, need.cover]));
    p
}

fn all_blank(rng: &mut Rng) -> Problem {
    let mut p = whole(rng);
    (0..p.items.len()).for_each(|k| make_blank(&mut p, k));
    p
}

// ---- the comparison

/// How often each came: the sheet as it was, a shorter one, refusal 15, another refusal.
#[derive(Clone, Copy, Default)]
struct Counts {
    replies: [u64; 4],
    differ: u64,
}

fn column(sheet: &[u8], expected: &Result<Vec<u8>, Refusal>) -> usize {
    match expected {
        Ok(text) if text == sheet => 0,
        Ok(_) => 1,
        Err(f) if f.number == 15 => 2,
        Err(_) => 3,
    }
}

/// What is told of a lent buffer of so many bytes, and what it holds afterwards: a refusal leaves it alone, and the bytes behind a text stay.
fn check_buffer(sheet: &[u8], expected: &Result<Vec<u8>, Refusal>, room: usize) -> Result<(), String> {
    let (mut out, mut left) = (vec![FILLER; room], vec![FILLER; room]);
    let told = match expected {
        Err(f) => (f.number, 0, f.line),
        Ok(text) if room < text.len() => (11, 0, 0),
        Ok(text) => {
            left[..text.len()].copy_from_slice(text);
            (0, text.len(), 0)
        }
    };
    let ours = ours::convert_into(sheet, &mut out);
    if ours != told {
        return Err(format!("number, length and line {told:?} expected, ours {ours:?}, of a buffer of {room} bytes"));
    }
    if out != left {
        return Err(format!("a buffer of {room} bytes holds\n{}", String::from_utf8_lossy(&out)));
    }
    Ok(())
}

/// Our replies to the new sheet have the kind and the value of the old one's, blank items included.
fn check_replies(sheet: &[u8], text: &[u8]) -> Result<(), String> {
    let refused = |f: Refusal| format!("refused {} {}", f.number, f.line);
    let old = independent::read_by(sheet, Blanks::Kept).map_err(refused)?;
    let new = independent::read(text).map_err(refused)?;
    check(&new, independent::plan_both(&old), &ours::plan(text))
}

fn compare(sheet: &[u8], expected: &Result<Vec<u8>, Refusal>) -> Result<(), String> {
    let length = expected.as_ref().map_or(sheet.len(), Vec::len);
    for room in [0, length.saturating_sub(1), length, length + BEHIND] {
        check_buffer(sheet, expected, room)?;
    }
    let Ok(text) = expected else {
        return Ok(());
    };
    if independent::read(sheet).is_ok() && text != sheet {
        return Err("a sheet without blank items does not come back".into());
    }
    if text.len() > sheet.len() {
        return Err("the new sheet is longer".into());
    }
    check_replies(sheet, text)
}

/// Whether no sheet differs.
pub fn convert(seed: u64, count: u64) -> bool {
    println!("Conversion beside the independent converter: {count} sheets, seed {seed}");
    let mut rng = Rng(seed);
    let mut counts = [Counts::default(); KINDS.len()];
    let mut progress = Progress::new();
    for done in 0..count {
        progress.show(|| format!("{done} of {count} sheets converted, {} differ", counts.iter().map(|c| c.differ).sum::<u64>()));
        let k = kind(&mut rng, &KINDS);
        let sheet = KINDS[k].2(&mut rng);
        let expected = independent::convert(&sheet);
        counts[k].replies[column(&sheet, &expected)] += 1;
        if let Err(what) = compare(&sheet, &expected) {
            counts[k].differ += 1;
            println!("sheet {done} differs: {what}, for\n{}", String::from_utf8_lossy(&sheet));
        }
    }
    show(&counts);
    counts.iter().all(|c| c.differ == 0)
}

fn show(counts: &[Counts]) {
    println!("{:20} {:>10} {:>10} {:>10} {:>14} {:>7}", "kind", "as it was", "shorter", "refused 15", "refused else", "differ");
    let mut sum = Counts::default();
    for (c, k) in counts.iter().zip(KINDS) {
        row(k.0, c);
        (0..4).for_each(|i| sum.replies[i] += c.replies[i]);
        sum.differ += c.differ;
    }
    row("all", &sum);
}

fn row(name: &str, c: &Counts) {
    let r = c.replies;
    println!("{name:20} {:>10} {:>10} {:>10} {:>14} {:>7}", r[0], r[1], r[2], r[3], c.differ);
}
