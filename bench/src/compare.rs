//! Our replies beside those of the independent planner, on drawn sheets of mixed kinds.

use crate::check::{check, check_is, check_refused, own, split};
use crate::draw::{kind, Rng, KINDS};
use crate::independent::{self, Refusal, Reply};
use crate::ours;
use crate::problem::{Ranged, SENSES};
use crate::progress::Progress;
use crate::twin;

/// The kinds of replies.
const REPLIES: [&str; 3] = ["infeasible", "unbounded", "best"];

/// How often refusals and pairs of replies came, the sure one first; and on how many sheets with ranges.
#[derive(Clone, Copy, Default)]
struct Counts {
    refused: u64,
    pairs: [[u64; 3]; 3],
    ranged: u64,
    twin_agrees: u64,
    by_scales: u64,
    most_cases: u64,
    differ: u64,
}

fn column(r: Reply) -> usize {
    match r {
        Reply::Infeasible => 0,
        Reply::Unbounded => 1,
        Reply::Best(..) => 2,
    }
}

fn check_verdict(sheet: &[u8], refusal: Option<Refusal>) -> Result<(), String> {
    if ours::read(sheet) == refusal.map_or((0, 0), |f| (f.number, f.line)) {
        Ok(())
    } else {
        Err("verdict".into())
    }
}

/// Both replies show the point that comes first, where one is owed.
fn check_first(p: &Ranged, sure: Reply, text: &str) -> Result<(), String> {
    for (sense, part) in SENSES.iter().zip(split(p, sure, text)) {
        let p = p.in_sense(*sense);
        independent::first(&p).map_or(Ok(()), |point| check_is(&own(&p, &point), &part))?;
    }
    Ok(())
}

/// Lent buffers that just do and just do not hold the text; a refusal leaves both alone.
fn check_buffers(sheet: &[u8], refusal: Option<Refusal>, text: &str) -> Result<(), String> {
    let mut tight = vec![7; text.len()];
    let mut short = vec![7; text.len() - 1];
    let (told, told_short) = (ours::plan_into(sheet, &mut tight), ours::plan_into(sheet, &mut short));
    let is_left = |b: &[u8]| b.iter().all(|&x| x == 7);
    let (is_told, is_told_short) = match refusal {
        Some(f) => (told == Err((f.number, f.line)) && is_left(&tight), told_short == told),
        None => (told == Ok(text.len()) && tight == text.as_bytes(), told_short == Err((11, 0))),
    };
    if !is_told {
        return Err("a buffer of the text's length".into());
    }
    if !is_told_short || !is_left(&short) {
        return Err("a buffer that is too short".into());
    }
    Ok(())
}

fn compare_refused(sheet: &[u8], f: Refusal, text: &str, counts: &mut Counts) -> Result<(), String> {
    counts.refused += 1;
    check_refused(f, text)
        .and_then(|_| check_verdict(sheet, Some(f)))
        .and_then(|_| check_buffers(sheet, Some(f), text))
        .map_err(|what| format!("{what}; expected {f:?}, ours is\n{text}"))
}

fn compare_planned(sheet: &[u8], p: &Ranged, text: &str, counts: &mut Counts) -> Result<(), String> {
    let twin = twin::plan_both(p, ours::RULES);
    let expected = independent::plan_both(p);
    let [sure, possible] = expected;
    counts.pairs[column(sure)][column(possible)] += 1;
    counts.ranged += !p.is_exact() as u64;
    counts.twin_agrees += (twin.text == text) as u64;
    counts.by_scales += (twin.cells > 0) as u64;
    counts.most_cases = counts.most_cases.max(twin.cases);
    check(p, expected, text)
        .and_then(|_| check_first(p, sure, text))
        .and_then(|_| check_verdict(sheet, None))
        .and_then(|_| if twin.steps < ours::RULES.steps { check_buffers(sheet, None, text) } else { Ok(()) })
        .map_err(|what| format!("{what}; expected {expected:?}, ours is\n{text}"))
}

fn compare_sheet(sheet: &[u8], counts: &mut Counts) -> Result<(), String> {
    let text = ours::plan(sheet);
    match independent::read(sheet) {
        Ok(p) => compare_planned(sheet, &p, &text, counts),
        Err(f) => compare_refused(sheet, f, &text, counts),
    }
}

/// Whether no sheet differs.
pub fn compare(seed: u64, count: u64) -> bool {
    println!("Comparison with the independent planner: {count} sheets, seed {seed}");
    let mut rng = Rng(seed);
    let mut counts = [Counts::default(); KINDS.len()];
    let mut progress = Progress::new();
    for done in 0..count {
        progress.show(|| format!("{done} of {count} sheets compared, {} differ", counts.iter().map(|c| c.differ).sum::<u64>()));
        let k = kind(&mut rng, &KINDS);
        let sheet = KINDS[k].2(&mut rng);
        if let Err(what) = compare_sheet(&sheet, &mut counts[k]) {
            counts[k].differ += 1;
            println!("sheet {done} differs: {what}for\n{}", String::from_utf8_lossy(&sheet));
        }
    }
    show(&counts);
    println!();
    counts.iter().all(|c| c.differ == 0)
}

fn show(counts: &[Counts]) {
    println!("The sure replies, by kind:");
    println!("{:20} {:>8} {:>11} {:>10} {:>8} {:>7}", "kind", "refused", "infeasible", "unbounded", "best", "differ");
    let mut sum = Counts::default();
    for (c, k) in counts.iter().zip(KINDS) {
        row(k.0, c);
        (0..9).for_each(|i| sum.pairs[i / 3][i % 3] += c.pairs[i / 3][i % 3]);
        sum.refused += c.refused;
        sum.ranged += c.ranged;
        sum.differ += c.differ;
        sum.twin_agrees += c.twin_agrees;
        sum.by_scales += c.by_scales;
        sum.most_cases = sum.most_cases.max(c.most_cases);
    }
    row("all", &sum);
    let accepted: u64 = sum.pairs.iter().flatten().sum();
    println!("{} of {accepted} accepted sheets have ranges; on {} the possible reply is of another kind:{}", sum.ranged, apart(&sum), pairs_text(&sum));
    println!("The twin's text is ours on {} of {accepted} accepted sheets; {} went to the scales.", sum.twin_agrees, sum.by_scales);
    println!("Its needs took up to {} cases of a sheet.", sum.most_cases);
}

/// Pairs of two kinds.
fn mixed() -> impl Iterator<Item = (usize, usize)> {
    (0..9).map(|i| (i / 3, i % 3)).filter(|(i, j)| i != j)
}

fn apart(c: &Counts) -> u64 {
    mixed().map(|(i, j)| c.pairs[i][j]).sum()
}

fn pairs_text(c: &Counts) -> String {
    let part = |(i, j): (usize, usize)| format!(" {} then {} {}", REPLIES[i], REPLIES[j], c.pairs[i][j]);
    let parts: Vec<String> = mixed().filter(|&(i, j)| c.pairs[i][j] > 0).map(part).collect();
    parts.join(",")
}

fn row(name: &str, c: &Counts) {
    let sure = c.pairs.map(|p| p.iter().sum::<u64>());
    println!("{name:20} {:>8} {:>11} {:>10} {:>8} {:>7}", c.refused, sure[0], sure[1], sure[2], c.differ);
}
