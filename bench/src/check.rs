//! Our replies held to the independent ones: kind, refusal and value exactly; what is free, the point and the steps, held to the sheet.

use crate::independent::{Refusal, Reply};
use crate::problem::{Item, Problem, Ranged, SENSES};

/// The figures of item k's line, behind its number; written as the paper writes numbers.
fn figures(line: Option<&str>, k: usize, count: usize) -> Result<Vec<i128>, String> {
    let line = line.ok_or("too few lines")?;
    let numbers: Vec<i128> = line.split(' ').filter_map(|f| f.parse().ok()).collect();
    let written: Vec<String> = numbers.iter().map(i128::to_string).collect();
    if numbers.len() != count + 1 || numbers[0] != k as i128 + 1 || written.join(" ") != line {
        return Err(format!("line `{line}`"));
    }
    Ok(numbers[1..].to_vec())
}

fn amount_keeps(i: &Item, p: i128, q: i128) -> bool {
    q == i.own_divisor() as i128
        && p.abs() <= 1_000_000_000 * q
        && i.lower.is_none_or(|l| l as i128 * q <= p)
        && i.upper.is_none_or(|u| p <= u as i128 * q)
}

fn is_part(x: &&(i128, i128)) -> bool {
    x.0 % x.1 != 0
}

/// The sum of figure times amount, over the divisor of the one amount that is not a whole number.
fn total(p: &Problem, point: &[(i128, i128)], figure: impl Fn(&Item) -> i64) -> (i128, i128) {
    let d = point.iter().find(is_part).map_or(1, |x| x.1);
    (p.items.iter().zip(point).map(|(i, x)| figure(i) as i128 * (x.0 * d / x.1)).sum(), d)
}

/// A point over its items' own divisors.
pub fn own(p: &Problem, point: &[(i128, i128)]) -> Vec<(i128, i128)> {
    let over = |i: &Item, x: &(i128, i128)| (x.0 * i.own_divisor() as i128 / x.1, i.own_divisor() as i128);
    p.items.iter().zip(point).map(|(i, x)| over(i, x)).collect()
}

pub fn check_point(p: &Problem, point: &[(i128, i128)]) -> Result<(), String> {
    for (k, (i, x)) in p.items.iter().zip(point).enumerate() {
        if !amount_keeps(i, x.0, x.1) {
            return Err(format!("amount of item {}", k + 1));
        }
    }
    if let Some(n) = p.needs.iter().find(|n| point[n.item].0 > 0 && point[n.cover].0 < point[n.cover].1) {
        return Err(format!("need of item {}", n.item + 1));
    }
    if point.iter().filter(is_part).count() > 1 {
        return Err("two fractions".into());
    }
    let (weight, d) = total(p, point, |i| i.weight);
    if weight > p.limit as i128 * d {
        Err("weight".into())
    } else {
        Ok(())
    }
}

fn check_best<'a>(p: &Problem, value: (i128, i128), mut lines: impl Iterator<Item = &'a str>) -> Result<(), String> {
    if lines.next() != Some(format!("best {} {}", value.0, value.1).as_str()) {
        return Err("value".into());
    }
    let mut point = vec![];
    for k in 0..p.items.len() {
        let x = figures(lines.next(), k, 2)?;
        point.push((x[0], x[1]));
    }
    check_point(p, &point)?;
    let (worth, d) = total(p, &point, |i| i.price);
    if worth * value.1 != value.0 * d {
        return Err("the point is not worth the value".into());
    }
    lines.next().map_or(Ok(()), |_| Err("too many lines".into()))
}

/// The point of a best reply is this one.
pub fn check_is(point: &[(i128, i128)], text: &str) -> Result<(), String> {
    let lines: Vec<String> = point.iter().enumerate().map(|(k, x)| format!("{} {} {}", k + 1, x.0, x.1)).collect();
    if text.lines().skip(1).eq(lines.iter().map(String::as_str)) {
        Ok(())
    } else {
        Err(format!("the first best point is {point:?}"))
    }
}

fn check_unbounded<'a>(p: &Problem, mut lines: impl Iterator<Item = &'a str>) -> Result<(), String> {
    if lines.next() != Some("unbounded") {
        return Err("kind".into());
    }
    let (mut point, mut steps) = (vec![], vec![]);
    for k in 0..p.items.len() {
        let x = figures(lines.next(), k, 3)?;
        point.push((x[0], x[1]));
        steps.push(x[2]);
    }
    check_point(p, &point)?;
    let moving = steps.iter().filter(|&&s| s != 0).count();
    let free = p
        .items
        .iter()
        .zip(&steps)
        .all(|(i, &s)| s.abs() <= 1000 && !(s > 0 && i.upper.is_some()) && !(s < 0 && i.lower.is_some()));
    let sum = |figure: fn(&Item) -> i64| p.items.iter().zip(&steps).map(|(i, s)| figure(i) as i128 * s).sum::<i128>();
    if !(1..=2).contains(&moving) || !free || sum(|i| i.weight) > 0 || sum(|i| i.price) <= 0 {
        return Err("steps".into());
    }
    lines.next().map_or(Ok(()), |_| Err("too many lines".into()))
}

/// The text of one reply held to the expected one.
fn check_reply(p: &Problem, expected: Reply, text: &str) -> Result<(), String> {
    let lines = text.split('\n').take(text.matches('\n').count());
    match expected {
        Reply::Infeasible if text == "infeasible\n" => Ok(()),
        Reply::Infeasible => Err("kind".into()),
        Reply::Unbounded => check_unbounded(p, lines),
        Reply::Best(n, d) => check_best(p, (n, d), lines),
    }
}

/// The two replies of a text, the first as long as it should be.
pub fn split(p: &Ranged, sure: Reply, text: &str) -> [String; 2] {
    let count = if sure == Reply::Infeasible { 1 } else { p.items.len() + 1 };
    let lines: Vec<&str> = text.split_inclusive('\n').collect();
    let (first, second) = lines.split_at(count.min(lines.len()));
    [first.concat(), second.concat()]
}

/// Our text for the sheet of a problem held to the expected replies.
pub fn check(p: &Ranged, expected: [Reply; 2], text: &str) -> Result<(), String> {
    if !text.ends_with('\n') {
        return Err("the last line is not closed".into());
    }
    for ((sense, reply), part) in SENSES.iter().zip(expected).zip(split(p, expected[0], text)) {
        check_reply(&p.in_sense(*sense), reply, &part).map_err(|what| format!("{what}, {sense:?}"))?;
    }
    Ok(())
}

/// A refusal is told once.
pub fn check_refused(f: Refusal, text: &str) -> Result<(), String> {
    if text == format!("refused {} {}\n", f.number, f.line) {
        Ok(())
    } else {
        Err("refusal".into())
    }
}
