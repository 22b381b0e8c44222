//! What the first of the best points takes beyond the best value alone: of the twin, which can be told to show any best point, and of ours on a
//! sheet that is owed none because a lower bound is absent.

use crate::families::FAMILIES;
use crate::independent;
use crate::ours;
use crate::problem::Problem;
use crate::speed::{sheets, Options};
use crate::stats::{at, timed, MEDIAN};
use crate::twin::{self, FIRST, WITH_SCALES};

/// Microseconds and cells of the value alone and with the first point.
#[derive(Default)]
struct Row {
    ours: [Vec<f64>; 2],
    twin: [Vec<f64>; 2],
    cells: [Vec<u64>; 2],
    /// sheets on which ours takes as many steps without the lower bound
    alike: usize,
}

/// Without the lower bound of the item that is worth most for its weight, which seldom stands there; no need may name it. The same problem if no such
/// item weighs more than nought.
fn unowed(p: &Problem) -> Problem {
    let mut q = p.clone();
    let is_free = |k: &usize| p.items[*k].weight > 0 && p.needs.iter().all(|n| n.item != *k && n.cover != *k);
    let ratio = |j: usize, k: usize| (p.items[j].price * p.items[k].weight).cmp(&(p.items[k].price * p.items[j].weight));
    let best = (0..p.items.len()).filter(is_free).max_by(|&j, &k| ratio(j, k));
    best.into_iter().for_each(|k| q.items[k].lower = None);
    q
}

fn measure(p: &Problem, row: &mut Row) {
    let (sheet, free) = (p.sheet(), unowed(p).sheet());
    for (k, rules) in [WITH_SCALES, FIRST].into_iter().enumerate() {
        let (told, time) = timed(|| twin::plan_both(&independent::read(&sheet).expect("a good sheet"), rules));
        row.twin[k].push(time * 1e6);
        row.cells[k].push(told.cells);
    }
    for (k, text) in [&free, &sheet].into_iter().enumerate() {
        row.ours[k].push(timed(|| ours::plan(text)).1 * 1e6);
    }
    row.alike += (ours::work(&free).steps == ours::work(&sheet).steps) as usize;
}

/// Both medians, and by how much the second is above the first.
fn medians<T: Copy + PartialOrd + Into<f64>>(lists: &mut [Vec<T>; 2]) -> String {
    let middle = lists.each_mut().map(|list| {
        list.sort_by(|a, b| a.partial_cmp(b).expect("numbers"));
        at(list, MEDIAN).map_or(0.0, Into::into)
    });
    format!("{:9.1} {:9.1} {:9.1}", middle[0], middle[1], middle[1] - middle[0])
}

pub fn firstly(o: &Options) -> bool {
    println!("First points: {} sheets a row, seed {}; medians of the value alone and with the first point, and how far these are apart", o.sheets, o.seed);
    println!("us: from a sheet to its text, the least of three runs; alike: of ours, sheets with as many steps without a lower bound");
    for &continuous in o.continuous {
        println!();
        println!("{:26} {:>5} {:>2} |{:>29} |{:>29} |{:>29} |{:>6}", "family", "bound", "c", "ours us", "twin us", "1,000 cells", "alike");
        for family in FAMILIES.iter().filter(|f| f.name.contains(&o.family)) {
            for bound in family.bounds {
                let mut row = Row::default();
                sheets(family, bound, continuous, o).iter().for_each(|p| measure(p, &mut row));
                let mut cells = row.cells.each_ref().map(|list| list.iter().map(|&n| n as f64 / 1e3).collect());
                let (ours, twin, cells) = (medians(&mut row.ours), medians(&mut row.twin), medians::<f64>(&mut cells));
                println!("{:26} {bound:>5} {continuous:>2} |{ours} |{twin} |{cells} |{:>6}", family.name, row.alike);
            }
        }
    }
    true
}
