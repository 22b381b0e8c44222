//! How fast a sheet is read, in bytes per microsecond: usual sheets, usual sheets that are refused at their end, and long lines.

use crate::draw::Rng;
use crate::families::{FAMILIES, ITEMS};
use crate::ours;
use crate::stats::timed;
use std::hint::black_box;

/// The most bytes of a sheet.
const LONGEST: usize = 4096;
const BOUND: i64 = 10;

fn usual(rng: &mut Rng) -> Vec<Vec<u8>> {
    FAMILIES.iter().map(|f| f.draw(rng, BOUND, ITEMS / 4).sheet()).collect()
}

/// The last byte stands once more.
fn refused(sheets: &[Vec<u8>]) -> Vec<Vec<u8>> {
    sheets.iter().map(|s| [s.as_slice(), b"\n"].concat()).collect()
}

/// A second line, of one byte over and over, that fills the sheet.
fn long_line(b: u8) -> Vec<u8> {
    let mut s = b"limit 1\n".to_vec();
    s.resize(LONGEST - 1, b);
    s.push(b'\n');
    s
}

fn row(name: &str, sheets: &[Vec<u8>], runs: u64) {
    let bytes: usize = sheets.iter().map(|s| s.len()).sum();
    let ((), seconds) = timed(|| {
        for _ in 0..runs {
            for s in sheets {
                black_box(ours::read(black_box(s)));
            }
        }
    });
    println!("{name:<34}{:>10.1}", (bytes as u64 * runs) as f64 / seconds / 1e6);
}

pub fn reading(seed: u64, runs: u64) -> bool {
    let sheets = usual(&mut Rng(seed));
    println!("{:<34}{:>10}", "reading", "bytes/µs");
    row("usual sheets", &sheets, runs);
    row("usual sheets, refused at the end", &refused(&sheets), runs);
    row("a number of 4,087 digits", &[long_line(b'9')], runs);
    row("a line of 4,087 letters", &[long_line(b'x')], runs);
    true
}
