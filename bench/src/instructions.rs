//! Instructions of a plan by family, as valgrind's callgrind counts them: they do not depend on how busy the machine is. Of each call of
//! `charge_plan` callgrind writes a part of its own, so that drawing, starting and printing are not in it.

use crate::families::FAMILIES;
use crate::ours;
use crate::progress::Progress;
use crate::speed::{sheets, Options};
use crate::stats::{at, MEDIAN, WORST};
use std::io::{Read, Write};
use std::path::{Path, PathBuf};
use std::process::{Command, Stdio};

/// What counts as copying: part of a function's name.
const COPIES: [&str; 3] = ["memcpy", "memmove", "memset"];

/// How every sheet begins, and nothing else in it.
const START: &[u8] = b"limit 1\n";

/// The word that makes this program plan the sheets of standard input.
const REPLIES: &str = "replies";

/// Instructions of a call, and how many of them copy.
#[derive(Clone, Copy)]
struct Count {
    all: u64,
    copies: u64,
}

/// Sheets that stand one behind the other.
fn split(text: &[u8]) -> Vec<&[u8]> {
    let mut starts: Vec<usize> = (0..text.len()).filter(|&k| text[k..].starts_with(START)).collect();
    starts.push(text.len());
    starts.windows(2).map(|w| &text[w[0]..w[1]]).collect()
}

/// Our replies to the sheets of standard input.
pub fn replies() -> bool {
    let mut text = vec![];
    std::io::stdin().read_to_end(&mut text).expect("sheets");
    split(&text).iter().for_each(|sheet| print!("{}", ours::plan(sheet)));
    true
}

fn is_installed() -> bool {
    Command::new("valgrind").arg("--version").stdout(Stdio::null()).stderr(Stdio::null()).status().is_ok()
}

/// The cost that stands at the end of a line of figures.
fn cost(line: &str) -> Option<u64> {
    let is_place = line.starts_with(|c: char| c.is_ascii_digit() || "+-*".contains(c));
    line.split(' ').next_back().filter(|_| is_place)?.parse().ok()
}

/// What a part tells. Behind a `calls` line stands what the called function took, which is told there.
fn count(part: &str) -> Count {
    let (mut c, mut copies, mut called) = (Count { all: 0, copies: 0 }, false, false);
    for line in part.lines() {
        if let Some(name) = line.strip_prefix("fn=") {
            copies = COPIES.iter().any(|word| name.contains(word));
        } else if let (Some(n), false) = (cost(line), called) {
            c.all += n;
            c.copies += if copies { n } else { 0 };
        }
        called = line.starts_with("calls=");
    }
    c
}

/// Runs this program under callgrind on the sheets; parts are numbered from 1.
fn run(text: &[u8], out: &Path) {
    let mut child = Command::new("valgrind")
        .args(["--tool=callgrind", "--compress-strings=no", "--toggle-collect=charge_plan", "--dump-after=charge_plan"])
        .arg(format!("--callgrind-out-file={}", out.display()))
        .arg(std::env::current_exe().expect("this program"))
        .arg(REPLIES)
        .stdin(Stdio::piped())
        .stdout(Stdio::null())
        .stderr(Stdio::null())
        .spawn()
        .expect("valgrind");
    child.stdin.take().expect("its input").write_all(text).expect("room for sheets");
    assert!(child.wait().expect("valgrind").success(), "callgrind counts");
}

fn counts(list: &[Vec<u8>]) -> Vec<Count> {
    let folder = std::env::temp_dir().join(format!("charge-bench-{}.callgrind", std::process::id()));
    std::fs::create_dir_all(&folder).expect("a temporary folder");
    run(&list.concat(), &folder.join("part"));
    let part = |k: usize| -> PathBuf { folder.join(format!("part.{}", k + 1)) };
    let counts = (0..list.len()).map(|k| count(&std::fs::read_to_string(part(k)).expect("a part for each sheet"))).collect();
    let _ = std::fs::remove_dir_all(folder);
    counts
}

/// Median and worst, and of all sheets together the share of copies in a hundred.
fn show(name: &str, bound: i64, continuous: usize, counts: &[Count]) {
    let mut all: Vec<u64> = counts.iter().map(|c| c.all).collect();
    all.sort();
    let copies: u64 = counts.iter().map(|c| c.copies).sum();
    let share = 100.0 * copies as f64 / all.iter().sum::<u64>() as f64;
    let [median, worst] = [MEDIAN, WORST].map(|s| at(&all, s).unwrap_or(0));
    println!("{name:26} {bound:>5} {continuous:>2} |{median:>12} {worst:>12} |{share:>6.1}");
}

pub fn instructions(o: &Options) -> bool {
    if !is_installed() {
        println!("valgrind is not installed: no instructions are counted. It is in the package valgrind.");
        return false;
    }
    println!("Instructions of a call of charge_plan: {} sheets a row, seed {}; copies: share of {}", o.sheets, o.seed, COPIES.join(", "));
    println!("{:26} {:>5} {:>2} |{:>12} {:>12} |{:>6}", "family", "bound", "c", "median", "worst", "copies");
    let mut progress = Progress::new();
    for family in FAMILIES.iter().filter(|f| f.name.contains(&o.family)) {
        for bound in family.bounds {
            for &continuous in o.continuous {
                progress.show(|| format!("{}, bound {bound}, {continuous} continuous", family.name));
                let list: Vec<Vec<u8>> = sheets(family, bound, continuous, o).iter().map(|p| p.sheet()).collect();
                show(family.name, bound, continuous, &counts(&list));
            }
        }
    }
    true
}
