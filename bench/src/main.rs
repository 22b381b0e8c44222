//! The bench: our proved planner beside an independent one and beside its own twin in Rust. See bench/run.

mod blanks;
mod check;
mod compare;
mod damage;
mod draw;
mod enumeration;
mod families;
mod firstly;
mod hunt;
mod independent;
mod inside;
mod instructions;
mod load;
mod model;
mod needy;
mod ours;
mod picture;
mod problem;
mod progress;
mod race;
mod reading;
mod rivals;
mod speed;
mod stats;
mod trial;
mod twin;

use families::{CONTINUOUS, FEW_CONTINUOUS};

const USAGE: &str = include_str!("../usage.txt");

const COMMANDS: [&str; 13] =
    ["compare", "damage", "speed", "reading", "self", "hunt", "needs", "convert", "first", "instructions", "inside", "replies", "reply"];

struct Arguments {
    words: Vec<String>,
}

impl Arguments {
    /// Whether a word stands there; it is taken out.
    fn word(&mut self, word: &str) -> bool {
        let at = self.words.iter().position(|w| w == word);
        at.map(|k| self.words.remove(k)).is_some()
    }

    /// What stands behind an option; both are taken out.
    fn value(&mut self, option: &str) -> Option<String> {
        let k = self.words.iter().position(|w| w == option)?;
        self.words.remove(k);
        (k < self.words.len()).then(|| self.words.remove(k))
    }

    fn number(&mut self, option: &str) -> Option<u64> {
        self.value(option).map(|v| v.parse().unwrap_or_else(|_| usage()))
    }
}

fn usage() -> ! {
    eprint!("{USAGE}");
    std::process::exit(2)
}

/// The commands that stand there; compare and speed if none does.
fn commands(a: &mut Arguments) -> Vec<&'static str> {
    let mut named = COMMANDS.to_vec();
    named.retain(|word| a.word(word));
    if named.is_empty() {
        named = vec!["compare", "speed"];
    }
    named
}

fn main() {
    let mut a = Arguments { words: std::env::args().skip(1).collect() };
    let quick = a.word("quick");
    let commands = commands(&mut a);
    let choose = |few: u64, many: u64| if quick { few } else { many };
    let seed = a.number("--seed").unwrap_or(1);
    let sheets = a.number("--sheets");
    let rules = if a.word("--value") { twin::WITH_SCALES } else { ours::RULES };
    let speed = speed::Options {
        seed,
        sheets: sheets.unwrap_or(choose(10, 100)) as usize,
        raced: a.number("--raced").unwrap_or(choose(3, 11)) as usize,
        rules,
        continuous: if quick { &FEW_CONTINUOUS } else { &CONTINUOUS },
        family: a.value("--family").unwrap_or_default(),
        picture: a.value("--svg"),
    };
    let rounds = a.number("--rounds").unwrap_or(choose(1, 5));
    if !a.words.is_empty() {
        usage();
    }
    let mut good = true;
    for command in commands {
        good &= match command {
            "compare" => compare::compare(seed, sheets.unwrap_or(choose(5000, 120_000))),
            "damage" => damage::damage(seed),
            "speed" => speed::speed(&speed),
            "reading" => reading::reading(seed, choose(200, 2000)),
            "self" => trial::trial(seed, sheets.unwrap_or(choose(2000, 20_000))),
            "hunt" => hunt::hunt(seed, rounds, rules),
            "needs" => needy::needs(seed, speed.sheets, speed.raced),
            "first" => firstly::firstly(&speed),
            "convert" => blanks::convert(seed, sheets.unwrap_or(choose(5000, 100_000))),
            "instructions" => instructions::instructions(&speed.of(sheets.unwrap_or(choose(3, 10)))),
            "inside" => inside::inside(&speed),
            "replies" => instructions::replies(),
            _ => rivals::reply(),
        };
    }
    std::process::exit(if good { 0 } else { 1 });
}
