//! Solvers as whole processes, from a file to a file: ours beside those that may be installed. They compute in floating point; theirs is the
//! time beside ours, not the proof.

use crate::model::Model;
use crate::ours;
use crate::problem::Problem;
use std::fs::File;
use std::io::{Read, Write};
use std::path::{Path, PathBuf};
use std::process::{Command, Stdio};

/// `Ours` is this program with the word `reply`.
#[derive(Clone, Copy)]
pub enum Solver {
    Ours,
    Glpsol,
    Cbc,
}

pub const RIVALS: [Solver; 2] = [Solver::Glpsol, Solver::Cbc];

/// Seconds that a rival is given for a sheet.
pub const LIMIT: u64 = 2;

/// Our reply to the sheet of standard input.
pub fn reply() -> bool {
    let mut sheet = vec![];
    std::io::stdin().read_to_end(&mut sheet).expect("a sheet");
    std::io::stdout().write_all(ours::plan(&sheet).as_bytes()).expect("room for a reply");
    true
}

/// The value of a reply as a float.
pub fn value_of(text: &str) -> Option<f64> {
    let mut words = text.lines().next()?.strip_prefix("best ")?.split(' ');
    Some(words.next()?.parse::<f64>().ok()? / words.next()?.parse::<f64>().ok()?)
}

impl Solver {
    pub fn name(self) -> &'static str {
        match self {
            Solver::Ours => "ours",
            Solver::Glpsol => "glpsol",
            Solver::Cbc => "cbc",
        }
    }

    pub fn is_installed(self) -> bool {
        let known = Command::new(self.name()).arg("--version").stdin(Stdio::null()).stdout(Stdio::null()).status();
        known.is_ok()
    }

    fn command(self, model: &Path, solution: &Path) -> Command {
        let program = match self {
            Solver::Ours => std::env::current_exe().expect("this program"),
            _ => self.name().into(),
        };
        let mut command = Command::new(program);
        command.stdin(Stdio::null()).stdout(Stdio::null()).stderr(Stdio::null());
        match self {
            Solver::Ours => {
                command.arg("reply").stdin(File::open(model).expect("the sheet")).stdout(File::create(solution).expect("a temporary file"))
            }
            Solver::Glpsol => command.arg("--lp").arg(model).args(["--tmlim", &LIMIT.to_string()]).arg("-w").arg(solution),
            Solver::Cbc => command.arg(model).args(["-sec", &LIMIT.to_string(), "-solve", "-solu"]).arg(solution).arg("-quit"),
        };
        command
    }

    /// The size of the value that it names optimal, if it does; what is most of a value may be told as the least of its opposite.
    pub fn solve(self, p: &Problem) -> Option<f64> {
        let file = |end: &str| std::env::temp_dir().join(format!("charge-bench-{}.{end}", std::process::id()));
        let (model, solution) = (file("lp"), file("sol"));
        let text = match self {
            Solver::Ours => p.sheet(),
            _ => model_text(&Model::of(p)).into_bytes(),
        };
        std::fs::write(&model, text).expect("a temporary file");
        let ran = self.command(&model, &solution).status();
        let value = ran.ok().and_then(|_| self.value(&solution));
        let _ = (std::fs::remove_file(model), std::fs::remove_file(solution));
        value
    }

    fn value(self, solution: &PathBuf) -> Option<f64> {
        let text = std::fs::read_to_string(solution).ok()?;
        let line = match self {
            Solver::Ours => return value_of(&text).map(f64::abs),
            Solver::Glpsol => text.lines().find(|l| l.starts_with("s mip") && l.contains(" o "))?,
            Solver::Cbc => text.lines().find(|l| l.starts_with("Optimal"))?,
        };
        line.split(' ').next_back()?.parse().ok().map(f64::abs)
    }
}

/// The format that both read.
fn model_text(m: &Model) -> String {
    let sum = |entries: &mut dyn Iterator<Item = (usize, i64)>| -> String {
        entries.map(|(k, a)| format!(" {} {} x{k}\n", if a < 0 { '-' } else { '+' }, a.abs())).collect()
    };
    let mut text = format!("Maximize\n value:\n{}Subject To\n", sum(&mut m.columns.iter().map(|c| c.price).enumerate()));
    for (j, r) in m.rows.iter().enumerate() {
        text += &format!(" row{j}:\n{} <= {}\n", sum(&mut r.entries.iter().copied()), r.most);
    }
    text += "Bounds\n";
    for (k, c) in m.columns.iter().enumerate() {
        let lower = c.lower.map_or("-inf".into(), |l| l.to_string());
        let upper = c.upper.map_or("+inf".into(), |u| u.to_string());
        text += &format!(" {lower} <= x{k} <= {upper}\n");
    }
    text += "General\n";
    for (k, _) in m.columns.iter().enumerate().filter(|(_, c)| c.integer) {
        text += &format!(" x{k}\n");
    }
    text + "End\n"
}
