//! The proved planner: the entries of `crates/runcefo_c`, as `include/runcefo.h` declares them.

use crate::twin::{Rules, FIRST};

extern "C" {
    fn charge_room() -> usize;
    fn charge_read(sheet: *const u8, len: usize, line: *mut u64) -> u64;
    fn charge_plan(sheet: *const u8, len: usize, out: *mut u8, room: usize, written: *mut usize, line: *mut u64) -> u64;
    fn charge_convert(sheet: *const u8, len: usize, out: *mut u8, room: usize, written: *mut usize, line: *mut u64) -> u64;
    fn charge_steps(sheet: *const u8, len: usize) -> u64;
    fn charge_cells(sheet: *const u8, len: usize) -> u64;
}

/// What the proved planner does: the twin by these rules takes the same steps to the same text.
pub const RULES: Rules = FIRST;

/// The steps of a search, 0 if there is none; and the cells that the scales wrote.
pub struct Work {
    pub steps: u64,
    pub cells: u64,
}

/// How many bytes hold every reply.
pub fn room() -> usize {
    unsafe { charge_room() }
}

/// A sheet's verdict: number and line of its refusal, zeros if it is accepted.
pub fn read(sheet: &[u8]) -> (u64, u64) {
    let mut line = 0;
    let number = unsafe { charge_read(sheet.as_ptr(), sheet.len(), &mut line) };
    (number, line)
}

/// The reply at the start of `out`, and its length; or number and line of a refusal, 11 if `out` is too short.
pub fn plan_into(sheet: &[u8], out: &mut [u8]) -> Result<usize, (u64, u64)> {
    let (mut written, mut line) = (0, 0);
    match unsafe { charge_plan(sheet.as_ptr(), sheet.len(), out.as_mut_ptr(), out.len(), &mut written, &mut line) } {
        0 => Ok(written),
        number => Err((number, line)),
    }
}

/// What `charge` prints.
pub fn plan(sheet: &[u8]) -> String {
    let mut out = vec![0; room()];
    match plan_into(sheet, &mut out) {
        Ok(n) => String::from_utf8_lossy(&out[..n]).into_owned(),
        Err((number, line)) => format!("refused {number} {line}\n"),
    }
}

/// The sheet without its blank items at the start of `out`. Told are the number of a refusal or 0, the length written and the line.
pub fn convert_into(sheet: &[u8], out: &mut [u8]) -> (u64, usize, u64) {
    let (mut written, mut line) = (usize::MAX, u64::MAX);
    let number = unsafe { charge_convert(sheet.as_ptr(), sheet.len(), out.as_mut_ptr(), out.len(), &mut written, &mut line) };
    (number, written, line)
}

pub fn work(sheet: &[u8]) -> Work {
    let (from, len) = (sheet.as_ptr(), sheet.len());
    unsafe { Work { steps: charge_steps(from, len), cells: charge_cells(from, len) } }
}
