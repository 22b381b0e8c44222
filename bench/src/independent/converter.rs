//! A second converter: sheets without blank items (paper 02, request 9).

use super::crosses;
use super::reader::{at_item, read_by, Blanks, Refusal};
use crate::problem::{Need, Problem};

/// The problem without its blank items; else which item hinders: the first if nothing remains, or the first that goes though its bounds cross or
/// a need names it.
pub fn without_blanks<W: Copy + Default + PartialEq>(p: &Problem<W>) -> Result<Problem<W>, usize> {
    let hinders = |k: usize| p.items[k].is_blank() && (crosses(&p.items[k]) || p.is_named(k));
    let nothing_remains = p.items.iter().all(|i| i.is_blank());
    if let Some(k) = (0..p.items.len()).find(|&k| nothing_remains || hinders(k)) {
        return Err(k);
    }
    let moved = |k: usize| p.items[..k].iter().filter(|i| !i.is_blank()).count();
    let items = p.items.iter().filter(|i| !i.is_blank()).copied().collect();
    let needs = p.needs.iter().map(|n| Need { item: moved(n.item), cover: moved(n.cover) }).collect();
    Ok(Problem { limit: p.limit, items, needs })
}

/// The sheet without its blank items, or the refusal.
pub fn convert(sheet: &[u8]) -> Result<Vec<u8>, Refusal> {
    let p = read_by(sheet, Blanks::Kept)?;
    without_blanks(&p).map(|q| q.sheet()).map_err(|k| at_item(15, k))
}
