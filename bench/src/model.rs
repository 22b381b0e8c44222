//! A problem as other solvers take it, in columns and rows: the items, then a switch for each need.

use crate::problem::{Item, Need, Problem};

pub struct Column {
    pub price: i64,
    pub integer: bool,
    pub lower: Option<i64>,
    pub upper: Option<i64>,
}

/// Figures of some columns, and what their sum is at most.
pub struct Row {
    pub entries: Vec<(usize, i64)>,
    pub most: i64,
}

pub struct Model {
    pub columns: Vec<Column>,
    pub rows: Vec<Row>,
}

const SWITCH: Column = Column { price: 0, integer: true, lower: Some(0), upper: Some(1) };

impl Model {
    pub fn of(p: &Problem) -> Model {
        let column = |i: &Item| Column { price: i.price, integer: i.integer, lower: i.lower, upper: i.upper };
        let weights = p.items.iter().enumerate().map(|(k, i)| (k, i.weight)).collect();
        Model {
            columns: p.items.iter().map(column).chain(p.needs.iter().map(|_| SWITCH)).collect(),
            rows: std::iter::once(Row { entries: weights, most: p.limit }).chain(needs(p)).collect(),
        }
    }
}

/// A need is two rows: the item is at most its upper bound times the switch, the cover at least the switch.
fn needs(p: &Problem) -> impl Iterator<Item = Row> + '_ {
    let rows = |(j, n): (usize, &Need)| {
        let switch = p.items.len() + j;
        let upper = p.items[n.item].upper.expect("an item that may be named");
        [vec![(n.item, 1), (switch, -upper)], vec![(switch, 1), (n.cover, -1)]].map(|entries| Row { entries, most: 0 })
    };
    p.needs.iter().enumerate().flat_map(rows)
}
