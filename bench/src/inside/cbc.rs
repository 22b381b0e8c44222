//! The library of cbc, by its C interface, as it comes.

use crate::model::{Column, Model};
use crate::rivals::LIMIT;
use std::ffi::{c_double, c_int, c_void};

#[link(name = "CbcSolver")]
extern "C" {
    fn Cbc_newModel() -> *mut c_void;
    fn Cbc_deleteModel(p: *mut c_void);
    fn Cbc_loadProblem(
        p: *mut c_void,
        columns: c_int,
        rows: c_int,
        starts: *const c_int,
        indices: *const c_int,
        figures: *const c_double,
        lower: *const c_double,
        upper: *const c_double,
        prices: *const c_double,
        row_lower: *const c_double,
        row_upper: *const c_double,
    );
    fn Cbc_setInteger(p: *mut c_void, column: c_int);
    fn Cbc_setObjSense(p: *mut c_void, sense: c_double);
    fn Cbc_setLogLevel(p: *mut c_void, level: c_int);
    fn Cbc_setMaximumSeconds(p: *mut c_void, seconds: c_double);
    fn Cbc_solve(p: *mut c_void) -> c_int;
    fn Cbc_isProvenOptimal(p: *mut c_void) -> c_int;
    fn Cbc_getObjValue(p: *mut c_void) -> c_double;
}

const MOST: f64 = -1.0;

/// The matrix by columns.
#[derive(Default)]
struct Matrix {
    starts: Vec<c_int>,
    indices: Vec<c_int>,
    figures: Vec<f64>,
}

fn matrix(m: &Model) -> Matrix {
    let mut matrix = Matrix { starts: vec![0], ..Default::default() };
    for j in 0..m.columns.len() {
        for (i, r) in m.rows.iter().enumerate() {
            for &(_, figure) in r.entries.iter().filter(|e| e.0 == j) {
                matrix.indices.push(i as c_int);
                matrix.figures.push(figure as f64);
            }
        }
        matrix.starts.push(matrix.indices.len() as c_int);
    }
    matrix
}

unsafe fn load(p: *mut c_void, m: &Model) {
    let Matrix { starts, indices, figures } = matrix(m);
    let by_column = |figure: fn(&Column) -> f64| m.columns.iter().map(figure).collect::<Vec<f64>>();
    let lower = by_column(|c| c.lower.map_or(-f64::MAX, |l| l as f64));
    let upper = by_column(|c| c.upper.map_or(f64::MAX, |u| u as f64));
    let prices = by_column(|c| c.price as f64);
    let row_lower = vec![-f64::MAX; m.rows.len()];
    let row_upper: Vec<f64> = m.rows.iter().map(|r| r.most as f64).collect();
    let (columns, rows) = (m.columns.len() as c_int, m.rows.len() as c_int);
    let [starts, indices] = [&starts, &indices].map(|v| v.as_ptr());
    let [figures, lower, upper, prices, row_lower, row_upper] = [&figures, &lower, &upper, &prices, &row_lower, &row_upper].map(|v| v.as_ptr());
    Cbc_loadProblem(p, columns, rows, starts, indices, figures, lower, upper, prices, row_lower, row_upper);
    (0..).zip(&m.columns).filter(|(_, c)| c.integer).for_each(|(j, _)| Cbc_setInteger(p, j));
    Cbc_setObjSense(p, MOST);
}

/// The value that it calls optimal, if it does in time.
pub fn solve(m: &Model) -> Option<f64> {
    unsafe {
        let p = Cbc_newModel();
        load(p, m);
        Cbc_setLogLevel(p, 0);
        Cbc_setMaximumSeconds(p, LIMIT as f64);
        Cbc_solve(p);
        let value = (Cbc_isProvenOptimal(p) != 0).then(|| Cbc_getObjValue(p));
        Cbc_deleteModel(p);
        value
    }
}
