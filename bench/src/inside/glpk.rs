//! The library of glpk, by its C interface: the simplex method, then branch and bound, as they come. Its presolver takes longer than most of these sheets.

use crate::model::{Column, Model};
use crate::rivals::LIMIT;
use std::ffi::{c_double, c_int, c_void};

/// `glp_iocp`; what stands behind the milliseconds is left as it is.
#[repr(C)]
struct Parameters {
    messages: c_int,
    branching: c_int,
    backtracking: c_int,
    integer_tolerance: c_double,
    objective_tolerance: c_double,
    milliseconds: c_int,
    rest: [u64; 128],
}

#[link(name = "glpk")]
extern "C" {
    fn glp_create_prob() -> *mut c_void;
    fn glp_delete_prob(p: *mut c_void);
    fn glp_set_obj_dir(p: *mut c_void, direction: c_int);
    fn glp_add_rows(p: *mut c_void, count: c_int) -> c_int;
    fn glp_add_cols(p: *mut c_void, count: c_int) -> c_int;
    fn glp_set_row_bnds(p: *mut c_void, row: c_int, kind: c_int, lower: c_double, upper: c_double);
    fn glp_set_col_bnds(p: *mut c_void, column: c_int, kind: c_int, lower: c_double, upper: c_double);
    fn glp_set_col_kind(p: *mut c_void, column: c_int, kind: c_int);
    fn glp_set_obj_coef(p: *mut c_void, column: c_int, price: c_double);
    fn glp_set_mat_row(p: *mut c_void, row: c_int, count: c_int, columns: *const c_int, figures: *const c_double);
    fn glp_term_out(flag: c_int) -> c_int;
    fn glp_simplex(p: *mut c_void, parameters: *const c_void) -> c_int;
    fn glp_init_iocp(parameters: *mut Parameters);
    fn glp_intopt(p: *mut c_void, parameters: *const Parameters) -> c_int;
    fn glp_mip_status(p: *mut c_void) -> c_int;
    fn glp_mip_obj_val(p: *mut c_void) -> c_double;
}

const OFF: c_int = 0;
const MOST: c_int = 2;
const INTEGER: c_int = 2;
const OPTIMAL: c_int = 5;

/// Kinds of bounds.
const FREE: c_int = 1;
const BELOW: c_int = 2;
const ABOVE: c_int = 3;
const BOTH: c_int = 4;
const FIXED: c_int = 5;

fn kind(c: &Column) -> c_int {
    match (c.lower, c.upper) {
        (None, None) => FREE,
        (Some(_), None) => BELOW,
        (None, Some(_)) => ABOVE,
        (Some(l), Some(u)) if l < u => BOTH,
        _ => FIXED,
    }
}

fn parameters() -> Parameters {
    let mut parameters = std::mem::MaybeUninit::zeroed();
    let mut parameters: Parameters = unsafe {
        glp_init_iocp(parameters.as_mut_ptr());
        parameters.assume_init()
    };
    parameters.milliseconds = 1000 * LIMIT as c_int;
    parameters
}

/// Columns and rows count from 1, and so do the lists of a row.
unsafe fn load(p: *mut c_void, m: &Model) {
    glp_set_obj_dir(p, MOST);
    glp_add_cols(p, m.columns.len() as c_int);
    glp_add_rows(p, m.rows.len() as c_int);
    for (j, c) in (1..).zip(&m.columns) {
        glp_set_col_bnds(p, j, kind(c), c.lower.unwrap_or(0) as f64, c.upper.unwrap_or(0) as f64);
        glp_set_obj_coef(p, j, c.price as f64);
        if c.integer {
            glp_set_col_kind(p, j, INTEGER);
        }
    }
    for (i, r) in (1..).zip(&m.rows) {
        let columns: Vec<c_int> = std::iter::once(0).chain(r.entries.iter().map(|e| e.0 as c_int + 1)).collect();
        let figures: Vec<f64> = std::iter::once(0.0).chain(r.entries.iter().map(|e| e.1 as f64)).collect();
        glp_set_row_bnds(p, i, ABOVE, 0.0, r.most as f64);
        glp_set_mat_row(p, i, r.entries.len() as c_int, columns.as_ptr(), figures.as_ptr());
    }
}

/// The value that it calls optimal, if it does in time.
pub fn solve(m: &Model) -> Option<f64> {
    unsafe {
        glp_term_out(OFF);
        let p = glp_create_prob();
        load(p, m);
        glp_simplex(p, std::ptr::null());
        let is_done = glp_intopt(p, &parameters()) == 0 && glp_mip_status(p) == OPTIMAL;
        let value = glp_mip_obj_val(p);
        glp_delete_prob(p);
        is_done.then_some(value)
    }
}
