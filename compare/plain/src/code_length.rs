//! Document 02, request 9: how long the code of a unit is, without a code maker. "A sum over the unit's nodes outside
//! nested functions, arrows and classes that aren't entered .. of a number stated for each kind with its role, flags
//! and parent's kind".

use crate::refusals::{is_holder, may_be_statement};
use crate::tables::*;

/// Of the unit's own node: its four ends.
const OF_UNIT: usize = 8;

/// The length of the unit's code.
pub fn code_length(t: &Tables, unit: usize) -> usize {
    OF_UNIT + length_below(t, unit)
}

/// The sum over the unit's nodes below this one.
fn length_below(t: &Tables, n: usize) -> usize {
    t.children(n).map(|c| number(t, c) + if is_left_out(t, c) { 0 } else { length_below(t, c) }).sum()
}

/// The number of a node that is not the unit itself.
fn number(t: &Tables, n: usize) -> usize {
    match t.kind(n) {
        // With the two numbers that open it.
        BLOCK if t.role(n) == FINALLY => 5,
        BLOCK | STATIC_BLOCK => 3,
        FOR..=DO_WHILE => 10,
        IF | SWITCH => 7,
        WITH => 2,
        SWITCH_CASE => 4,
        BREAK..=OTHER_STATEMENT => 5,
        kind if may_be_statement(kind) && is_held(t, n) => 5,
        _ => 0,
    }
}

/// "With role 3 or 4" under a holder: kinds 1, 24, 26, 53 and 54 are statements then.
fn is_held(t: &Tables, n: usize) -> bool {
    matches!(t.role(n), BODY | ALTERNATE) && is_holder(t.kind(t.parent(n)))
}

/// Nested functions, arrows, and classes that aren't entered: what is below them is not the unit's.
fn is_left_out(t: &Tables, n: usize) -> bool {
    match t.kind(n) {
        FUNCTION | ARROW => true,
        CLASS => !is_entered(t, n),
        _ => false,
    }
}

/// A listed class, or one that a listed export declares (its child, flag 32).
pub fn is_entered(t: &Tables, n: usize) -> bool {
    let above = t.parent(n);
    let by_export = matches!(t.kind(above), EXPORT_DEFAULT | EXPORT_NAMED) && is_held(t, above);
    is_held(t, n) || (by_export && t.has(n, DECLARATION))
}
