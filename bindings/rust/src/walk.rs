//! The second engine: routes by a walk over the tree, without code.

use crate::route::{listed, shown};
use crate::{Error, Refusal, Route, Rule, Shown, ROUTE_LIMIT};

/// Walks the tree of a unit over the answers and lists the nodes from the start of `out`. It gives what [`route`](crate::route) gives, and
/// needs no code. No entry past the last one written is changed.
///
/// # Errors
///
/// Refusals 1 to 7, 9 and 13 to 15, and 12 with the length needed where `out` is shorter than the route.
pub fn walk(rule: &Rule, unit: u32, answers: &[u32], out: &mut [u32]) -> Result<Shown, Refusal> {
    // SAFETY: pointers and lengths of live slices; `out` is borrowed alone.
    let answer =
        unsafe { on_rule!(velkunshe_walk, rule, unit, answers.as_ptr(), answers.len(), out.as_mut_ptr(), out.len()) };
    shown(answer)
}

/// The route of a unit by the second engine, in a vector as long as it needs, with at most [`ROUTE_LIMIT`] entries.
///
/// `do x; while (t);` with the answers yes and no:
///
/// ```
/// use velkunshe::{route_of, walk_of, End, Rule};
///
/// let rule = Rule {
///     source_type: 0,
///     async_bodies: false,
///     nodes: &[
///         0, 0, 0, 0, 17, 0, 0, 0, 0, 0, // 0 Program
///         11, 0, 3, 0, 16, 0, 0, 0, 0, 0, // 1 DoWhile
///         22, 1, 3, 3, 5, 0, 0, 0, 0, 0, // 2 x;
///         32, 1, 0, 13, 14, 0, 0, 0, 0, 1, // 3 t
///     ],
///     scopes: &[0, 2, 0],
///     source: b"do x; while (t);\n",
///     names: b"t",
/// };
/// let route = walk_of(&rule, 0, &[1, 0]).unwrap();
/// assert_eq!((&route.nodes[..], route.end, route.taken), (&[2, 1, 2, 1][..], End::FellThrough, 2));
/// assert_eq!(route_of(&rule, 0, &[1, 0]), Ok(route));
/// ```
///
/// # Errors
///
/// Those of [`walk_within`].
pub fn walk_of(rule: &Rule, unit: u32, answers: &[u32]) -> Result<Route, Error> {
    walk_within(rule, unit, answers, ROUTE_LIMIT)
}

/// The same, with at most `limit` entries.
///
/// # Errors
///
/// Refusals 1 to 7, 9 and 13 to 15; [`Error::TooLong`] where the route is longer than that, [`Error::NoMemory`] where there is none for it.
pub fn walk_within(rule: &Rule, unit: u32, answers: &[u32], limit: usize) -> Result<Route, Error> {
    listed(limit, |out| walk(rule, unit, answers, out))
}
