//! The flat code of a unit, and its routes.

use crate::room::with_room;
use crate::{ffi, End, Error, Refusal, Rule, CODE};

/// What [`route`] gives of a route whose nodes it wrote.
#[derive(Clone, Copy, Debug, PartialEq, Eq)]
pub struct Shown {
    /// How many nodes were listed.
    pub entries: usize,
    /// How it ended.
    pub end: End,
    /// How many answers were taken.
    pub taken: u64,
}

/// A route, as [`route_of`] gives it.
#[derive(Clone, Debug, PartialEq, Eq)]
pub struct Route {
    /// The nodes in the order in which they were reached.
    pub nodes: Vec<u32>,
    /// How it ended.
    pub end: End,
    /// How many answers were taken.
    pub taken: u64,
}

impl Route {
    pub(crate) fn of((nodes, shown): (Vec<u32>, Shown)) -> Route {
        Route { nodes, end: shown.end, taken: shown.taken }
    }
}

/// Makes the flat code of a unit from the start of `out` and gives its length. No entry past the last one written is changed. How long it is
/// depends on the tree and the unit alone: a call with an empty slice is refused by 11 and tells it.
///
/// # Errors
///
/// Refusals 1 to 7, 9 and 13 to 15, and 11 with the length needed where `out` is shorter than the code.
pub fn code(rule: &Rule, unit: u32, out: &mut [u32]) -> Result<usize, Refusal> {
    // SAFETY: pointers and lengths of live slices; `out` is borrowed alone.
    let answer = unsafe { on_rule!(velkunshe_code, rule, unit, out.as_mut_ptr(), out.len()) };
    match answer.refusal {
        0 => Ok(answer.length as usize),
        number => Err(Refusal::new(number, answer.place, answer.needed)),
    }
}

/// Makes the flat code of a unit in `code`, runs it over the answers, and lists the nodes from the start of `out`. No entry past the last
/// one written is changed.
///
/// # Errors
///
/// Refusals 1 to 7, 9 and 13 to 15, 11 with the length needed where `code` is shorter than the code, and 12 with the length needed where `out`
/// is shorter than the route.
pub fn route(rule: &Rule, unit: u32, answers: &[u32], code: &mut [u32], out: &mut [u32]) -> Result<Shown, Refusal> {
    // SAFETY: pointers and lengths of live slices; `code` and `out` are each borrowed alone.
    let answer = unsafe {
        on_rule!(
            velkunshe_route,
            rule,
            unit,
            answers.as_ptr(),
            answers.len(),
            code.as_mut_ptr(),
            code.len(),
            out.as_mut_ptr(),
            out.len(),
        )
    };
    shown(answer)
}

pub(crate) fn shown(answer: ffi::RouteAnswer) -> Result<Shown, Refusal> {
    match answer.refusal {
        0 => Ok(Shown { entries: answer.entries as usize, end: End::from_number(answer.end), taken: answer.taken }),
        number => Err(Refusal::new(number, answer.place, answer.needed)),
    }
}

/// The most entries of a route that [`route_of`] and the like make a vector for: 64 MiB of numbers. A short rule can have a route that is
/// longer than any memory, as its loops go on while there are answers.
pub const ROUTE_LIMIT: usize = 16_777_216;

/// Room for a first try.
pub(crate) const FIRST_ENTRIES: usize = 256;

/// The most nodes that a table may have; a longer one is refused before any code is made.
const MOST_NODES: usize = 65_535;

/// The flat code of a unit, in a vector as long as it needs.
///
/// # Errors
///
/// Refusals 1 to 7, 9 and 13 to 15; [`Error::NoMemory`] where there is none for the vector.
pub fn code_of(rule: &Rule, unit: u32) -> Result<Vec<u32>, Error> {
    let enough = CODE * rule.node_count().min(MOST_NODES);
    with_room(enough, usize::MAX, |out| code(rule, unit, out).map(|length| (length, ()))).map(|(made, ())| made)
}

/// What a call that lists nodes writes, in a vector as long as it needs.
pub(crate) fn listed(limit: usize, mut call: impl FnMut(&mut [u32]) -> Result<Shown, Refusal>) -> Result<Route, Error> {
    with_room(FIRST_ENTRIES, limit, |out| call(out).map(|shown| (shown.entries, shown))).map(Route::of)
}

/// The route of a unit, in a vector as long as it needs, with at most [`ROUTE_LIMIT`] entries.
///
/// # Errors
///
/// Those of [`route_within`].
pub fn route_of(rule: &Rule, unit: u32, answers: &[u32]) -> Result<Route, Error> {
    route_within(rule, unit, answers, ROUTE_LIMIT)
}

/// The route of a unit, in a vector as long as it needs, with at most `limit` entries.
///
/// # Errors
///
/// Refusals 1 to 7, 9 and 13 to 15; [`Error::TooLong`] where the route is longer than that, [`Error::NoMemory`] where there is none for the
/// code or the route.
pub fn route_within(rule: &Rule, unit: u32, answers: &[u32], limit: usize) -> Result<Route, Error> {
    let mut code = code_of(rule, unit)?;
    listed(limit, |out| route(rule, unit, answers, &mut code, out))
}
