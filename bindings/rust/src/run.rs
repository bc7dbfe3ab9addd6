//! A lent code is run.

use crate::route::listed;
use crate::{ffi, End, Error, Refusal, Route, Shown, ROUTE_LIMIT};

/// Runs a code over the answers, and lists the nodes from the start of `out`. The code may be any numbers: that of a unit, as
/// [`code`](crate::code) writes it and [`shorten`](crate::shorten) leaves it, ends as [`route`](crate::route) does; another may also end
/// with [`End::NoOtherEnd`], for instance in a ring. No entry past the last one written is changed.
///
/// # Errors
///
/// Refusal 18, as of [`shorten`](crate::shorten), and 12 with the length needed where `out` is shorter than the route.
pub fn run(code: &[u32], answers: &[u32], out: &mut [u32]) -> Result<Shown, Refusal> {
    // SAFETY: pointers and lengths of live slices; `out` is borrowed alone.
    let answer = unsafe {
        ffi::velkunshe_run(code.as_ptr(), code.len(), answers.as_ptr(), answers.len(), out.as_mut_ptr(), out.len())
    };
    match answer.refusal {
        0 => Ok(Shown { entries: answer.entries as usize, end: End::from_number(answer.end), taken: answer.taken }),
        number => Err(Refusal::new(number, answer.place, answer.needed)),
    }
}

/// The route of a code, in a vector as long as it needs, with at most [`ROUTE_LIMIT`] entries.
///
/// A question (node 7) whose `yes` lists the node 8 and comes back to it, and whose `no` returns:
///
/// ```
/// use velkunshe::{run_of, End};
///
/// let code = [2, 3, 0, 3, 7, 7, 12, 1, 8, 2, 3, 0, 6, 1];
/// let route = run_of(&code, &[1, 0]).unwrap();
/// assert_eq!((&route.nodes[..], route.end, route.taken), (&[7, 8, 7][..], End::Returned, 2));
///
/// // The jump goes to where no instruction begins.
/// assert_eq!(run_of(&[2, 1, 0], &[]).unwrap_err().to_string().split(':').next(), Some("refusal 18 at 0"));
/// ```
///
/// # Errors
///
/// Those of [`run_within`].
pub fn run_of(code: &[u32], answers: &[u32]) -> Result<Route, Error> {
    run_within(code, answers, ROUTE_LIMIT)
}

/// The same, with at most `limit` entries.
///
/// # Errors
///
/// Refusal 18; [`Error::TooLong`] where the route is longer than that, [`Error::NoMemory`] where there is none for it.
pub fn run_within(code: &[u32], answers: &[u32], limit: usize) -> Result<Route, Error> {
    listed(limit, |out| run(code, answers, out))
}
