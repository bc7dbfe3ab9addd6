//! Calls with their refusals: those of the input (1-6, 13-15), then 10; 7, 9 and 11; 7, 9, 11 and 12. Those over code
//! are in `shorten` and `marks`, the renaming of labels in `rename`. A refusal leaves every slice unchanged; success
//! changes no entry past the last one written.

use crate::code_length::code_length;
use crate::findings::findings;
use crate::refusals::input_refusal;
use crate::routes;
use crate::tables::*;

#[derive(Clone, Copy, Debug, PartialEq, Eq)]
pub struct Refusal {
    pub number: u32,
    pub place: usize,
    /// The length needed, for 10, 11, 12 and 20.
    pub needed: Option<u64>,
}

fn refuse<T>(number: u32, place: usize) -> Result<T, Refusal> {
    Err(Refusal { number, place, needed: None })
}

#[derive(Clone, Copy, Debug, PartialEq, Eq)]
pub struct Route {
    pub entries: usize,
    pub end: u32,
    pub answers_taken: usize,
}

impl Route {
    /// Writes the list from the slice's start, or gives 12.
    pub fn write(list: &[u32], end: u32, answers_taken: usize, out: &mut [u32]) -> Result<Route, Refusal> {
        if out.len() < list.len() {
            return Err(Refusal { number: 12, place: 0, needed: Some(list.len() as u64) });
        }
        out[..list.len()].copy_from_slice(list);
        Ok(Route { entries: list.len(), end, answers_taken })
    }
}

pub fn well_formed(t: &Tables) -> Result<(), Refusal> {
    input_refusal(t).map_or(Ok(()), |r| refuse(r.number, r.place))
}

/// Writes the findings; gives how many.
pub fn check(t: &Tables, out: &mut [u32]) -> Result<usize, Refusal> {
    well_formed(t)?;
    let found = findings(t);
    let needed = 7 * found.len();
    if out.len() < needed {
        return Err(Refusal { number: 10, place: 0, needed: Some(needed as u64) });
    }
    for (entry, finding) in out.chunks_exact_mut(7).zip(&found) {
        entry.copy_from_slice(&finding.numbers());
    }
    Ok(found.len())
}

/// The refusals of the code call, else the code's length. What the code is, document 01 leaves free.
pub fn code_refusal(t: &Tables, unit: u32, room: usize) -> Result<usize, Refusal> {
    let needed = needed_code(t, unit)?;
    if room < needed {
        return Err(Refusal { number: 11, place: 0, needed: Some(needed as u64) });
    }
    Ok(needed)
}

/// The refusals of the code call that no slice has to do with, else the code's length.
pub fn needed_code(t: &Tables, unit: u32) -> Result<usize, Refusal> {
    well_formed(t)?;
    let place = unit as usize;
    if place >= t.node_count() || !is_unit_kind(t.kind(place)) {
        return refuse(7, place);
    }
    if let Some(first) = findings(t).first() {
        return refuse(9, first.node as usize);
    }
    if let Some(jump) = routes::lowest_without_target(t) {
        return refuse(9, jump);
    }
    Ok(code_length(t, place))
}

/// Writes the route.
pub fn route(t: &Tables, unit: u32, answers: &[u32], code_room: usize, out: &mut [u32]) -> Result<Route, Refusal> {
    code_refusal(t, unit, code_room)?;
    walk(t, unit, answers, out)
}

/// Request 6: the same without code, and so without 11.
pub fn walk(t: &Tables, unit: u32, answers: &[u32], out: &mut [u32]) -> Result<Route, Refusal> {
    needed_code(t, unit)?;
    let run = routes::run(t, unit as usize, answers);
    Route::write(&run.list, run.end, run.answers_taken, out)
}

/// Request 11: "the length of the longest beginning that their routes share", with the code call's refusals.
pub fn shared(t: &Tables, unit: u32, first: &[u32], second: &[u32], code_room: usize) -> Result<usize, Refusal> {
    code_refusal(t, unit, code_room)?;
    let list = |answers: &[u32]| routes::run(t, unit as usize, answers).list;
    Ok(list(first).iter().zip(&list(second)).take_while(|(a, b)| a == b).count())
}
