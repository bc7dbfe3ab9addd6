//! What runs over code, and routes that are stopped or share a beginning: held against the evaluator, which knows none.

use cases::rng::Rng;
use plain::machine::{STOPPED, run_whole};
use plain::marks::{Code, MARKS, route_resume, route_resume_stop, route_stop};
use plain::routes::Run;
use plain::{Refusal, Route, Tables};

use crate::{answers, flat, same};

/// A unit that has a route; gives the length of its code and of the shorter one.
pub fn compare(t: &Tables, unit: usize, given: &[u32], rng: &mut Rng) -> Result<[usize; 2], String> {
    let made = flat::code(t, unit);
    same("code's length, made and as a sum", &made.len(), &plain::code_length(t, unit))?;
    over(t, unit, &made, given, rng).map(|shorter| [made.len(), shorter])
}

/// All that is said of a unit's code, whoever made it; gives the length of the shorter one.
pub fn over(t: &Tables, unit: usize, made: &[u32], given: &[u32], rng: &mut Rng) -> Result<usize, String> {
    let run = plain::routes::run(t, unit, given);
    same("a unit's code has no fault", &plain::shorten::first_fault(made), &None)?;
    same("route by the code and by the evaluator", &ran(made, given), &run)?;
    let shorter = shortened(made, given, &run)?;
    stopped(t, unit, made, given, rng)?;
    changed(t, unit, given, rng).map(|()| shorter)
}

fn ran(code: &[u32], answers: &[u32]) -> Run {
    let ran = run_whole(code, answers);
    Run { list: ran.list, end: ran.end, answers_taken: ran.taken }
}

/// Request 10: the same route, never longer, and a second pass changes nothing.
fn shortened(made: &[u32], answers: &[u32], run: &Run) -> Result<usize, String> {
    let mut code = made.to_vec();
    let length = plain::shorten(&mut code).map_err(|r| format!("shorten: {r:?}"))?;
    same("what is behind the shorter code", &code[length..].to_vec(), &made[length..].to_vec())?;
    code.truncate(length);
    same("route of the shorter code", &ran(&code, answers), run)?;
    let mut again = code.clone();
    same("length of a second pass", &plain::shorten(&mut again).map_err(|r| r.number), &Ok(length))?;
    same("a second pass", &again, &code).map(|()| length)
}

/// Request 7: stopped once or twice and taken up again, the lists joined are the route of the answers joined.
fn stopped(t: &Tables, unit: usize, made: &[u32], given: &[u32], rng: &mut Rng) -> Result<(), String> {
    let (at, code) = ((t, unit as u32), Code { made, room: made.len() });
    let room = |answers: &[u32]| vec![0; 1 + (answers.len() + 1) * t.node_count()];
    let (mark, other) = (rng.number(8), rng.number(8));
    let mut so_far = Run { list: Vec::new(), end: STOPPED, answers_taken: 0 };
    let mut marks = [0; MARKS];
    let mut out = room(given);
    let stop = rng.below(given.len() + 2);
    let first = route_stop(at, given, (mark, stop as u64), &mut marks, code, &mut out);
    join(&mut so_far, first, &out)?;
    right_stop(t, &so_far, stop)?;
    if so_far.end != STOPPED {
        same("no mark is set", &marks, &[0; MARKS])?;
        return same("a route that was not stopped", &so_far, &plain::routes::run(t, unit, given));
    }
    // Behind the mark the answers given, or others.
    let more = if rng.once_in(2) { given[so_far.answers_taken..].to_vec() } else { answers(rng) };
    let joined = [&given[..so_far.answers_taken], &more[..]].concat();
    let (before, mut out) = (marks, room(&more));
    let stop = rng.below(3);
    let next = route_resume_stop(at, mark, &more, (other, stop as u64), &mut marks, code, &mut out);
    let before_next = so_far.answers_taken;
    join(&mut so_far, next, &out)?;
    right_stop(t, &so_far, before_next + stop)?;
    if so_far.end == STOPPED {
        let mut out = room(&joined);
        let last = route_resume(at, other, &joined[so_far.answers_taken..], &mut marks, code, &mut out);
        join(&mut so_far, last, &out)?;
    } else {
        same("marks of a route that was not stopped again", &marks, &before)?;
    }
    same("a route stopped and taken up", &so_far, &plain::routes::run(t, unit, &joined))
}

/// "Right after the entry that takes the last of a named number of answers (for 0, at its start)"; a route that isn't
/// stopped took fewer.
fn right_stop(t: &Tables, so_far: &Run, stop: usize) -> Result<(), String> {
    if so_far.end != STOPPED {
        return same("fewer answers than named", &(so_far.answers_taken < stop), &true);
    }
    let last_asks = so_far.list.last().is_none_or(|&n| asks(t, n));
    same("answers up to a stop, and the last entry takes one", &(so_far.answers_taken, last_asks), &(stop, true))
}

/// The entry of this node takes an answer.
fn asks(t: &Tables, n: u32) -> bool {
    matches!(t.kind(n as usize), 7..=12 | 14)
}

/// A route with what was listed and taken before it.
fn join(so_far: &mut Run, next: Result<Route, Refusal>, out: &[u32]) -> Result<(), String> {
    let next = next.map_err(|r| format!("marks: {r:?}"))?;
    so_far.list.extend(&out[..next.entries]);
    so_far.end = next.end;
    so_far.answers_taken += next.answers_taken;
    Ok(())
}

/// Request 11: two lists of answers that differ at k alone, and the length of a route.
fn changed(t: &Tables, unit: usize, given: &[u32], rng: &mut Rng) -> Result<(), String> {
    let run = plain::routes::run(t, unit, given);
    if run.list.len() > (run.answers_taken + 1) * t.node_count() {
        return Err(format!("a route of {} entries", run.list.len()));
    }
    if given.is_empty() {
        return Ok(());
    }
    let k = rng.below(given.len());
    let mut other = given.to_vec();
    other[k] = other[k].wrapping_add(1 + rng.number(2));
    let shared = plain::shared(t, unit as u32, given, &other, usize::MAX).map_err(|r| format!("shared: {r:?}"))?;
    if run.answers_taken <= k {
        same("routes that don't take the answer", &plain::routes::run(t, unit, &other), &run)?;
        return same("all is shared", &shared, &run.list.len());
    }
    // Up to and with the entry that takes answer k.
    let entry = run.list.iter().enumerate().filter(|&(_, &n)| asks(t, n)).nth(k).map_or(0, |(i, _)| i);
    if shared <= entry {
        Err(format!("routes share {shared} entries, and answer {k} is taken at {entry}"))
    } else {
        Ok(())
    }
}
