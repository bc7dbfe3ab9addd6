//! The proved static library beside the plain version: every answer and every entry of every slice. Only with the
//! feature `proved`.

mod marks;
mod rename;
mod shorten;

use std::ops::Range;

use cases::rng::Rng;
use plain::{Refusal, Route, Tables};
use velkunshe::Rule;

use crate::counts::Counts;
use crate::stored::RouteAnswer;
use crate::{MOST_CODE, answers, over_code, same};

/// What an entry holds that nothing was written to.
const UNTOUCHED: u32 = 0xa5a5_5a5a;
/// Entries before and behind a lent slice, which must stay as they are.
const MARGIN: usize = 9;

/// What no seeded case has.
pub fn at_limits(counts: &mut Counts) -> Result<(), String> {
    rename::at_limits(counts)?;
    shorten::at_limits(counts)
}

/// A lent code slice: made shorter, and run before and after.
pub fn lent_code(code: &[u32], answers: &[u32], counts: &mut Counts) -> Result<(), String> {
    shorten::compare(code, answers, counts)
}

/// With the option on async bodies off and on; the calls that don't take it once.
pub fn compare(t: &Tables, rng: &mut Rng, counts: &mut Counts) -> Result<(), String> {
    rename::compare(t, counts)?;
    [false, true].into_iter().try_for_each(|async_bodies| compare_calls(&Tables { async_bodies, ..*t }, rng, counts))
}

fn compare_calls(t: &Tables, rng: &mut Rng, counts: &mut Counts) -> Result<(), String> {
    let found = if plain::input_refusal(t).is_none() { plain::findings(t).len() } else { 0 };
    around(7 * found).into_iter().try_for_each(|length| check(t, length, counts))?;
    let no_unit = rng.below(t.node_count() + 2);
    let units = (0..t.node_count()).filter(|&n| t.kind(n) <= 3).take(4).chain([no_unit]);
    units.into_iter().try_for_each(|n| {
        let given = answers(rng);
        unit(t, n as u32, &given, counts)?;
        shared(t, n as u32, &given, &similar(&given, rng), counts)?;
        walk(t, n as u32, &given, counts)?;
        marks::compare(t, n as u32, rng, counts)?;
        // What is said of a unit's code holds of the proved library's.
        match code_of(t, n as u32) {
            Ok(made) if t.node_count() < 2000 => {
                shorten::compare(&made, &given, counts)?;
                over_code::over(t, n, &made, &given, rng).map(|_| ())
            }
            _ => Ok(()),
        }
    })
}

/// No room, one entry too few, exactly enough, and more.
fn around(length: usize) -> Vec<usize> {
    let mut lengths = vec![0, length.saturating_sub(1), length, length + 5];
    lengths.dedup();
    lengths
}

fn rule<'a>(t: &Tables<'a>) -> Rule<'a> {
    Rule {
        source_type: t.source_type,
        async_bodies: t.async_bodies,
        nodes: t.nodes,
        scopes: t.scopes,
        source: t.source,
        names: t.names,
    }
}

fn refusal(r: velkunshe::Refusal) -> Refusal {
    Refusal { number: r.number(), place: r.place as usize, needed: r.needed }
}

/// No answer of these tables is too long for the memory.
fn of_error(error: velkunshe::Error) -> Refusal {
    refusal(error.refusal().expect("a refusal"))
}

/// A slice of that length within a longer vector.
fn lent(length: usize) -> (Vec<u32>, Range<usize>) {
    (vec![UNTOUCHED; length + 2 * MARGIN], MARGIN..MARGIN + length)
}

fn check(t: &Tables, length: usize, counts: &mut Counts) -> Result<(), String> {
    let (mut expected, part) = lent(length);
    let mut found = expected.clone();
    let plain = plain::check(t, &mut expected[part.clone()]);
    let proved = velkunshe::check(&rule(t), &mut found[part]).map_err(refusal);
    counts.proved_call("check", &proved);
    same(&format!("check into {length}, plain and proved"), &plain, &proved)?;
    same(&format!("findings slice of {length}, plain and proved"), &expected, &found)
}

/// Both calls on a unit, or on a number that is none. What 1 to 9 and 13 to 15 turn down is so whatever the slices are,
/// and is tried with two lengths only.
fn unit(t: &Tables, unit: u32, answers: &[u32], counts: &mut Counts) -> Result<(), String> {
    let Ok(needed) = plain::needed_code(t, unit) else {
        code(t, unit, MOST_CODE * t.node_count(), counts)?;
        code(t, unit, 0, counts)?;
        return route(t, unit, answers, MOST_CODE * t.node_count(), 3, counts);
    };
    around(needed).into_iter().try_for_each(|length| code(t, unit, length, counts))?;
    let listed = plain::routes::run(t, unit as usize, answers).list.len();
    around(needed).into_iter().try_for_each(|length| route(t, unit, answers, length, listed, counts))?;
    around(listed).into_iter().try_for_each(|length| route(t, unit, answers, needed, length, counts))
}

/// The code itself is free: it has the length that request 9 states, at most 10 numbers per node of the unit, and
/// nothing past it is written.
fn code(t: &Tables, unit: u32, length: usize, counts: &mut Counts) -> Result<(), String> {
    let (mut made, part) = lent(length);
    let plain = plain::code_refusal(t, unit, length);
    let proved = velkunshe::code(&rule(t), unit, &mut made[part]).map_err(refusal);
    counts.proved_call("code", &proved);
    same(&format!("code of {unit} into {length}, plain and proved"), &plain, &proved)?;
    let written = proved.unwrap_or(0);
    let nodes = if plain.is_ok() { nodes_of(t, unit as usize) } else { 0 };
    let others = made[..MARGIN].iter().chain(&made[MARGIN + written..]);
    if written > MOST_CODE * nodes || others.into_iter().any(|&entry| entry != UNTOUCHED) {
        return Err(format!("code of {unit}: {written} numbers, or more, for {nodes} nodes"));
    }
    Ok(())
}

fn nodes_of(t: &Tables, unit: usize) -> usize {
    1 + (unit + 1..t.node_count()).take_while(|&n| t.parent(n) >= unit).count()
}

fn route(
    t: &Tables,
    unit: u32,
    answers: &[u32],
    code_length: usize,
    length: usize,
    counts: &mut Counts,
) -> Result<(), String> {
    let what = format!("route of {unit} with {answers:?} into {length}, code into {code_length}, plain and proved");
    let (mut expected, part) = lent(length);
    let (mut listed, (mut made, code_part)) = (expected.clone(), lent(code_length));
    let plain = plain::route(t, unit, answers, code_length, &mut expected[part.clone()]);
    let proved = velkunshe::route(&rule(t), unit, answers, &mut made[code_part.clone()], &mut listed[part]);
    let proved = proved.map(shown).map_err(refusal);
    counts.proved_call("route", &proved);
    same(&what, &plain, &proved)?;
    same(&format!("{what}: slice"), &expected, &listed)?;
    // After 12, as after success, the code slice holds the code; else it is unchanged.
    let (mut alone, _) = lent(code_length);
    if proved.is_ok() || proved.is_err_and(|r| r.number == 12) {
        let _ = velkunshe::code(&rule(t), unit, &mut alone[code_part]);
    }
    same(&format!("{what}: code slice"), &alone, &made)
}

/// Answers that begin as these do: one of them changed, some left out at the end, more behind, or others altogether.
fn similar(given: &[u32], rng: &mut Rng) -> Vec<u32> {
    let (mut other, k) = (given.to_vec(), rng.below(given.len() + 1));
    match rng.below(4) {
        0 if k < given.len() => other[k] = other[k].wrapping_add(1 + rng.number(2)),
        1 => other.truncate(k),
        2 => other.extend(answers(rng)),
        _ => other = answers(rng),
    }
    other
}

/// The shared beginning of two routes, with the code slice at every length; that slice is what the code call leaves.
fn shared(t: &Tables, unit: u32, first: &[u32], second: &[u32], counts: &mut Counts) -> Result<(), String> {
    let lengths = plain::needed_code(t, unit).map_or(vec![0, MARGIN], around);
    lengths.into_iter().try_for_each(|length| {
        let what = format!("shared of {unit} with {first:?} and {second:?}, code into {length}, plain and proved");
        let (mut made, part) = lent(length);
        let plain = plain::shared(t, unit, first, second, length).map(|entries| entries as u64);
        let proved = velkunshe::shared(&rule(t), unit, first, second, &mut made[part.clone()]).map_err(refusal);
        counts.proved_call("shared", &proved);
        same(&what, &plain, &proved)?;
        let (mut alone, _) = lent(length);
        let _ = velkunshe::code(&rule(t), unit, &mut alone[part]);
        same(&format!("{what}: code slice"), &alone, &made)
    })
}

/// The second engine, with the route slice at every length.
fn walk(t: &Tables, unit: u32, answers: &[u32], counts: &mut Counts) -> Result<(), String> {
    let listed = plain::needed_code(t, unit).map(|_| plain::routes::run(t, unit as usize, answers).list.len());
    listed.map_or(vec![0, MARGIN], around).into_iter().try_for_each(|length| {
        let what = format!("walk of {unit} with {answers:?} into {length}, plain and proved");
        let (mut expected, part) = lent(length);
        let mut out = expected.clone();
        let plain = plain::walk(t, unit, answers, &mut expected[part.clone()]);
        let proved = velkunshe::walk(&rule(t), unit, answers, &mut out[part]).map(shown).map_err(refusal);
        counts.proved_call("walk", &proved);
        same(&what, &plain, &proved)?;
        same(&format!("{what}: slice"), &expected, &out)
    })
}

fn shown(route: velkunshe::Shown) -> Route {
    Route { entries: route.entries, end: route.end.number(), answers_taken: route.taken as usize }
}

/// The code of a unit.
pub fn code_of(t: &Tables, unit: u32) -> Result<Vec<u32>, Refusal> {
    let mut made = vec![UNTOUCHED; MOST_CODE * t.node_count()];
    let length = velkunshe::code(&rule(t), unit, &mut made).map_err(refusal)?;
    made.truncate(length);
    Ok(made)
}

/// The route of a unit.
pub fn route_of(t: &Tables, unit: u32, answers: &[u32]) -> RouteAnswer {
    let route = velkunshe::route_of(&rule(t), unit, answers).map_err(of_error)?;
    Ok((route.nodes, route.end.number(), route.taken as usize))
}
