//! Document 02, request 10: a pass over finished code that makes it shorter, and the call that runs a lent code slice.

use std::collections::{BTreeMap, BTreeSet};

use crate::calls::{Refusal, Route};
use crate::machine::{run_whole, Instruction, Jump};

use Instruction::*;

/// The instructions by the place where they begin, and the place of the first entry that is none, if there is one: an
/// unknown number, or an instruction that the slice's end cuts off.
fn instructions(code: &[u32]) -> (BTreeMap<usize, Instruction>, Option<usize>) {
    let (mut list, mut at) = (BTreeMap::new(), 0);
    while at < code.len() {
        let read = Instruction::read(code, at).filter(|i| at + i.length() <= code.len());
        let Some(instruction) = read else { return (list, Some(at)) };
        list.insert(at, instruction);
        at += instruction.length();
    }
    (list, None)
}

/// Whether an instruction of the code begins there.
pub fn begins(code: &[u32], place: u32) -> bool {
    instructions(code).0.contains_key(&(place as usize))
}

/// The places that an instruction names. 0, for what waits and for no case, is where the code begins.
fn targets(instruction: Instruction) -> Vec<u32> {
    match instruction {
        List(_) | End(_) => vec![],
        Leave(jump) => vec![jump.to],
        Ask { yes, no, .. } => vec![yes, no],
        Select { case, other, .. } => vec![case, other],
        Open(block) => vec![block],
        Case(next, jump) => vec![next, jump.to],
    }
}

fn runs_on(instruction: Instruction) -> bool {
    matches!(instruction, List(_) | Open(_))
}

/// 18. "An entry that is no instruction, a target where none begins, a last instruction that runs on, an empty slice",
///     at the lowest offset.
pub fn first_fault(code: &[u32]) -> Option<usize> {
    if code.is_empty() {
        return Some(0);
    }
    let (list, none) = instructions(code);
    let wrong = |at: usize, i: Instruction| {
        targets(i).into_iter().any(|t| !list.contains_key(&(t as usize)))
            || (runs_on(i) && at + i.length() == code.len())
    };
    list.iter().find(|&(&at, &i)| wrong(at, i)).map(|(&at, _)| at).or(none)
}

/// "Sends each jump to its last target, drops what no path reaches and closes up the room": gives the shorter code's
/// length, which stands in the slice's beginning; what is behind it stays.
pub fn shorten(code: &mut [u32]) -> Result<usize, Refusal> {
    if let Some(place) = first_fault(code) {
        return Err(Refusal { number: 18, place, needed: None });
    }
    let shorter = shorter(code);
    code[..shorter.len()].copy_from_slice(&shorter);
    Ok(shorter.len())
}

fn shorter(code: &[u32]) -> Vec<u32> {
    let old = instructions(code).0;
    let sent: BTreeMap<usize, Instruction> = old.iter().map(|(&at, &i)| (at, sent_on(&old, i))).collect();
    let reached = reached(&sent);
    let (mut moved, mut room) = (BTreeMap::new(), 0);
    for &at in &reached {
        moved.insert(at as u32, room as u32);
        room += sent[&at].length();
    }
    reached.iter().flat_map(|at| relocated(sent[at], &moved).numbers()).collect()
}

/// A jump is a LEAVE or a CASE's own jump. A branch of an answer and a case's link have no depth, and stay.
fn sent_on(all: &BTreeMap<usize, Instruction>, instruction: Instruction) -> Instruction {
    match instruction {
        Leave(jump) => Leave(last_target(all, jump)),
        Case(next, jump) => Case(next, last_target(all, jump)),
        other => other,
    }
}

/// The last target, with the least depth on the way; "jumps that form or lead into a ring stay". What waits is no
/// target.
fn last_target(all: &BTreeMap<usize, Instruction>, first: Jump) -> Jump {
    let (mut jump, mut seen) = (first, BTreeSet::new());
    while jump.to != 0 {
        let (Leave(next) | Case(_, next)) = all[&(jump.to as usize)] else { break };
        if !seen.insert(jump.to) {
            return first;
        }
        jump = Jump { to: next.to, depth: next.depth.min(jump.depth) };
    }
    jump
}

/// "A path goes to the next instruction where one runs on, and to each target that one names."
fn reached(all: &BTreeMap<usize, Instruction>) -> BTreeSet<usize> {
    let (mut found, mut open) = (BTreeSet::new(), vec![0]);
    while let Some(at) = open.pop() {
        if found.insert(at) {
            let instruction = all[&at];
            open.extend(targets(instruction).into_iter().map(|t| t as usize));
            open.extend(runs_on(instruction).then_some(at + instruction.length()));
        }
    }
    found
}

fn relocated(instruction: Instruction, moved: &BTreeMap<u32, u32>) -> Instruction {
    let to = |place: u32| moved[&place];
    let jump = |j: Jump| Jump { to: to(j.to), ..j };
    match instruction {
        List(_) | End(_) => instruction,
        Leave(j) => Leave(jump(j)),
        Ask { node, yes, no } => Ask { node, yes: to(yes), no: to(no) },
        Select { node, case, other } => Select { node, case: to(case), other: to(other) },
        Open(block) => Open(to(block)),
        Case(next, j) => Case(to(next), jump(j)),
    }
}

/// Runs a lent code slice and writes the route: "It gives 18, then 12."
pub fn run(code: &[u32], answers: &[u32], out: &mut [u32]) -> Result<Route, Refusal> {
    if let Some(place) = first_fault(code) {
        return Err(Refusal { number: 18, place, needed: None });
    }
    let ran = run_whole(code, answers);
    Route::write(&ran.list, ran.end, ran.taken, out)
}
