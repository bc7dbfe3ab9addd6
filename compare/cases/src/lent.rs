//! Code slices that a caller lends (request 10): codes of any form, with jumps through jumps, rings and what no path
//! reaches, and numbers that 18 refuses.

use cases::rng::Rng;
use plain::machine::{Instruction, Jump};

use crate::same;

use Instruction::*;

/// What the instructions are and where they lead.
#[derive(Clone, Copy, PartialEq, Eq)]
enum Form {
    /// Any instructions, anywhere.
    Mixed,
    /// Mostly jumps, so that they lead through one another and around in rings.
    Jumps,
    /// In front jumps that only jumps behind them lead to: they are dropped, but were on the way of those that stay.
    WaysBack,
}

/// A code, or numbers that are none. Most are short.
pub fn code(rng: &mut Rng) -> Vec<u32> {
    let most = if rng.once_in(100) { 2_000 } else { rng.pick(&[3, 6, 12, 24, 60]) };
    let count = 1 + rng.below(most);
    match rng.below(8) {
        0 => (0..count).map(|_| small(rng)).collect(),
        1 | 2 => damaged(valid(count, rng), rng),
        _ => valid(count, rng),
    }
}

/// Mostly numbers that begin an instruction.
fn small(rng: &mut Rng) -> u32 {
    if rng.once_in(20) { u32::MAX - rng.number(9) } else { rng.number(9) }
}

/// One number changed, or cut off, or one more.
fn damaged(mut code: Vec<u32>, rng: &mut Rng) -> Vec<u32> {
    let at = rng.below(code.len());
    match rng.below(4) {
        0 => code.truncate(at),
        1 => code.insert(at, small(rng)),
        2 => code[at] = rng.number(code.len() as u32 + 2),
        _ => code[at] = small(rng),
    }
    code
}

/// A code of so many instructions.
fn valid(count: usize, rng: &mut Rng) -> Vec<u32> {
    let form = rng.pick(&[Form::Mixed, Form::Jumps, Form::WaysBack]);
    let opcodes: Vec<u32> = (0..count).map(|i| opcode(form, i, count, rng)).collect();
    let mut places = vec![0];
    for &opcode in &opcodes {
        places.push(places[places.len() - 1] + instruction(opcode, [0, 0], rng).length() as u32);
    }
    let numbers = |(i, &opcode): (usize, &u32)| {
        let targets = [(); 2].map(|()| places[leads_to(form, i, count, rng)]);
        instruction(opcode, targets, rng).numbers()
    };
    opcodes.iter().enumerate().flat_map(numbers).collect()
}

fn opcode(form: Form, i: usize, count: usize, rng: &mut Rng) -> u32 {
    let opcode = match form {
        Form::Mixed => 1 + rng.number(7),
        Form::Jumps => rng.pick(&[1, 2, 2, 2, 2, 2, 3, 7, 7]),
        // The first instruction jumps over the others in front.
        Form::WaysBack if i == 0 || (i < count / 2 && !rng.once_in(8)) => 2,
        Form::WaysBack => rng.pick(&[1, 2, 2, 3, 3, 3, 4, 7]),
    };
    // The last one doesn't run on.
    if i + 1 == count && matches!(opcode, 1 | 5) { 6 } else { opcode }
}

/// Which instruction is named by the i-th.
fn leads_to(form: Form, i: usize, count: usize, rng: &mut Rng) -> usize {
    let (any, next) = (rng.below(count), (i + 1).min(count - 1));
    let near = (i + rng.below(5)).saturating_sub(2).min(count - 1);
    let (front, behind) = (rng.below(count.div_ceil(2)), count / 2 + rng.below(count.div_ceil(2)));
    match form {
        Form::WaysBack if i == 0 => behind,
        Form::WaysBack if i < count / 2 => rng.pick(&[front, behind, behind]),
        Form::WaysBack => rng.pick(&[front, front, near, behind, next]),
        _ => rng.pick(&[near, any, next, 0]),
    }
}

fn instruction(opcode: u32, [first, second]: [u32; 2], rng: &mut Rng) -> Instruction {
    let node = if rng.once_in(20) { u32::MAX } else { rng.number(90) };
    let jump = |to, rng: &mut Rng| Jump { to, depth: rng.pick(&[0, 0, 0, 1, 1, 2, 3, 9, u32::MAX]) };
    match opcode {
        1 => List(node),
        2 => Leave(jump(first, rng)),
        3 => Ask { node, yes: first, no: second },
        4 => Select { node, case: first, other: second },
        5 => Open(first),
        6 => End(rng.pick(&[0, 1, 2, 3, 9])),
        _ => Case(first, jump(second, rng)),
    }
}

/// What the plain version says of it, by itself: both calls refuse it alike, or it becomes no longer, is no code that
/// is refused, stays under a second pass, and what was behind it stays.
pub fn compare(code: &[u32], answers: &[u32]) -> Result<(), String> {
    let mut shorter = code.to_vec();
    let length = match plain::shorten(&mut shorter) {
        Err(refusal) => {
            same("numbers that are no code", &shorter, &code.to_vec())?;
            return same("18 of a run", &plain::run(code, answers, &mut []), &Err(refusal));
        }
        Ok(length) => length,
    };
    same(&format!("what is behind the shorter code of {code:?}"), &&shorter[length..], &&code[length..])?;
    let mut again = shorter[..length].to_vec();
    same(&format!("length of a second pass over {code:?}"), &plain::shorten(&mut again), &Ok(length))?;
    same(&format!("a second pass over {code:?}"), &&again[..], &&shorter[..length])
}
