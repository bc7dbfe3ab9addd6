//! Request 10: lent code slices made shorter and run, beside the plain version.

use plain::Refusal;
use plain::machine::{Instruction, Jump};
use velkunshe::Shorter;

use super::{around, lent, refusal, shown};
use crate::counts::Counts;
use crate::same;

use Instruction::*;

/// How many numbers of a code are printed where something differs.
const TOLD: usize = 200;
/// Ifs of the longest code, 12 numbers each: about as many as the code of a unit can have.
const MOST_IFS: u32 = 54_612;

/// The shorter code and the room freed, every entry of the slice and around it, and the runs before and after.
pub fn compare(code: &[u32], answers: &[u32], counts: &mut Counts) -> Result<(), String> {
    let what = format!("shorten {:?} (of {} numbers), plain and proved", &code[..code.len().min(TOLD)], code.len());
    let (mut expected, part) = lent(code.len());
    expected[part.clone()].copy_from_slice(code);
    let mut left = expected.clone();
    let plain = plain::shorten(&mut expected[part.clone()]);
    let proved = velkunshe::shorten(&mut left[part.clone()]).map_err(refusal);
    counts.proved_call("shorten", &proved);
    same(&what, &plain.map(|length| Shorter { length, freed: code.len() - length }), &proved)?;
    if expected != left {
        let at = expected.iter().zip(&left).position(|(a, b)| a != b);
        return Err(format!("{what}: the slice differs at {at:?} (its first entry is at {})", part.start));
    }
    run(code, answers, counts)?;
    plain.map_or(Ok(()), |length| run(&expected[part][..length], answers, counts))
}

/// The route slice at every length.
fn run(code: &[u32], answers: &[u32], counts: &mut Counts) -> Result<(), String> {
    let listed = match plain::run(code, answers, &mut []) {
        Err(Refusal { needed: Some(needed), .. }) => needed as usize,
        _ => 0,
    };
    around(listed).into_iter().try_for_each(|length| {
        let told = &code[..code.len().min(TOLD)];
        let what = format!("run of {told:?} with {answers:?} into {length}, plain and proved");
        let (mut expected, part) = lent(length);
        let mut out = expected.clone();
        let plain = plain::run(code, answers, &mut expected[part.clone()]);
        let proved = velkunshe::run(code, answers, &mut out[part]).map(shown).map_err(refusal);
        counts.proved_call("run", &proved);
        same(&what, &plain, &proved)?;
        same(&format!("{what}: slice"), &expected, &out)
    })
}

/// A code as long as that of a unit can be: ifs in a row, whose every jump goes to the next of them.
pub fn at_limits(counts: &mut Counts) -> Result<(), String> {
    let one = |i: u32| {
        let (at, next) = (12 * i, Jump { to: 12 * (i + 1), depth: 0 });
        [Ask { node: i, yes: at + 7, no: at + 4 }, Leave(next), List(i), Leave(next)]
    };
    let ifs = (0..MOST_IFS).flat_map(one).chain([End(0)]);
    let code: Vec<u32> = ifs.flat_map(Instruction::numbers).collect();
    compare(&code, &vec![1; MOST_IFS as usize], counts)
}
