//! The early errors of a rule.

use std::fmt;

use crate::room::{reserve, with_room};
use crate::{Code, Context, Error, Refusal, Rule, FINDING};

/// One early error.
#[derive(Clone, Copy, Debug, PartialEq, Eq)]
pub struct Finding {
    /// What is wrong.
    pub code: Code,
    /// The node that raises it.
    pub node: u32,
    /// A byte range of the source. In tables that no text gives it may reach some bytes behind the source; [`Rule::part`] gives its text.
    pub first: (u32, u32),
    /// A second one, or 0,0. For codes 9 and 11 at a string: the backslash of the escape at fault and the byte after it.
    pub second: (u32, u32),
    /// In what.
    pub context: Context,
}

impl Finding {
    /// A finding from its seven numbers.
    pub fn from_numbers(n: [u32; FINDING]) -> Finding {
        Finding {
            code: Code::from_number(n[0]),
            node: n[1],
            first: (n[2], n[3]),
            second: (n[4], n[5]),
            context: Context::from_number(n[6]),
        }
    }
}

impl fmt::Display for Finding {
    fn fmt(&self, f: &mut fmt::Formatter<'_>) -> fmt::Result {
        write!(f, "{} [{}] at node {}", self.code, self.code.number(), self.node)?;
        match self.context {
            Context::None => Ok(()),
            context => write!(f, ", {context}"),
        }
    }
}

/// Checks a rule: writes its findings from the start of `out`, seven numbers each, and gives how many there are. No entry past the last
/// one written is changed.
///
/// # Errors
///
/// Refusals 1 to 6 and 13 to 15, and 10 with the length needed where `out` is shorter than 7 × findings.
pub fn check(rule: &Rule, out: &mut [u32]) -> Result<usize, Refusal> {
    // SAFETY: pointers and lengths of live slices; `out` is borrowed alone.
    let answer = unsafe { on_rule!(velkunshe_check, rule, out.as_mut_ptr(), out.len()) };
    match answer.refusal {
        0 => Ok(answer.findings as usize),
        number => Err(Refusal::new(number, answer.place, answer.needed)),
    }
}

/// Room for some findings, for a first try.
const FIRST_FINDINGS: usize = 16 * FINDING;

/// The findings of a rule, in a vector as long as they need.
///
/// # Errors
///
/// Refusals 1 to 6 and 13 to 15; [`Error::NoMemory`] where there is none for the vector.
pub fn findings(rule: &Rule) -> Result<Vec<Finding>, Error> {
    let (numbers, count) =
        with_room(FIRST_FINDINGS, usize::MAX, |out| check(rule, out).map(|count| (count * FINDING, count)))?;
    let mut found = Vec::new();
    reserve(&mut found, count)?;
    // No more than there is room for.
    found.extend(
        numbers.chunks_exact(FINDING).map(|n| Finding::from_numbers([n[0], n[1], n[2], n[3], n[4], n[5], n[6]])),
    );
    Ok(found)
}
