//! Labels renamed to short ones.

use crate::room::{resize, with_room};
use crate::{ffi, Error, Refusal, Rule};

/// Renames the labels of a rule (nodes of kind 33 with role 6) to `a`, `b`, .., `z`, `aa` and so on, without `do`, `if` and `in`, in the
/// order in which their names first appear. Writes a node table to `nodes`, and each node's name in node order to `names`, and gives how
/// many bytes of names there are. Findings don't stop it, and [`Rule::async_bodies`] is not asked. No entry past the last one written is
/// changed.
///
/// # Errors
///
/// Refusals 1 to 6 and 13 to 15; 19 at the first label that the check of reserved words looks for or that has a 700th different name; 20
/// with the length of names needed where `nodes` is shorter than the rule's, `names` is shorter than that, or it is above 1,048,576.
pub fn rename(rule: &Rule, nodes: &mut [u32], names: &mut [u8]) -> Result<usize, Refusal> {
    // SAFETY: pointers and lengths of live slices; `nodes` and `names` are each borrowed alone.
    let answer = unsafe {
        ffi::velkunshe_rename(
            rule.source_type,
            rule.nodes.as_ptr(),
            rule.nodes.len(),
            rule.scopes.as_ptr(),
            rule.scopes.len(),
            rule.source.as_ptr(),
            rule.source.len(),
            rule.names.as_ptr(),
            rule.names.len(),
            nodes.as_mut_ptr(),
            nodes.len(),
            names.as_mut_ptr(),
            names.len(),
        )
    };
    match answer.refusal {
        0 => Ok(answer.names as usize),
        number => Err(Refusal::new(number, answer.place, answer.needed)),
    }
}

/// The most bytes that the names of a table may take.
const MOST_NAMES: usize = 1_048_576;

/// The tables of a rule with its labels renamed; its scopes and its text are as they were.
#[derive(Clone, Debug, PartialEq, Eq)]
pub struct Renamed {
    /// As [`Rule::nodes`].
    pub nodes: Vec<u32>,
    /// As [`Rule::names`].
    pub names: Vec<u8>,
}

impl Renamed {
    /// The renamed rule, with what the rule keeps.
    pub fn rule<'a>(&'a self, rule: &Rule<'a>) -> Rule<'a> {
        Rule { nodes: &self.nodes, names: &self.names, ..*rule }
    }
}

/// The renamed tables, in vectors as long as they need.
///
/// `exit: while (t) break exit;`
///
/// ```
/// use velkunshe::{renamed, Rule};
///
/// let rule = Rule {
///     source_type: 0,
///     async_bodies: false,
///     nodes: &[
///         0, 0, 0, 0, 28, 0, 0, 0, 0, 0, // 0 Program
///         6, 0, 3, 0, 27, 0, 0, 0, 0, 0, // 1 Labeled
///         33, 1, 6, 0, 4, 0, 0, 0, 0, 4, // 2 exit
///         10, 1, 3, 6, 27, 0, 0, 0, 0, 0, // 3 While
///         32, 3, 0, 13, 14, 0, 0, 0, 4, 1, // 4 t
///         18, 3, 3, 16, 27, 0, 0, 0, 0, 0, // 5 Break
///         33, 5, 6, 22, 26, 0, 0, 0, 0, 4, // 6 exit
///     ],
///     scopes: &[0, 2, 0],
///     source: b"exit: while (t) break exit;\n",
///     names: b"exitt",
/// };
/// let once = renamed(&rule).unwrap();
/// assert_eq!(once.names, b"ata");
/// assert_eq!(renamed(&once.rule(&rule)), Ok(once));
/// ```
///
/// # Errors
///
/// Refusals 1 to 6, 13 to 15 and 19; [`Error::TooLong`] where the names are above 1,048,576 bytes; [`Error::NoMemory`] where there is none
/// for the vectors.
pub fn renamed(rule: &Rule) -> Result<Renamed, Error> {
    let mut nodes = Vec::new();
    resize(&mut nodes, rule.nodes.len())?;
    let (names, ()) =
        with_room(rule.names.len(), MOST_NAMES, |out| rename(rule, &mut nodes, out).map(|length| (length, ())))?;
    Ok(Renamed { nodes, names })
}
