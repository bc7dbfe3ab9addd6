//! How much two routes of one unit share.

use crate::{code_of, Error, Refusal, Rule};

/// Makes the flat code of a unit in `code` and gives the length of the longest beginning that its routes for two lists of answers share.
/// The lists may be of any lengths. No entry past the last one written is changed.
///
/// # Errors
///
/// Those of [`code`](crate::code): refusals 1 to 7, 9 and 13 to 15, and 11 with the length needed where `code` is shorter than the code.
pub fn shared(rule: &Rule, unit: u32, first: &[u32], second: &[u32], code: &mut [u32]) -> Result<u64, Refusal> {
    // SAFETY: pointers and lengths of live slices; `code` is borrowed alone.
    let answer = unsafe {
        on_rule!(
            velkunshe_shared,
            rule,
            unit,
            first.as_ptr(),
            first.len(),
            second.as_ptr(),
            second.len(),
            code.as_mut_ptr(),
            code.len(),
        )
    };
    match answer.refusal {
        0 => Ok(answer.shared),
        number => Err(Refusal::new(number, answer.place, answer.needed)),
    }
}

/// The same with a vector for the code.
///
/// `if (a) b; else c; d;` with the answers yes and no: only the `if` is shared.
///
/// ```
/// use velkunshe::{shared_of, Rule};
///
/// let rule = Rule {
///     source_type: 0,
///     async_bodies: false,
///     nodes: &[
///         0, 0, 0, 0, 21, 0, 0, 0, 0, 0, // 0 Program
///         12, 0, 3, 0, 18, 0, 0, 0, 0, 0, // 1 If
///         32, 1, 0, 4, 5, 0, 0, 0, 0, 1, // 2 a
///         22, 1, 3, 7, 9, 0, 0, 0, 0, 0, // 3 b;
///         22, 1, 4, 15, 17, 0, 0, 0, 0, 0, // 4 c;
///         22, 0, 3, 18, 20, 0, 0, 0, 0, 0, // 5 d;
///     ],
///     scopes: &[0, 2, 0],
///     source: b"if (a) b; else c; d;\n",
///     names: b"a",
/// };
/// assert_eq!(shared_of(&rule, 0, &[1], &[0]), Ok(1));
/// assert_eq!(shared_of(&rule, 0, &[1], &[7, 7]), Ok(3));
/// ```
///
/// # Errors
///
/// Refusals 1 to 7, 9 and 13 to 15; [`Error::NoMemory`] where there is none for the code.
pub fn shared_of(rule: &Rule, unit: u32, first: &[u32], second: &[u32]) -> Result<u64, Error> {
    let mut code = code_of(rule, unit)?;
    Ok(shared(rule, unit, first, second, &mut code)?)
}
