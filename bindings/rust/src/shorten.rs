//! A code made shorter.

use crate::{ffi, Refusal};

/// What [`shorten`] says of a code.
#[derive(Clone, Copy, Debug, PartialEq, Eq)]
pub struct Shorter {
    /// How many numbers the shorter code has; they stand from the start of the slice on.
    pub length: usize,
    /// How many numbers fewer that is.
    pub freed: usize,
}

/// Makes a code shorter where it stands: sends each of its jumps on to its last target, drops what no path reaches and closes up the room.
/// Of the code of a unit, as [`code`](crate::code) writes it, the routes stay for all answers ([`run`](crate::run)). Any other code may be
/// lent, of any length; of that this is not promised. Behind [`Shorter::length`] the slice is as it was, and a second pass over the shorter
/// code changes nothing.
///
/// # Errors
///
/// Refusal 18, where the numbers are no code, at the lowest offset where an entry or an instruction begins that is at fault, or at 0 where
/// there is none. The slice is then as it was.
pub fn shorten(code: &mut [u32]) -> Result<Shorter, Refusal> {
    // SAFETY: pointer and length of a live slice, which is borrowed alone.
    let answer = unsafe { ffi::velkunshe_shorten(code.as_mut_ptr(), code.len()) };
    match answer.refusal {
        0 => Ok(Shorter { length: answer.length as usize, freed: answer.freed as usize }),
        number => Err(Refusal::new(number, answer.place, 0)),
    }
}

/// The shorter code, in the vector of the old one.
///
/// ```
/// use velkunshe::{run_of, shortened, End};
///
/// // A jump to the jump at 5, which lists nothing; 3 is not reached.
/// let code = vec![2, 5, 0, 1, 7, 2, 8, 0, 1, 9, 6, 0];
/// let shorter = shortened(code.clone()).unwrap();
/// assert_eq!(shorter, [2, 3, 0, 1, 9, 6, 0]);
///
/// let route = run_of(&shorter, &[]).unwrap();
/// assert_eq!((&route.nodes[..], route.end), (&[9][..], End::FellThrough));
/// assert_eq!(run_of(&code, &[]), Ok(route));
/// ```
///
/// # Errors
///
/// Refusal 18.
pub fn shortened(mut code: Vec<u32>) -> Result<Vec<u32>, Refusal> {
    let Shorter { length, .. } = shorten(&mut code)?;
    code.truncate(length);
    Ok(code)
}
