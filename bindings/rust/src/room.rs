//! Vectors that calls write to. They grow by what can be had: without memory there is an error, and no abort.

use crate::{Error, Refusal};

/// So many entries more.
pub fn reserve<T>(out: &mut Vec<T>, more: usize) -> Result<(), Error> {
    out.try_reserve_exact(more).map_err(|_| Error::NoMemory { needed: (out.len() as u64).saturating_add(more as u64) })
}

/// As long as that, with zeros.
pub fn resize<T: Clone + Default>(out: &mut Vec<T>, length: usize) -> Result<(), Error> {
    let more = length.saturating_sub(out.len());
    reserve(out, more)?;
    out.resize(length, T::default());
    Ok(())
}

/// What a call writes, and how many entries that is: to a vector of a first length, and where that is too short to one that is as long as
/// the refusal says.
pub fn with_room<T: Clone + Default, A>(
    first: usize,
    limit: usize,
    mut call: impl FnMut(&mut [T]) -> Result<(usize, A), Refusal>,
) -> Result<(Vec<T>, A), Error> {
    let mut out = Vec::new();
    resize(&mut out, first.min(limit))?;
    let answer = match call(&mut out) {
        Err(Refusal { needed: Some(needed), .. }) => {
            let length = usize::try_from(needed).ok().filter(|&length| length <= limit);
            resize(&mut out, length.ok_or(Error::TooLong { needed, limit })?)?;
            call(&mut out)
        }
        answer => answer,
    };
    let (written, answer) = answer?;
    out.truncate(written);
    Ok((out, answer))
}
