//! Document 02, request 12: labels renamed to short ones.

use crate::calls::{well_formed, Refusal};
use crate::refusals::MOST_BYTES;
use crate::tables::*;

/// "a label that the reserved-word check looks for".
const LOOKED_FOR: [&[u8]; 10] = [
    b"await",
    b"implements",
    b"interface",
    b"let",
    b"package",
    b"private",
    b"protected",
    b"public",
    b"static",
    b"yield",
];

/// "labels become a, b, .., z, aa and so on, without do, if and in".
fn short_names() -> impl Iterator<Item = Vec<u8>> {
    let ones = (b'a'..=b'z').map(|c| vec![c]);
    let twos = (b'a'..=b'z').flat_map(|c| (b'a'..=b'z').map(move |d| vec![c, d]));
    ones.chain(twos).filter(|name| ![b"do", b"if", b"in"].iter().any(|word| name == word))
}

/// "a label is a node of kind 33 with role 6"; one without a name is left alone.
fn is_named_label(t: &Tables, n: usize) -> bool {
    t.kind(n) == LABEL_IDENTIFIER && t.role(n) == LABEL && t.name_length(n) > 0
}

/// The different names of labels in order of first appearance, or 19.
fn label_names<'a>(t: &Tables<'a>) -> Result<Vec<&'a [u8]>, Refusal> {
    let most = short_names().count();
    let mut names: Vec<&[u8]> = Vec::new();
    for n in (0..t.node_count()).filter(|&n| is_named_label(t, n)) {
        let is_new = !names.contains(&t.name(n));
        if LOOKED_FOR.contains(&t.name(n)) || (is_new && names.len() == most) {
            return Err(Refusal { number: 19, place: n, needed: None });
        }
        names.extend(is_new.then(|| t.name(n)));
    }
    Ok(names)
}

/// Writes the node table and the names of the renamed tree; gives how many bytes of names.
pub fn rename(t: &Tables, nodes: &mut [u32], names: &mut [u8]) -> Result<usize, Refusal> {
    well_formed(t)?;
    let old = label_names(t)?;
    let short: Vec<Vec<u8>> = short_names().take(old.len()).collect();
    let place_of = |n: usize| old.iter().position(|&name| name == t.name(n)).expect("a label's name");
    let name_of = |n: usize| if is_named_label(t, n) { &short[place_of(n)][..] } else { t.name(n) };
    let needed: u64 = (0..t.node_count()).map(|n| name_of(n).len() as u64).sum();
    if nodes.len() < t.nodes.len() || (names.len() as u64) < needed || needed > MOST_BYTES as u64 {
        return Err(Refusal { number: 20, place: 0, needed: Some(needed) });
    }
    let mut start = 0;
    for (n, record) in nodes.chunks_exact_mut(NODE).take(t.node_count()).enumerate() {
        let name = name_of(n);
        record.copy_from_slice(&t.nodes[NODE * n..][..NODE]);
        record[NODE - 2..].copy_from_slice(&[start as u32, name.len() as u32]);
        names[start..start + name.len()].copy_from_slice(name);
        start += name.len();
    }
    Ok(start)
}
