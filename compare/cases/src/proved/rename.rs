//! Request 12: the renaming call beside the plain version, and what stays when labels are renamed.

use plain::reader::OwnedTables;
use plain::{Refusal, Tables};
use velkunshe::Rule;

use super::{MARGIN, around, code_of, lent, refusal, rule};
use crate::counts::Counts;
use crate::same;

/// What a byte holds that nothing was written to.
const UNTOUCHED_BYTE: u8 = 0x5a;
/// Each two-letter name but do, if and in, and each one-letter name.
const MOST_LABELS: usize = 26 * 26 - 3 + 26;
/// The longest names slice.
const MOST_BYTES: usize = 1 << 20;

/// Both slices at every length, one at a time.
pub fn compare(t: &Tables, counts: &mut Counts) -> Result<(), String> {
    let needed = match plain::rename(t, &mut [], &mut []) {
        Err(Refusal { number: 20, needed: Some(needed), .. }) => needed as usize,
        _ => return into(t, t.nodes.len(), t.names.len(), counts),
    };
    around(t.nodes.len()).into_iter().try_for_each(|length| into(t, length, needed, counts))?;
    around(needed).into_iter().try_for_each(|length| into(t, t.nodes.len(), length, counts))?;
    if needed <= MOST_BYTES { stays(t) } else { Ok(()) }
}

fn into(t: &Tables, nodes: usize, names: usize, counts: &mut Counts) -> Result<(), String> {
    let what = format!("rename into {nodes} numbers and {names} bytes, plain and proved");
    let (mut expected, part) = lent(nodes);
    let mut written = expected.clone();
    let mut expected_names = vec![UNTOUCHED_BYTE; names + 2 * MARGIN];
    let (mut written_names, names_part) = (expected_names.clone(), MARGIN..MARGIN + names);
    let plain = plain::rename(t, &mut expected[part.clone()], &mut expected_names[names_part.clone()]);
    let proved = velkunshe::rename(&rule(t), &mut written[part], &mut written_names[names_part]).map_err(refusal);
    counts.proved_call("rename", &proved);
    same(&what, &plain, &proved)?;
    same(&format!("{what}: nodes"), &expected, &written)?;
    same(&format!("{what}: names"), &expected_names, &written_names)
}

/// Renaming twice gives the bytes of renaming once; findings and code stay.
fn stays(t: &Tables) -> Result<(), String> {
    let old = rule(t);
    let once = velkunshe::renamed(&old).map_err(|r| format!("renamed: {r}"))?;
    let new: Rule = once.rule(&old);
    same("renamed twice", &velkunshe::renamed(&new), &Ok(once.clone()))?;
    same("findings of the renamed rule", &velkunshe::findings(&new), &velkunshe::findings(&old))?;
    let renamed = Tables { nodes: new.nodes, names: new.names, ..*t };
    let units = (0..t.node_count()).filter(|&n| t.kind(n) <= 3).take(4);
    units
        .into_iter()
        .try_for_each(|n| same("code of the renamed rule", &code_of(&renamed, n as u32), &code_of(t, n as u32)))
}

/// Rules at the limits of 19 and 20: so many labels of different names, and names that lie across one another.
pub fn at_limits(counts: &mut Counts) -> Result<(), String> {
    let counts_of_labels = [MOST_LABELS - 1, MOST_LABELS, MOST_LABELS + 1];
    counts_of_labels.into_iter().try_for_each(|count| compare(&labels(count).lend(), counts))?;
    [MOST_BYTES / 2, MOST_BYTES / 2 + 1, MOST_BYTES].into_iter().try_for_each(|length| {
        let mut t = OwnedTables { names: vec![b'x'; MOST_BYTES], ..labels(0) };
        for _ in 0..2 {
            t.nodes.extend([32, 0, 0, 0, 0, 0, 0, 0, 0, length as u32]);
        }
        compare(&t.lend(), counts)
    })
}

/// A script of labelled statements, each with a name of its own.
fn labels(count: usize) -> OwnedTables {
    let mut t = OwnedTables { scopes: vec![0, 2, 0], nodes: vec![0; 10], ..OwnedTables::default() };
    for i in 0..count {
        let (labeled, name) = (3 * i as u32 + 1, format!("l{i}"));
        t.nodes.extend([6, 0, 3, 0, 0, 0, 0, 0, 0, 0]);
        t.nodes.extend([33, labeled, 6, 0, 0, 0, 0, 0, t.names.len() as u32, name.len() as u32]);
        t.nodes.extend([22, labeled, 3, 0, 0, 0, 0, 0, 0, 0]);
        t.names.extend(name.bytes());
    }
    t
}
