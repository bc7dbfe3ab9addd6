//! How the file was made: by the proved library, from the trees of the generator.

use cases::rng::Rng;
use cases::{edits, grammar};

use super::*;
use crate::proved;

/// Of so many trees the one with the most ways through it is taken.
const TRIES: usize = 4;

/// So many trees with their units, as the proved library answers them.
pub fn write(path: &str, trees: u64, seed: u64) {
    let mut rng = Rng::new(seed);
    let made: String = std::iter::from_fn(|| Some(tree(&mut rng)))
        .flatten()
        .take(trees as usize)
        .map(|tree| tree.to_string())
        .collect();
    std::fs::write(path, made).expect("the file");
    check(path);
}

/// A tree with units that stay what they are: document 02 changes the routes of declared classes with static blocks,
/// and turns down a return in such a block.
fn tree(rng: &mut Rng) -> Option<Tree> {
    let size = rng.pick(&[16, 24, 40, 60, 80, 100]);
    let mut tables = (0..TRIES).map(|_| grammar::tables(rng, size, true)).max_by_key(ways).expect("some tries");
    if rng.once_in(2) {
        edits::reorder(rng, &mut tables);
    }
    // As it will be read.
    let bare = Tree { tables, units: Vec::new() };
    let mut tree = read(&bare.to_string()).ok()?.pop()?;
    let t = tree.tables.lend();
    if (0..t.node_count()).any(|n| t.kind(n) == RETURN && nearest_unit(&t, n) == STATIC_BLOCK) {
        return None;
    }
    let numbers = (0..t.node_count()).filter(|&n| is_unit_kind(t.kind(n)) && !enters_static_block(&t, n));
    let units = numbers.filter_map(|n| unit(rng, &t, n as u32)).collect::<Vec<Unit>>();
    tree.units = units;
    Some(tree).filter(|tree| !tree.units.is_empty())
}

/// How many statements jump or hold others, and how many nodes are not needed for that.
fn ways(tables: &OwnedTables) -> i64 {
    let t = tables.lend();
    let jumps = |n: usize| matches!(t.kind(n), BREAK..=THROW) && nearest_unit(&t, n) != STATIC_BLOCK;
    let count = |fits: &dyn Fn(usize) -> bool| (0..t.node_count()).filter(|&n| fits(n)).count() as i64;
    20 * count(&jumps) + 5 * count(&|n| matches!(t.kind(n), BLOCK..=SWITCH_CASE)) - t.node_count() as i64
}

fn nearest_unit(t: &Tables, n: usize) -> u32 {
    t.ancestors(n).map(|a| t.kind(a)).find(|&kind| is_unit_kind(kind)).expect("the Program")
}

/// A class that is a statement, or that an export declares, has a static block.
fn enters_static_block(t: &Tables, n: usize) -> bool {
    t.children(n).any(|c| match t.kind(c) {
        FUNCTION | ARROW => false,
        CLASS => {
            let exported = matches!(t.kind(n), EXPORT_DEFAULT | EXPORT_NAMED) && t.has(c, DECLARATION);
            let body = t.part_of_kind(c, CLASS_BODY).expect("refusal 6");
            (exported || matches!(t.role(c), BODY | ALTERNATE)) && t.part_of_kind(body, STATIC_BLOCK).is_some()
        }
        _ => enters_static_block(t, c),
    })
}

/// Most units that do little are left out.
fn unit(rng: &mut Rng, t: &Tables, number: u32) -> Option<Unit> {
    let code = proved::code_of(t, number).ok()?;
    let long = answers(rng, 10, 20, &[0, 0, 1, 1, 1, 2, 3]);
    let (list, _, taken) = proved::route_of(t, number, &long).ok()?;
    if list.len() < 3 && !rng.once_in(6) {
        return None;
    }
    let mut lists = vec![Vec::new(), answers(rng, 1, 3, &[0, 1, 2])];
    if taken > 0 {
        lists.extend([answers(rng, 2, 6, &[0]), answers(rng, 3, 5, &[1, 2, 7, 65_536, u32::MAX]), long]);
    }
    let runs = lists.into_iter().map(|answers| {
        let (list, end, taken) = proved::route_of(t, number, &answers).expect("a route");
        Run { answers, list, end, taken: taken as u32 }
    });
    Some(Unit { line: 0, number, code, runs: runs.collect() })
}

fn answers(rng: &mut Rng, least: usize, more: usize, from: &[u32]) -> Vec<u32> {
    (0..least + rng.below(more)).map(|_| rng.pick(from)).collect()
}
