//! Changes to tables: such as keep most of them well-formed, though no source text yields them, and such as damage.

use plain::reader::OwnedTables;

use crate::rng::Rng;

const NAMES: [&str; 22] = [
    "",
    "",
    "a",
    "b",
    "x",
    "p",
    "q",
    "eval",
    "arguments",
    "await",
    "yield",
    "let",
    "static",
    "public",
    "use strict",
    "__proto__",
    "constructor",
    "evall",
    "awai",
    "\u{e9}",
    "arguments",
    "a",
];

/// Node n's field, by its place in the record.
fn field(t: &mut OwnedTables, n: usize, field: usize) -> &mut u32 {
    &mut t.nodes[10 * n + field]
}

fn count(t: &OwnedTables) -> usize {
    t.nodes.len() / 10
}

fn kind(t: &OwnedTables, n: usize) -> u32 {
    t.nodes[10 * n]
}

fn parent(t: &OwnedTables, n: usize) -> usize {
    t.nodes[10 * n + 1] as usize
}

/// On class elements of a TypeScript module.
const NO_FIXED_NAME: u32 = 16384;

fn is_element(t: &OwnedTables, n: usize) -> bool {
    (28..=30).contains(&kind(t, n))
}

/// The node and what is above it, as far as parents are smaller.
fn path(t: &OwnedTables, n: usize) -> Vec<usize> {
    std::iter::successors(Some(n), |&n| Some(parent(t, n)).filter(|&p| p < n)).collect()
}

fn extra_for(rng: &mut Rng, t: &OwnedTables, kind: u32) -> u32 {
    match kind {
        24 | 35 => rng.number(5),
        26 => rng.number((t.scopes.len() / 3) as u32),
        28 => rng.number(4),
        36 => rng.pick(&[0, 1, 2, 3, 5, 17, 4_294_967_295]),
        44 => rng.number(3),
        55 => rng.number(2),
        _ => 0,
    }
}

/// Kinds that may often stand for one another.
fn kind_like(rng: &mut Rng, kind: u32) -> u32 {
    match kind {
        7..=11 | 13 => rng.pick(&[7, 8, 9, 10, 11, 13, 12]),
        18..=22 => rng.pick(&[18, 19, 20, 21, 22, 5, 14]),
        5 => rng.pick(&[5, 22, 20, 14]),
        28..=30 => rng.pick(&[28, 29, 30]),
        1 | 2 => rng.pick(&[1, 2]),
        23 | 25 | 31..=55 => rng.pick(&[
            23, 25, 31, 32, 33, 34, 35, 36, 37, 38, 39, 40, 41, 42, 43, 44, 45, 46, 47, 48, 49, 50, 51, 52, 55, 24, 53,
            54, 2, 37, 44, 41,
        ]),
        kind => kind,
    }
}

/// An edit after which the tables are often still well-formed.
pub fn gentle(rng: &mut Rng, t: &mut OwnedTables) {
    let n = rng.below(count(t));
    match rng.below(13) {
        0 | 1 => {
            let unfixed = t.source_type == 2 && is_element(t, n) && rng.once_in(2);
            *field(t, n, 6) ^= if unfixed { NO_FIXED_NAME } else { 2 << rng.below(12) };
        }
        2 => {
            let extra = extra_for(rng, t, kind(t, n));
            *field(t, n, 7) = extra;
        }
        3 => {
            let held = (3..=5).contains(&*field(t, n, 2));
            if !held {
                *field(t, n, 2) = rng.pick(&[0, 1, 2, 6, 7, 1, 0, 3]);
            }
        }
        4 | 5 => {
            let kind = kind_like(rng, kind(t, n));
            *field(t, n, 0) = kind;
            let extra = extra_for(rng, t, kind);
            *field(t, n, 7) = extra;
        }
        6 | 7 => rename(rng, t, n),
        8 => {
            // Some span inside the source.
            let length = t.source.len() + 1;
            let (a, b) = (rng.below(length) as u32, rng.below(length) as u32);
            *field(t, n, 3) = a.min(b);
            *field(t, n, 4) = a.max(b);
        }
        9 => {
            let s = rng.below(t.scopes.len() / 3);
            t.scopes[3 * s + 1] = rng.number(32);
        }
        10 => {
            let s = rng.below(t.scopes.len() / 3);
            let node = t.scopes[3 * s + 2] as usize;
            if node < count(t) {
                t.scopes[3 * s + 2] = rng.pick(&path(t, node)) as u32;
            }
        }
        11 => {
            // No name for all that have this one.
            let name = |t: &OwnedTables, n: usize| {
                let (start, length) = (t.nodes[10 * n + 8] as usize, t.nodes[10 * n + 9] as usize);
                t.names.get(start..start + length).map(<[u8]>::to_vec)
            };
            let blank = name(t, n);
            for m in (0..count(t)).filter(|&m| name(t, m) == blank).collect::<Vec<_>>() {
                *field(t, m, 9) = 0;
            }
        }
        _ => {
            // The scope of a node above.
            let from = rng.pick(&path(t, n));
            let scope = *field(t, from, 5);
            *field(t, n, 5) = scope;
        }
    }
}

/// Another name, or that of another node; sometimes one that lies across others.
fn rename(rng: &mut Rng, t: &mut OwnedTables, n: usize) {
    if rng.once_in(2) {
        let from = rng.below(count(t));
        let (start, length) = (*field(t, from, 8), *field(t, from, 9));
        *field(t, n, 8) = start;
        *field(t, n, 9) = length;
        if rng.once_in(8) && u64::from(start) + u64::from(length) < t.names.len() as u64 {
            *field(t, n, 9) += 1;
        }
    } else {
        let name = rng.pick(&NAMES);
        *field(t, n, 8) = t.names.len() as u32;
        *field(t, n, 9) = name.len() as u32;
        t.names.extend(name.bytes());
        if rng.once_in(30) {
            t.names.push(0xff);
            *field(t, n, 9) += 1;
        }
    }
}

/// The children of some nodes in another order.
pub fn reorder(rng: &mut Rng, t: &mut OwnedTables) {
    let mut children = vec![Vec::new(); count(t)];
    (1..count(t)).rev().for_each(|n| children[parent(t, n)].push(n));
    // Old numbers in the new order; what is open lies last child first.
    let (mut order, mut open) = (Vec::new(), vec![0]);
    while let Some(n) = open.pop() {
        order.push(n);
        if rng.once_in(2) {
            for i in (1..children[n].len()).rev() {
                children[n].swap(i, rng.below(i + 1));
            }
        }
        open.extend(&children[n]);
    }
    let mut number = vec![0; order.len()];
    for (new, &old) in order.iter().enumerate() {
        number[old] = new as u32;
    }
    let record = |&old: &usize| t.nodes[10 * old..10 * old + 10].iter().copied();
    let mut nodes: Vec<u32> = order.iter().flat_map(record).collect();
    nodes.chunks_mut(10).for_each(|r| r[1] = number[r[1] as usize]);
    t.nodes = nodes;
    t.scopes.chunks_mut(3).for_each(|s| s[2] = number[s[2] as usize]);
}

/// Scopes of any kind: each node gets one that it may have.
pub fn rescope(rng: &mut Rng, t: &mut OwnedTables) {
    let scopes = 1 + rng.below(6);
    let nodes = count(t);
    let paths: Vec<Vec<usize>> = (0..nodes).map(|n| path(t, n)).collect();
    let functions: Vec<usize> = (0..nodes).filter(|&n| matches!(kind(t, n), 0..=3 | 26..=30)).collect();
    t.scopes.clear();
    for s in 0..scopes {
        let parent = if s == 0 { 0 } else { rng.below(s) as u32 };
        let node = match rng.below(4) {
            _ if s == 0 && !rng.once_in(8) => 0,
            0 => 0,
            1 => rng.below(nodes),
            _ => rng.pick(&functions),
        };
        let flags = rng.pick(&[0, 0, 1, 2, 4, 4, 5, 5, 12, 16, 17, 20, 31, 3]);
        t.scopes.extend([parent, flags, node as u32]);
    }
    for (n, path) in paths.iter().enumerate() {
        let fits = |s: usize| {
            let mut chain = vec![s];
            while chain[chain.len() - 1] != 0 {
                chain.push(t.scopes[3 * chain[chain.len() - 1]] as usize);
            }
            chain.iter().all(|&s| path.contains(&(t.scopes[3 * s + 2] as usize)))
        };
        let fit: Vec<usize> = (0..scopes).filter(|&s| fits(s)).collect();
        // The innermost more often than another.
        let scope = if fit.is_empty() {
            0
        } else if rng.once_in(3) {
            rng.pick(&fit)
        } else {
            fit[fit.len() - 1]
        };
        *field(t, n, 5) = scope as u32;
        if kind(t, n) == 26 {
            // Often the scope of what is around, or one that stands at the class or in it.
            *field(t, n, 7) = if rng.once_in(2) { scope as u32 } else { rng.number(scopes as u32) };
        }
    }
}

/// A chain of new scopes at some Super, at nodes above it in any order; classes above take some of them as theirs.
pub fn tangle(rng: &mut Rng, t: &mut OwnedTables) {
    let supers: Vec<usize> = (0..count(t)).filter(|&n| kind(t, n) == 37).collect();
    if supers.is_empty() || t.scopes[2] != 0 {
        return;
    }
    let sup = rng.pick(&supers);
    let above = path(t, sup);
    let functions: Vec<usize> = above.iter().copied().filter(|&n| matches!(kind(t, n), 0..=3)).collect();
    let first = (t.scopes.len() / 3) as u32;
    let scopes = 1 + rng.number(4);
    for s in 0..scopes {
        let parent = if s == 0 { 0 } else { first + s - 1 };
        let (flags, node) = match rng.below(4) {
            0 => (rng.pick(&[0, 1, 12, 16]), rng.pick(&above)),
            _ => (4, rng.pick(&functions)),
        };
        t.scopes.extend([parent, flags, node as u32]);
    }
    *field(t, sup, 5) = first + scopes - 1;
    for class in above.into_iter().filter(|&n| kind(t, n) == 26).collect::<Vec<_>>() {
        if !rng.once_in(3) {
            *field(t, class, 7) = first + rng.number(scopes);
        }
    }
}

/// An edit that damages more often than not.
pub fn rough(rng: &mut Rng, t: &mut OwnedTables) {
    if t.nodes.len() < 10 || t.scopes.len() < 3 {
        return;
    }
    let n = rng.below(count(t));
    let s = rng.below(t.scopes.len() / 3);
    let any = [0, 1, 2, 3, 31, 32, 55, 56, 255, 8190, 8191, 8192, 16_384, 24_576, 65_535, 4_294_967_295];
    match rng.below(26) {
        0 => {
            let at = rng.below(10);
            *field(t, n, at) = rng.pick(&any);
        }
        1 => *field(t, n, 0) = rng.number(57),
        2 => *field(t, n, 2) = rng.number(9),
        3..=6 => *field(t, n, 2) = 3 + rng.number(3),
        7 => {
            let before = path(t, n.saturating_sub(1));
            *field(t, n, 1) = if rng.once_in(3) { rng.below(count(t)) as u32 } else { rng.pick(&before) as u32 };
        }
        8 => t.scopes[3 * s] = rng.below(s + 2) as u32,
        9 => t.scopes[3 * s + 1] = rng.pick(&[0, 31, 32, 4, 16]),
        10 => t.scopes[3 * s + 2] = rng.below(count(t) + 1) as u32,
        11 => *field(t, n, 5) = rng.below(t.scopes.len() / 3 + 1) as u32,
        12 => *field(t, n, 3) = t.source.len() as u32 + rng.number(2),
        13 => *field(t, n, 9) = t.names.len() as u32 + rng.number(2),
        14..=16 => remove(t, n, rng.once_in(2)),
        17..=20 => {
            let (kind, role) = (rng.number(56), rng.number(8));
            insert(rng, t, n, kind, role);
        }
        21 => {
            let role = *field(t, n, 2);
            let kind = kind(t, n);
            insert(rng, t, n.saturating_sub(1), kind, role);
        }
        // On any node, or on an element that may have it or not as the source type is.
        23 => *field(t, n, 6) ^= NO_FIXED_NAME,
        24 => {
            let elements: Vec<usize> = (0..count(t)).filter(|&n| is_element(t, n)).collect();
            if !elements.is_empty() {
                let element = rng.pick(&elements);
                *field(t, element, 6) ^= NO_FIXED_NAME;
            }
        }
        22 if rng.once_in(2) => t.source_type = rng.number(4),
        22 if rng.once_in(4) => t.nodes.truncate(rng.below(t.nodes.len() + 1)),
        22 if rng.once_in(4) => t.scopes.truncate(rng.below(t.scopes.len() + 1)),
        22 if rng.once_in(2) => t.source.truncate(rng.below(t.source.len() + 1)),
        22 => t.names.truncate(rng.below(t.names.len() + 1)),
        _ => gentle(rng, t),
    }
}

/// Takes out a node, with what is below it or with its children handed up.
fn remove(t: &mut OwnedTables, n: usize, with_all: bool) {
    if n == 0 {
        return;
    }
    let up = parent(t, n);
    let mut end = n + 1;
    while with_all && end < count(t) && parent(t, end) >= n {
        end += 1;
    }
    t.nodes.drain(10 * n..10 * end);
    let moved = |m: usize| {
        if m >= end {
            m - (end - n)
        } else if m >= n {
            up
        } else {
            m
        }
    };
    for i in n..count(t) {
        let parent = moved(parent(t, i)) as u32;
        *field(t, i, 1) = parent;
    }
    for scope in t.scopes.chunks_mut(3).filter(|s| s.len() == 3) {
        scope[2] = moved(scope[2] as usize) as u32;
    }
}

/// A new node behind n: its child, or a child of one above it.
fn insert(rng: &mut Rng, t: &mut OwnedTables, n: usize, kind: u32, role: u32) {
    let up = rng.pick(&path(t, n));
    let (start, scope) = (*field(t, n, 3), *field(t, up, 5));
    let extra = extra_for(rng, t, kind);
    let at = n + 1;
    for i in at..count(t) {
        if parent(t, i) >= at {
            *field(t, i, 1) = (parent(t, i) as u32).saturating_add(1);
        }
    }
    for scope in t.scopes.chunks_mut(3).filter(|s| s.len() == 3) {
        if scope[2] as usize >= at {
            scope[2] = scope[2].saturating_add(1);
        }
    }
    let record = [kind, up as u32, role, start, start, scope, 0, extra, 0, 0];
    t.nodes.splice(10 * at..10 * at, record);
    // What was behind n and below it must not hang below the new node's parent's other branch.
    for i in at + 1..count(t) {
        if parent(t, i) > up && parent(t, i) < at {
            *field(t, i, 1) = up as u32;
        } else if parent(t, i) <= up {
            break;
        }
    }
}

/// A new node without a span or name.
fn node(t: &mut OwnedTables, kind: u32, parent: usize, role: u32) -> usize {
    t.nodes.extend([kind, parent as u32, role, 0, 0, 0, 0, 0, 0, 0]);
    count(t) - 1
}

/// A Try in the Block of a Try, as deep as may be, each with a finally before or behind it, and some with a catch; in the
/// last a way out.
fn tower(rng: &mut Rng, t: &mut OwnedTables) {
    const LEVELS: usize = 255;
    let (mut open, mut at) = (Vec::new(), node(t, 0, 0, 0));
    for _ in 0..LEVELS {
        let tried = node(t, 16, at, 3);
        if rng.once_in(2) {
            finally(rng, t, tried);
        } else {
            open.push(tried);
        }
        at = node(t, 5, tried, 3);
    }
    node(t, rng.pick(&[20, 21, 22]), at, 3);
    for tried in open.into_iter().rev() {
        if rng.once_in(40) {
            let clause = node(t, 17, tried, 4);
            let block = node(t, 5, clause, 3);
            node(t, rng.pick(&[21, 22]), block, 3);
        }
        finally(rng, t, tried);
    }
}

/// In it mostly a statement, now and then a question, or an end of its own.
fn finally(rng: &mut Rng, t: &mut OwnedTables, tried: usize) {
    let block = node(t, 5, tried, 5);
    let kind = rng.pick(&[12, 20, 21, 22, 22, 22, 22, 22, 22, 22, 22, 22]);
    let statement = node(t, kind, block, 3);
    if kind == 12 {
        node(t, 22, statement, 3);
    }
}

/// Sizes at the limits of refusals 1 and 3, and of the ways that wait for a finally.
pub fn huge(rng: &mut Rng) -> OwnedTables {
    let mut t =
        OwnedTables { source_type: 0, nodes: Vec::new(), scopes: vec![0, 2, 0], source: Vec::new(), names: Vec::new() };
    let nodes = 65_535 + rng.below(2);
    match rng.below(10) {
        8 | 9 => tower(rng, &mut t),
        0 => t.source = vec![0; 1_048_576 + rng.below(2)],
        1 => t.names = vec![0; 1_048_576 + rng.below(2)],
        2 => (1..65_535 + rng.number(2)).for_each(|s| t.scopes.extend([s - 1, 0, 0])),
        // As deep as may be, or one deeper.
        3 | 6 | 7 => {
            for n in 0..513 + rng.number(2) {
                t.nodes.extend([if n == 0 { 0 } else { 55 }, n.saturating_sub(1), 0, 0, 0, 0, 0, 0, 0, 0]);
            }
        }
        4 => {
            // Chains of the greatest depth.
            for n in 0..nodes as u32 {
                let (kind, parent) = if n == 0 {
                    (0, 0)
                } else if n % 512 == 1 {
                    (55, 0)
                } else {
                    (55, n - 1)
                };
                t.nodes.extend([kind, parent, 0, 0, 0, 0, 0, 0, 0, 0]);
            }
        }
        _ => {
            for n in 0..nodes {
                t.nodes.extend([if n == 0 { 0 } else { 22 }, 0, if n == 0 { 0 } else { 3 }, 0, 0, 0, 0, 0, 0, 0]);
            }
        }
    }
    if t.nodes.is_empty() {
        t.nodes = vec![0; 10];
    }
    t
}
