//! A second reading of documents 01 and 02 where the crate's text says nothing: the refusals of the input but for
//! Super's walks, routes, and the code's length. Written another way round than `plain`, to find slips: each rule is a
//! test of one node by lists that are made anew each time, shape is two tables (Blocks, a CatchClause and a Function are
//! counted by kind and role, where `plain` counts by role), a route goes from statement to statement without a stack,
//! where each Try has one place for the way that waits for its finally, and the code's length asks each node of the table
//! whether it is the unit's.

use std::collections::HashMap;

use plain::Tables;

/// The refusal of the input, but for Super's walks.
pub fn refusal(t: &Tables) -> Option<(u32, usize)> {
    let sizes = [(t.nodes.len(), 10), (t.scopes.len(), 3)];
    let too_long = |bytes: &[u8]| bytes.len() > 1 << 20;
    let wrong = |(length, width): (usize, usize)| !(width..=65_535 * width).contains(&length) || length % width != 0;
    if sizes.into_iter().any(wrong) || too_long(t.source) || too_long(t.names) || t.source_type >= 3 {
        return Some((1, 0));
    }
    let (nodes, scopes) = (t.nodes.len() / 10, t.scopes.len() / 3);
    let lowest = |number: u32, range: std::ops::Range<usize>, bad: &dyn Fn(usize) -> bool| {
        range.into_iter().find(|&i| bad(i)).map(|i| (number, i))
    };
    lowest(2, 0..nodes, &|n| !listed(t.source_type, &t.nodes[10 * n..][..10]))
        .or_else(|| lowest(3, 0..nodes, &|n| !in_place(t, n)))
        .or_else(|| lowest(4, 0..nodes, &|n| !inside(t, n)))
        .or_else(|| lowest(5, 0..scopes, &|s| !scope_fits(t, s)))
        .or_else(|| lowest(5, 0..nodes, &|n| !scoped(t, n)))
        .or_else(|| lowest(13, 1..nodes, &|n| !placed(t, n)))
        .or_else(|| lowest(14, 0..nodes, &|n| !counted(t, n)))
}

fn listed(source_type: u32, r: &[u32]) -> bool {
    let most_extra = match r[0] {
        24 | 35 => 4,
        26 | 36 => u32::MAX,
        28 => 3,
        44 => 2,
        55 => 1,
        _ => 0,
    };
    let all_flags = 2 | 4 | 8 | 16 | 32 | 64 | 128 | 256 | 512 | 1024 | 2048 | 4096;
    let own_flag = match (source_type, r[0]) {
        (_, 1) => 8192,
        (2, 28..=30) => 16384,
        _ => 0,
    };
    r[0] < 56 && r[2] < 8 && r[6] & !(all_flags | own_flag) == 0 && r[7] <= most_extra
}

/// A node and all above it, nearest first. Only where those before it are in place.
fn up(t: &Tables, n: usize) -> Vec<usize> {
    let mut list = vec![n];
    while let Some(&last) = list.last().filter(|&&n| n != 0) {
        list.push(t.nodes[10 * last + 1] as usize);
    }
    list
}

fn in_place(t: &Tables, n: usize) -> bool {
    let (kind, parent) = (t.nodes[10 * n], t.nodes[10 * n + 1] as usize);
    if n == 0 {
        return kind == 0 && parent == 0;
    }
    // As node n - 1 is in place, so are all before it.
    kind != 0 && up(t, n - 1).contains(&parent) && up(t, parent).len() <= 512
}

fn inside(t: &Tables, n: usize) -> bool {
    let r: Vec<u64> = t.nodes[10 * n..][..10].iter().map(|&x| u64::from(x)).collect();
    r[3] <= r[4] && r[4] <= t.source.len() as u64 && r[8] + r[9] <= t.names.len() as u64
}

fn scope_fits(t: &Tables, s: usize) -> bool {
    let [parent, flags, _] = t.scopes[3 * s..][..3] else { unreachable!() };
    flags < 32 && (if s == 0 { parent == 0 } else { (parent as usize) < s })
}

fn scoped(t: &Tables, n: usize) -> bool {
    let (kind, scope, extra) = (t.nodes[10 * n], t.nodes[10 * n + 5] as usize, t.nodes[10 * n + 7] as usize);
    let scopes = t.scopes.len() / 3;
    if scope >= scopes || (kind == 26 && extra >= scopes) {
        return false;
    }
    let above = up(t, n);
    let mut s = scope;
    loop {
        if !above.contains(&(t.scopes[3 * s + 2] as usize)) {
            return false;
        }
        if s == 0 {
            return true;
        }
        s = t.scopes[3 * s] as usize;
    }
}

const STATEMENTS: [u32; 21] = [5, 6, 7, 8, 9, 10, 11, 12, 13, 14, 16, 18, 19, 20, 21, 22, 1, 24, 26, 53, 54];

/// May a child of this kind and role stand under this parent?
fn may_stand(parent: u32, kind: u32, role: u32) -> bool {
    let place = match (role, parent) {
        (3, 0 | 3..=13 | 15) => STATEMENTS.contains(&kind),
        (4, 12) => STATEMENTS.contains(&kind),
        (3, 14) => kind == 15,
        (3, 16 | 17) | (5, 16) => kind == 5,
        (4, 16) => kind == 17,
        (4 | 5, _) => false,
        (1, 28) => kind == 1,
        // Elsewhere what only stands as a statement, a case or a catch may not be.
        _ => !(5..=22).contains(&kind),
    };
    place
        && match kind {
            4 => parent == 1 || parent == 2,
            27 => parent == 26,
            3 | 28..=30 => parent == 27,
            _ => true,
        }
}

/// Parent's kinds; the child's kind and role, if they matter; least and most.
type Count = (&'static [u32], Option<u32>, Option<u32>, usize, usize);

const COUNTS: [Count; 13] = [
    (&[6, 7, 8, 9, 10, 11, 12, 13], None, Some(3), 1, 1),
    (&[12], None, Some(4), 0, 1),
    (&[16], Some(5), Some(3), 1, 1),
    (&[16], Some(17), Some(4), 0, 1),
    (&[16], Some(5), Some(5), 0, 1),
    (&[17], Some(5), Some(3), 1, 1),
    (&[6], Some(33), Some(6), 1, 1),
    (&[18, 19], Some(33), Some(6), 0, 1),
    (&[1, 2], Some(4), None, 0, 1),
    (&[26], Some(27), None, 1, 1),
    (&[28, 29, 30], None, Some(2), 1, 1),
    (&[28, 29, 30], None, Some(1), 0, 1),
    (&[28], Some(1), Some(1), 1, 1),
];

fn placed(t: &Tables, n: usize) -> bool {
    let field = |n: usize, i: usize| t.nodes[10 * n + i];
    may_stand(field(field(n, 1) as usize, 0), field(n, 0), field(n, 2))
}

fn counted(t: &Tables, n: usize) -> bool {
    let field = |n: usize, i: usize| t.nodes[10 * n + i];
    let children: Vec<usize> = (1..t.nodes.len() / 10).filter(|&c| field(c, 1) as usize == n).collect();
    let count = |fits: &dyn Fn(usize) -> bool| children.iter().filter(|&&c| fits(c)).count();
    let kind = field(n, 0);
    let counted = COUNTS.iter().filter(|c| c.0.contains(&kind)).all(|&(_, of_kind, with_role, least, most)| {
        let found = count(&|c| of_kind.is_none_or(|k| k == field(c, 0)) && with_role.is_none_or(|r| r == field(c, 2)));
        (least..=most).contains(&found)
    });
    let is_default = |c: usize| field(c, 0) == 15 && field(c, 2) == 3 && field(c, 6) & 4096 != 0;
    let one_default = kind != 14 || count(&is_default) < 2;
    let some_way_out = kind != 16 || count(&|c| field(c, 2) == 4 || field(c, 2) == 5) > 0;
    counted && one_default && some_way_out
}

/// 15: the lowest return of a static block.
pub fn static_return(t: &Tables) -> Option<(u32, usize)> {
    let unit = |n: usize| up(t, n).into_iter().skip(1).find(|&a| t.kind(a) < 4);
    (0..t.node_count()).find(|&n| t.kind(n) == 20 && unit(n).is_some_and(|u| t.kind(u) == 3)).map(|n| (15, n))
}

/// Where a run is: before a statement, at the answer of one, behind one, or at a node on its way out to a goal.
enum At {
    Before(usize),
    Ask(usize),
    Behind(usize),
    Leaving(usize, Goal),
}

/// Where a way out goes: behind a statement, to the answer of a loop, or out of the unit with an end.
#[derive(Clone, Copy, PartialEq, Eq)]
enum Goal {
    Behind(usize),
    Ask(usize),
    End(u32),
}

const FELL_THROUGH: Goal = Goal::End(0);
const RETURNED: Goal = Goal::End(1);
const THROWN: Goal = Goal::End(2);

/// List, end and answers taken, of tables, unit and answers that no refusal turns down.
pub fn route(t: &Tables, unit: usize, answers: &[u32]) -> (Vec<u32>, u32, usize) {
    let (mut list, mut taken) = (Vec::new(), 0);
    let start = match t.kind(unit) {
        1 | 2 => t.children(unit).find(|&c| t.kind(c) == 4),
        _ => Some(unit),
    };
    let Some(start) = start else { return (list, 0, 0) };
    let Some(first) = next_held(t, start, start) else { return (list, 0, 0) };
    // For each Try whose finally runs, the way that waits for its end.
    let mut waiting: HashMap<usize, Goal> = HashMap::new();
    let mut at = At::Before(first);
    loop {
        at = match at {
            At::Before(n) => match t.kind(n) {
                3 | 5 => next_held(t, n, n).map_or(At::Behind(n), At::Before),
                6 | 11 | 16 => At::Before(held(t, n, 3).unwrap()),
                7..=10 | 12 | 14 => At::Ask(n),
                kind => {
                    list.push(n as u32);
                    match kind {
                        13 => At::Before(held(t, n, 3).unwrap()),
                        18 => At::Leaving(n, Goal::Behind(target(t, n))),
                        19 => At::Leaving(n, Goal::Ask(target(t, n))),
                        20 => At::Leaving(n, RETURNED),
                        21 => At::Leaving(n, THROWN),
                        _ => next_static_block(t, n, n).map_or(At::Behind(n), At::Before),
                    }
                }
            },
            At::Ask(n) => {
                let Some(&answer) = answers.get(taken) else { return (list, 3, taken) };
                taken += 1;
                list.push(n as u32);
                let goes_on = answer != 0 || (t.kind(n) == 7 && t.flags(n) & 256 == 0);
                let to = match t.kind(n) {
                    12 => held(t, n, if goes_on { 3 } else { 4 }),
                    14 => picked(t, n, answer).and_then(|case| first_from(t, case)),
                    _ => held(t, n, 3).filter(|_| goes_on),
                };
                to.map_or(At::Behind(n), At::Before)
            }
            At::Behind(n) => {
                let p = above(t, n);
                match t.kind(p) {
                    7..=11 => At::Ask(p),
                    15 => match next_held(t, p, n) {
                        Some(next) => At::Before(next),
                        None => {
                            let later = next_held(t, t.parent(p), p).and_then(|case| first_from(t, case));
                            later.map_or(At::Behind(t.parent(p)), At::Before)
                        }
                    },
                    // The finally is through, and what waited goes on; else the Block of a try or a catch is.
                    16 if t.role(n) == 5 => At::Leaving(p, waiting[&p]),
                    16 => At::Leaving(n, Goal::Behind(p)),
                    17 => At::Leaving(p, Goal::Behind(t.parent(p))),
                    26 | 53 | 54 => next_static_block(t, p, n).map_or(At::Behind(p), At::Before),
                    _ => match next_held(t, p, n).filter(|_| matches!(t.kind(p), 0 | 3..=5)) {
                        Some(next) => At::Before(next),
                        None if p == start => At::Leaving(p, FELL_THROUGH),
                        None => At::Behind(p),
                    },
                }
            }
            At::Leaving(n, Goal::Behind(to)) if to == n => At::Behind(n),
            At::Leaving(n, Goal::Ask(to)) if to == n => At::Ask(n),
            At::Leaving(n, Goal::End(end)) if n == start => return (list, end, taken),
            At::Leaving(n, goal) => {
                let p = above(t, n);
                let catch = held(t, p, 4).filter(|_| t.kind(p) == 16 && t.role(n) == 3 && goal == THROWN);
                let last = held(t, p, 5).filter(|_| t.kind(p) == 16 && t.role(n) != 5);
                match (catch, last) {
                    (Some(clause), _) => At::Before(held(t, clause, 3).unwrap()),
                    (None, Some(block)) => {
                        waiting.insert(p, goal);
                        At::Before(block)
                    }
                    (None, None) => At::Leaving(p, goal),
                }
            }
        }
    }
}

/// The node above; of a static block the statement that it runs after: its class, or the export that declares that.
fn above(t: &Tables, n: usize) -> usize {
    let p = t.parent(n);
    if t.kind(n) != 3 {
        return p;
    }
    let class = t.parent(p);
    if matches!(t.kind(t.parent(class)), 53 | 54) { t.parent(class) } else { class }
}

/// The next static block, behind this node, that runs after a listed statement.
fn next_static_block(t: &Tables, statement: usize, behind: usize) -> Option<usize> {
    let mut below = (statement + 1..t.node_count()).take_while(|&n| t.parent(n) >= statement);
    let exports = matches!(t.kind(statement), 53 | 54);
    below.find(|&n| {
        let runs = t.kind(n) == 3 && n > behind && above(t, n) == statement;
        runs && (!exports || t.flags(t.parent(t.parent(n))) & 32 != 0)
    })
}

/// What a node gives to its unit's code: kinds, roles if they matter, how much. The first row that fits counts.
const LENGTHS: [(&[u32], &[u32], usize); 8] = [
    (&[5], &[5], 5),
    (&[3, 5], &[], 3),
    (&[7, 8, 9, 10, 11], &[], 10),
    (&[12, 14], &[], 7),
    (&[13], &[], 2),
    (&[15], &[], 4),
    (&[18, 19, 20, 21, 22], &[], 5),
    (&[1, 24, 26, 53, 54], &[3, 4], 5),
];

/// Document 02, request 9: the sum over the unit's nodes.
pub fn code_length(t: &Tables, unit: usize) -> usize {
    let fits = |list: &[u32], number: u32| list.is_empty() || list.contains(&number);
    let number = |n: usize| {
        let row = LENGTHS.iter().find(|row| row.0.contains(&t.kind(n)) && fits(row.1, t.role(n)));
        row.filter(|_| !STATEMENTS.contains(&t.kind(n)) || is_statement(t, n)).map_or(0, |row| row.2)
    };
    8 + (unit + 1..t.node_count()).filter(|&n| is_of(t, unit, n)).map(number).sum::<usize>()
}

fn is_statement(t: &Tables, n: usize) -> bool {
    STATEMENTS.contains(&t.kind(n)) && matches!(t.role(n), 3..=5) && matches!(t.kind(t.parent(n)), 0 | 3..=13 | 15..=17)
}

/// On the way up from the node to the unit stands no function, no arrow, and no class but one that is entered.
fn is_of(t: &Tables, unit: usize, n: usize) -> bool {
    let up = up(t, n);
    let Some(at) = up.iter().position(|&a| a == unit) else { return false };
    up[1..at.max(1)].iter().all(|&a| match t.kind(a) {
        1 | 2 => false,
        26 if matches!(t.kind(t.parent(a)), 53 | 54) => t.flags(a) & 32 != 0 && is_statement(t, t.parent(a)),
        26 => is_statement(t, a),
        _ => true,
    })
}

fn held(t: &Tables, n: usize, role: u32) -> Option<usize> {
    t.children(n).find(|&c| t.role(c) == role)
}

/// The next statement, or case, of a holder behind this node.
fn next_held(t: &Tables, holder: usize, behind: usize) -> Option<usize> {
    t.children(holder).find(|&c| c > behind && t.role(c) == 3)
}

/// The first statement of a case or of those after it.
fn first_from(t: &Tables, case: usize) -> Option<usize> {
    let cases = t.children(t.parent(case)).filter(|&c| c >= case && t.kind(c) == 15);
    let mut firsts = cases.filter_map(|c| next_held(t, c, c));
    firsts.next()
}

fn picked(t: &Tables, switch: usize, answer: u32) -> Option<usize> {
    let mut cases = t.children(switch).filter(|&c| t.kind(c) == 15);
    cases.nth(answer as usize).or_else(|| t.children(switch).find(|&c| t.kind(c) == 15 && t.flags(c) & 4096 != 0))
}

/// The target of a jump.
fn target(t: &Tables, n: usize) -> usize {
    let name_of = |n: usize| t.children(n).find(|&c| t.kind(c) == 33 && t.role(c) == 6).map(|l| t.name(l));
    let is_loop = |n: usize| (7..=11).contains(&t.kind(n));
    let fits = |a: usize| match name_of(n) {
        None => is_loop(a) || (t.kind(a) == 14 && t.kind(n) == 18),
        name => t.kind(a) == 6 && name_of(a) == name,
    };
    let mut target = up(t, n).into_iter().find(|&a| fits(a)).expect("a target");
    while t.kind(n) == 19 && t.kind(target) == 6 {
        target = held(t, target, 3).unwrap();
    }
    target
}
