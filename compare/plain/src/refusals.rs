//! Document 01, "Turned down: the input", and document 02, requests 4 and 5. One function for each number, looked for
//! in the order 1, 2, 3, 4, 5 (scope records, then nodes), 13, 14, 6, 15; the first that applies is given, at its
//! lowest place.
//! Each sentence of document 01's refusal 6 is quoted above the lines of 13 and 14 that read it.

use crate::supers;
use crate::tables::*;

#[derive(Clone, Copy, Debug, PartialEq, Eq)]
pub struct InputRefusal {
    pub number: u32,
    pub place: usize,
}

/// Most records of a table, bytes of source or of names, and steps from node 0 to a node.
pub const MOST_RECORDS: usize = 65_535;
pub const MOST_BYTES: usize = 1_048_576;
pub const MOST_DEPTH: usize = 512;

/// Tables are well-formed exactly if this gives nothing.
///
/// 6: "the walks that the Rust ends in a failure", at the Super. They are looked at only where no child is misplaced
/// and no count is wrong.
pub fn input_refusal(t: &Tables) -> Option<InputRefusal> {
    let at = |number: u32| move |place: usize| InputRefusal { number, place };
    refusal_before_walks(t)
        .or_else(|| supers::lowest_stuck(t).map(at(6)))
        .or_else(|| return_in_static_block(t).map(at(15)))
}

/// 15. "A return whose nearest unit is a static block has no meaning in the standard and is refused .. place the return
///     node, checked after 6."
pub fn return_in_static_block(t: &Tables) -> Option<usize> {
    let nearest_unit = |n: usize| t.ancestors(n).map(|a| t.kind(a)).find(|&kind| is_unit_kind(kind));
    (0..t.node_count()).find(|&n| t.kind(n) == RETURN && nearest_unit(n) == Some(STATIC_BLOCK))
}

/// All but Super's walks and what comes after them.
pub fn refusal_before_walks(t: &Tables) -> Option<InputRefusal> {
    if wrong_sizes(t) {
        return Some(InputRefusal { number: 1, place: 0 });
    }
    let place_of = [unlisted, misplaced, stray, misscoped, misplaced_child, wrong_count];
    [2, 3, 4, 5, 13, 14]
        .into_iter()
        .zip(place_of)
        .find_map(|(number, f)| f(t).map(|place| InputRefusal { number, place }))
}

/// 1. A table is empty or no whole number of records; more than 65,535 records; source or names above 1,048,576
///    bytes; source type above 2 (request 13: "1 now begins at source type 3").
pub fn wrong_sizes(t: &Tables) -> bool {
    let wrong =
        |length: usize, width: usize| length == 0 || !length.is_multiple_of(width) || length / width > MOST_RECORDS;
    wrong(t.nodes.len(), NODE)
        || wrong(t.scopes.len(), SCOPE)
        || t.source.len() > MOST_BYTES
        || t.names.len() > MOST_BYTES
        || t.source_type > TYPESCRIPT
}

/// 2. A node's kind, role, flag sum or extra not listed.
pub fn unlisted(t: &Tables) -> Option<usize> {
    // The twelve flags are the powers of two from 2 to 4096; their sums are the even numbers up to 8190. A Function
    // may have 8192 besides, a class element of a TypeScript module 16384.
    let listed_flags = |kind: u32, flags: u32| {
        let own = match kind {
            FUNCTION => ASYNC_OR_GENERATOR,
            METHOD_DEFINITION..=ACCESSOR_PROPERTY if t.is_typescript() => NO_FIXED_NAME,
            _ => 0,
        };
        (flags & !own).is_multiple_of(2) && flags & !own <= 8190
    };
    // A class's scope is tested by 5; the length of a string's value may be any number.
    let listed_extra = |kind: u32, extra: u32| match kind {
        VARIABLE_DECLARATION | NUMERIC_LITERAL => extra <= 4,
        CLASS | STRING_LITERAL => true,
        METHOD_DEFINITION => extra <= 3,
        OBJECT_PROPERTY => extra <= 2,
        ANYTHING_ELSE => extra <= 1,
        _ => extra == 0,
    };
    (0..t.node_count()).find(|&n| {
        t.kind(n) > ANYTHING_ELSE
            || t.role(n) > LEFT
            || !listed_flags(t.kind(n), t.flags(n))
            || !listed_extra(t.kind(n), t.extra(n))
    })
}

/// 3. Node 0 is no Program or has a parent other than 0; Program elsewhere; a later node's parent is neither the
///    node before it nor an ancestor of that; depth above 512 (node 0 has depth 0).
pub fn misplaced(t: &Tables) -> Option<usize> {
    if t.kind(0) != PROGRAM || t.parent(0) != 0 {
        return Some(0);
    }
    // The node before and its ancestors, outermost first.
    let mut path = vec![0];
    for n in 1..t.node_count() {
        while path.last().is_some_and(|&a| a != t.parent(n)) {
            path.pop();
        }
        // The parent's depth is one less than the path's length, the node's own depth is that length.
        if t.kind(n) == PROGRAM || path.is_empty() || path.len() > MOST_DEPTH {
            return Some(n);
        }
        path.push(n);
    }
    None
}

/// 4. Span start after its end, or a span or name outside its bytes.
pub fn stray(t: &Tables) -> Option<usize> {
    (0..t.node_count()).find(|&n| {
        let (start, end) = t.span(n);
        // A nameless node's name, too, starts within the names or at their end.
        let name_end = u64::from(t.name_start(n)) + u64::from(t.name_length(n));
        start > end || end as usize > t.source.len() || name_end > t.names.len() as u64
    })
}

/// 5. A scope that is missing (kind 26's extra included); scope flags above 31; scope 0's parent not 0; another's
///    parent not smaller; a scope's node that is neither the using node nor its ancestor, for any scope in that node's
///    chain. All scope records come before any node.
pub fn misscoped(t: &Tables) -> Option<usize> {
    let scopes = t.scope_count();
    let broken =
        |s: usize| t.scope_flags(s) > 31 || (if s == 0 { t.scope_parent(0) != 0 } else { t.scope_parent(s) >= s });
    if let Some(s) = (0..scopes).find(|&s| broken(s)) {
        return Some(s);
    }
    let ends = subtree_ends(t);
    let at_or_above = |a: usize, n: usize| a <= n && n < ends[a];
    // A class's own scope need only exist: the chain is that of the node's scope field.
    (0..t.node_count()).find(|&n| {
        t.scope(n) >= scopes
            || (t.kind(n) == CLASS && t.extra(n) as usize >= scopes)
            || t.scope_ancestors(t.scope(n)).any(|s| !at_or_above(t.scope_node(s), n))
    })
}

/// For each node the first node after its subtree.
fn subtree_ends(t: &Tables) -> Vec<usize> {
    let mut ends: Vec<usize> = (1..=t.node_count()).collect();
    for n in (1..t.node_count()).rev() {
        let p = t.parent(n);
        ends[p] = ends[p].max(ends[n]);
    }
    ends
}

/// 13. "A node under a parent that may not hold it, or of a kind or role that this parent doesn't take".
pub fn misplaced_child(t: &Tables) -> Option<usize> {
    (1..t.node_count()).find(|&n| is_misplaced(t, n))
}

/// 14. "A child missing or too many .., at the parent".
pub fn wrong_count(t: &Tables) -> Option<usize> {
    (0..t.node_count()).find(|&n| has_wrong_count(t, n))
}

/// "Kinds 5-14, 16 and 18-22": always statements.
fn is_statement(kind: u32) -> bool {
    matches!(kind, BLOCK..=SWITCH | TRY | BREAK..=OTHER_STATEMENT)
}

/// "Kinds 1, 24, 26, 53 and 54 may, and are statements then."
pub fn may_be_statement(kind: u32) -> bool {
    matches!(kind, FUNCTION | VARIABLE_DECLARATION | CLASS | EXPORT_DEFAULT | EXPORT_NAMED)
}

/// "a holder: 0, 3-13, 15-17".
pub fn is_holder(kind: u32) -> bool {
    matches!(kind, PROGRAM | STATIC_BLOCK..=WITH | SWITCH_CASE..=CATCH_CLAUSE)
}

/// The node stands where it may not, or with a role that its parent doesn't take.
fn is_misplaced(t: &Tables, n: usize) -> bool {
    let (kind, role, parent) = (t.kind(n), t.role(n), t.kind(t.parent(n)));
    let held = (BODY..=FINALLY).contains(&role);
    // "Kinds 5-14, 16 and 18-22 have role 3, 4 or 5 under a holder: 0, 3-13, 15-17."
    if is_statement(kind) && !(held && is_holder(parent)) {
        return true;
    }
    // "Kinds 1, 24, 26, 53 and 54 may, and are statements then. No other kind has these roles there, but 17 under
    // Try." There: under a holder. FunctionBody may so have role 3 under a Function, which is no holder.
    if held
        && is_holder(parent)
        && !is_statement(kind)
        && !may_be_statement(kind)
        && !(kind == CATCH_CLAUSE && parent == TRY)
    {
        return true;
    }
    // "(If one and at most one with role 4;) else only Try holds roles 4 and 5." Read of every parent, holder or not.
    if (role == ALTERNATE && parent != IF && parent != TRY) || (role == FINALLY && parent != TRY) {
        return true;
    }
    // "Switch holds only SwitchCase with role 3": of its children with roles 3 to 5; others, as the discriminant, are
    // not held. "A SwitchCase stands only there": under Switch and with role 3.
    if (parent == SWITCH && held && kind != SWITCH_CASE) || (kind == SWITCH_CASE && !(parent == SWITCH && role == BODY))
    {
        return true;
    }
    // "Try holds one Block with role 3, at most one CatchClause with role 4, one Block with role 5": and nothing else
    // with these roles.
    if parent == TRY && held && kind != (if role == ALTERNATE { CATCH_CLAUSE } else { BLOCK }) {
        return true;
    }
    // "28 one Function as value".
    if parent == METHOD_DEFINITION && role == VALUE && kind != FUNCTION {
        return true;
    }
    // "CatchClause, only there, holds one Block": there, under Try and with role 4; it holds nothing but a Block.
    if (kind == CATCH_CLAUSE && !(parent == TRY && role == ALTERNATE))
        || (parent == CATCH_CLAUSE && held && kind != BLOCK)
    {
        return true;
    }
    // "FunctionBody stands only under kind 1 or 2", with any role.
    if kind == FUNCTION_BODY && parent != FUNCTION && parent != ARROW {
        return true;
    }
    // "Class has one ClassBody, found only there."
    if kind == CLASS_BODY && parent != CLASS {
        return true;
    }
    // "Kinds 28-30 and 3 stand only under ClassBody", with any role.
    matches!(kind, METHOD_DEFINITION..=ACCESSOR_PROPERTY | STATIC_BLOCK) && parent != CLASS_BODY
}

/// The node has too few or too many children of some sort.
fn has_wrong_count(t: &Tables, n: usize) -> bool {
    let count = |fits: &dyn Fn(usize) -> bool| t.children(n).filter(|&c| fits(c)).count();
    let with_role = |role: u32| count(&|c| t.role(c) == role);
    let of_kind = |kind: u32| count(&|c| t.kind(c) == kind);
    let with_both = |kind: u32, role: u32| count(&|c| t.kind(c) == kind && t.role(c) == role);
    match t.kind(n) {
        // "Kinds 6-11 and 13 hold exactly one statement with role 3": exactly one child with role 3; that it is a
        // statement is the rule on roles. "Labeled has one label of kind 33": of kind 33 and with role 6.
        LABELED => with_role(BODY) != 1 || with_both(LABEL_IDENTIFIER, LABEL) != 1,
        FOR..=DO_WHILE | WITH => with_role(BODY) != 1,
        // "If one and at most one with role 4".
        IF => with_role(BODY) != 1 || with_role(ALTERNATE) > 1,
        // "Switch holds only SwitchCase with role 3, at most one with flag 4096": of those with role 3.
        SWITCH => count(&|c| t.kind(c) == SWITCH_CASE && t.role(c) == BODY && t.has(c, IS_DEFAULT)) > 1,
        // "Try holds one Block with role 3, at most one CatchClause with role 4, one Block with role 5, and at least
        // one of the last two": counted by role, as a child of another kind is misplaced; "at most" goes for the second
        // Block too.
        TRY => {
            let (catches, finals) = (with_role(ALTERNATE), with_role(FINALLY));
            with_role(BODY) != 1 || catches > 1 || finals > 1 || catches + finals == 0
        }
        // "holds one Block": with role 3, since only If and Try hold role 4 or 5.
        CATCH_CLAUSE => with_role(BODY) != 1,
        // "Break and Continue at most one."
        BREAK | CONTINUE => with_both(LABEL_IDENTIFIER, LABEL) > 1,
        // "at most one each", with any role.
        FUNCTION | ARROW => of_kind(FUNCTION_BODY) > 1,
        // "Class has one ClassBody".
        CLASS => of_kind(CLASS_BODY) != 1,
        // "28-30 have one key and at most one value, 28 one Function as value": a value of another kind is misplaced.
        METHOD_DEFINITION => with_role(KEY) != 1 || with_role(VALUE) != 1,
        PROPERTY_DEFINITION | ACCESSOR_PROPERTY => with_role(KEY) != 1 || with_role(VALUE) > 1,
        _ => false,
    }
}
