//! `check_super` of checker/javascript.rs, and the walks of it that refusal 6 turns down.

use crate::classes::Classes;
use crate::tables::*;

/// What the walk from a Super comes to.
#[derive(Clone, Copy, Debug, PartialEq, Eq)]
pub enum Walk {
    Legal,
    /// `super()` or `super.x` where it may not be.
    Illegal,
    /// `super()` in the constructor of this Class node, which has no heritage.
    WithoutHeritage(usize),
    /// The Rust ends in `unreachable!` or a failed `unwrap`.
    Stuck,
}

/// The lowest Super whose walk is stuck. Asked only of tables whose shape is right.
pub fn lowest_stuck(t: &Tables) -> Option<usize> {
    if !(0..t.node_count()).any(|n| t.kind(n) == SUPER) {
        return None;
    }
    let classes = Classes::of(t);
    (0..t.node_count()).find(|&n| t.kind(n) == SUPER && walk(t, &classes, n) == Walk::Stuck)
}

/// The Call or New that the Super is directly in.
pub fn super_call(t: &Tables, sup: usize) -> Option<usize> {
    let parent = t.parent(sup);
    matches!(t.kind(parent), CALL | NEW).then_some(parent)
}

/// Up the scopes from the Super's own, with the class around it.
pub fn walk(t: &Tables, classes: &Classes, sup: usize) -> Walk {
    let is_call = super_call(t, sup).is_some();
    let mut class = classes.current[sup];
    let mut previous_scope = None;
    for scope in t.scope_ancestors(t.scope(sup)) {
        let flags = t.scope_flags(scope);
        if class.is_some_and(|c| t.extra(classes.classes[c].node) as usize == scope) {
            // The class's own scope: a value of a field or accessor, or else a key or decorator.
            let start = previous_scope.map_or(sup, |s| t.scope_node(s));
            match element_above(t, start) {
                None => return Walk::Stuck,
                Some(InElement::Value) => return if is_call { Walk::Illegal } else { Walk::Legal },
                // It depends on what is around the class.
                Some(InElement::Elsewhere) => {
                    previous_scope = Some(scope);
                    class = class.and_then(|c| classes.classes[c].parent);
                }
            }
        } else if flags & IN_STATIC_BLOCK != 0 {
            return if is_call { Walk::Illegal } else { Walk::Legal };
        } else if flags & IN_FUNCTION == 0 || flags & IN_ARROW != 0 {
            previous_scope = Some(scope);
        } else {
            return in_function(t, classes, class, t.scope_node(scope), sup, is_call);
        }
    }
    Walk::Illegal
}

enum InElement {
    Value,
    Elsewhere,
}

/// The nearest class element strictly above a node, and whether the way to it comes from its value. A method's value
/// is a function, so that its own scope was met before; a way to a method counts as from elsewhere in any case.
fn element_above(t: &Tables, start: usize) -> Option<InElement> {
    let mut previous = start;
    for a in t.ancestors(start) {
        match t.kind(a) {
            PROPERTY_DEFINITION | ACCESSOR_PROPERTY if t.part(a, VALUE) == Some(previous) => {
                return Some(InElement::Value)
            }
            PROPERTY_DEFINITION | ACCESSOR_PROPERTY | METHOD_DEFINITION => return Some(InElement::Elsewhere),
            _ => previous = a,
        }
    }
    None
}

/// The nearest function that is no arrow: is it the value of a method, getter, setter or constructor?
fn in_function(
    t: &Tables,
    classes: &Classes,
    class: Option<usize>,
    function: usize,
    sup: usize,
    is_call: bool,
) -> Walk {
    debug_assert!(function == sup || t.ancestors(sup).any(|a| a == function));
    if function == 0 {
        // Nothing is above node 0: `func_kinds.next().unwrap()`.
        return Walk::Stuck;
    }
    let parent = t.parent(function);
    let is_value = t.part(parent, VALUE) == Some(function);
    match t.kind(parent) {
        OBJECT_PROPERTY => {
            let is_method = t.has(parent, IS_METHOD) || t.extra(parent) != 0;
            if is_method && is_value && !is_call {
                Walk::Legal
            } else {
                Walk::Illegal
            }
        }
        METHOD_DEFINITION if is_value && !is_call => Walk::Legal,
        METHOD_DEFINITION if is_value && t.extra(parent) == 0 => {
            // Without a class the Rust looks at class 0, the first that is declared, on the way up or not.
            let node = classes.classes[class.unwrap_or(0)].node;
            if !t.ancestors(sup).any(|a| a == node) {
                Walk::Stuck
            } else if t.has(node, HAS_HERITAGE) {
                Walk::Legal
            } else {
                Walk::WithoutHeritage(node)
            }
        }
        _ => Walk::Illegal,
    }
}
