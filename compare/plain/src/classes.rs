//! class/table.rs and class/builder.rs: the classes of a tree, their elements and their private references.

use crate::tables::*;
use std::collections::{HashMap, HashSet};

#[derive(Clone, Copy, Debug, PartialEq, Eq)]
pub enum ElementKind {
    Accessor,
    Property,
    Method,
    Getter,
    Setter,
}

impl ElementKind {
    pub fn is_setter_or_getter(self) -> bool {
        matches!(self, ElementKind::Getter | ElementKind::Setter)
    }
}

#[derive(Clone, Copy, Debug)]
pub struct Element<'a> {
    pub name: &'a [u8],
    pub span: Span,
    pub is_private: bool,
    pub is_static: bool,
    pub kind: ElementKind,
}

#[derive(Clone, Debug)]
pub struct Class<'a> {
    /// The Class node.
    pub node: usize,
    /// The class around it.
    pub parent: Option<usize>,
    pub elements: Vec<Element<'a>>,
    /// The names of its private elements.
    pub privates: HashSet<&'a [u8]>,
    /// The PrivateIdentifiers used in it, in node order.
    pub references: Vec<usize>,
}

pub struct Classes<'a> {
    /// In order of declaration, that is of their ClassBody nodes.
    pub classes: Vec<Class<'a>>,
    /// For each node the class of the nearest ClassBody at or above it. A Class, its heritage and its decorators
    /// are so outside of it.
    pub current: Vec<Option<usize>>,
    /// For each Class node the class that it declares.
    pub declared: HashMap<usize, usize>,
}

impl<'a> Classes<'a> {
    pub fn of(t: &Tables<'a>) -> Classes<'a> {
        let mut all = Classes { classes: Vec::new(), current: Vec::new(), declared: HashMap::new() };
        for n in 0..t.node_count() {
            let outer = if n == 0 { None } else { all.current[t.parent(n)] };
            if t.kind(n) == CLASS_BODY {
                all.current.push(Some(all.classes.len()));
                let elements: Vec<Element> = t.children(n).filter_map(|c| element(t, c)).collect();
                let privates = elements.iter().filter(|e| e.is_private).map(|e| e.name).collect();
                let node = t.parent(n);
                all.declared.entry(node).or_insert(all.classes.len());
                all.classes.push(Class { node, parent: outer, elements, privates, references: Vec::new() });
            } else {
                all.current.push(outer);
            }
            // Only what stands under a member expression or `#x in y` is a reference; keys are not.
            if let (PRIVATE_IDENTIFIER, Some(class)) = (t.kind(n), all.current[n]) {
                if matches!(t.kind(t.parent(n)), OTHER_MEMBER | PRIVATE_FIELD | PRIVATE_IN) {
                    all.classes[class].references.push(n);
                }
            }
        }
        all
    }

    /// The class that a Class node declares.
    pub fn declared_by(&self, node: usize) -> Option<usize> {
        self.declared.get(&node).copied()
    }

    /// The class and those around it, nearest first.
    pub fn ancestors(&self, class: usize) -> impl Iterator<Item = usize> + '_ {
        std::iter::successors(Some(class), |&c| self.classes[c].parent)
    }

    pub fn has_private_definition(&self, class: usize, name: &[u8]) -> bool {
        self.classes[class].privates.contains(name)
    }
}

/// Constructors, bodiless methods and elements without a name enter no element.
fn element<'a>(t: &Tables<'a>, n: usize) -> Option<Element<'a>> {
    let kind = match (t.kind(n), t.extra(n)) {
        (METHOD_DEFINITION, 0) => return None,
        (METHOD_DEFINITION, _) if !has_body(t, n) => return None,
        (METHOD_DEFINITION, 1) => ElementKind::Method,
        (METHOD_DEFINITION, 2) => ElementKind::Getter,
        (METHOD_DEFINITION, _) => ElementKind::Setter,
        (PROPERTY_DEFINITION, _) => ElementKind::Property,
        (ACCESSOR_PROPERTY, _) => ElementKind::Accessor,
        _ => return None,
    };
    let key = t.part(n, KEY)?;
    let name = element_name(t, n)?;
    Some(Element { name, span: t.span(key), is_private: t.has(n, PRIVATE_KEY), is_static: t.has(n, IS_STATIC), kind })
}

/// The name of a class element. In a TypeScript module flag 16384 alone says that it has none: "without it, length 0 is
/// here the empty name".
pub fn element_name<'a>(t: &Tables<'a>, n: usize) -> Option<&'a [u8]> {
    if t.is_typescript() {
        t.part(n, KEY).filter(|_| !t.has(n, NO_FIXED_NAME)).map(|key| t.name(key))
    } else {
        key_name(t, n)
    }
}

/// The name that its key gives an element or a property: an IdentifierReference is the expression of a computed key and gives none.
pub fn key_name<'a>(t: &Tables<'a>, n: usize) -> Option<&'a [u8]> {
    let key = t.part(n, KEY)?;
    (t.kind(key) != IDENTIFIER_REFERENCE && !t.name(key).is_empty()).then(|| t.name(key))
}

/// The Function of a method has a FunctionBody.
pub fn has_body(t: &Tables, method: usize) -> bool {
    t.part(method, VALUE).is_some_and(|f| t.part_of_kind(f, FUNCTION_BODY).is_some())
}
