//! The tables of a rule, made from nodes by name.

use std::error::Error;
use std::fmt;
use std::ops::Range;

use crate::{check, Flags, Kind, Reason, Refusal, Role, Rule, ScopeFlags, SourceType, NODE, SCOPE};

/// The most nodes, and the most scopes.
const MOST_RECORDS: usize = 65_535;
/// The most bytes of the source, and of the names.
const MOST_BYTES: usize = 1_048_576;
/// How deep a node may stand below the program.
const MOST_DEPTH: usize = 512;

// Where a number stands in a node's and in a scope's record.
const PARENT: usize = 1;
const EXTRA: usize = 7;
const SCOPE_FLAGS: usize = 1;
const SCOPE_NODE: usize = 2;

/// A node of a [`Builder`].
#[derive(Clone, Copy, Debug, PartialEq, Eq, PartialOrd, Ord, Hash)]
pub struct NodeId(u32);

/// A scope of a [`Builder`].
#[derive(Clone, Copy, Debug, PartialEq, Eq, PartialOrd, Ord, Hash)]
pub struct ScopeId(u32);

impl NodeId {
    /// Its number in the tables, in findings and in routes.
    pub const fn number(self) -> u32 {
        self.0
    }
}

impl ScopeId {
    /// Its number in the tables.
    pub const fn number(self) -> u32 {
        self.0
    }
}

/// A node that is to be added.
#[derive(Clone, Debug)]
pub struct Node<'a> {
    kind: Kind,
    role: Role,
    span: Range<usize>,
    scope: ScopeId,
    flags: Flags,
    extra: u32,
    name: &'a str,
}

impl<'a> Node<'a> {
    /// What it is, what it is to its parent, its bytes in the source, and the scope in which it stands.
    pub const fn new(kind: Kind, role: Role, span: Range<usize>, scope: ScopeId) -> Node<'a> {
        Node { kind, role, span, scope, flags: Flags::NONE, extra: 0, name: "" }
    }

    /// With these flags.
    pub const fn flags(mut self, flags: Flags) -> Node<'a> {
        self.flags = flags;
        self
    }

    /// With this extra number ([`extras`](crate::extras)). That of a class is set where its scope is made.
    pub const fn extra(mut self, extra: u32) -> Node<'a> {
        self.extra = extra;
        self
    }

    /// With this name, of a private name without the `#`.
    pub const fn name(mut self, name: &'a str) -> Node<'a> {
        self.name = name;
        self
    }
}

/// Why a node or a scope was not added.
#[non_exhaustive]
#[derive(Clone, Copy, Debug, PartialEq, Eq)]
pub enum BuildError {
    /// The source, or all names together, are above 1,048,576 bytes.
    TextTooLong,
    /// There are 65,535 nodes, or scopes, already.
    TooMany,
    /// The node or the scope is none of this builder.
    NoSuchId,
    /// The parent is neither the node that was added last nor one around it.
    NotInPreorder,
    /// It would stand deeper than 512 below the program.
    TooDeep,
    /// The span ends before it starts, or behind the source.
    Span,
    /// The scope was made at a node that is not around this one.
    ScopeElsewhere,
    /// There is no memory for it.
    NoMemory,
}

impl fmt::Display for BuildError {
    fn fmt(&self, f: &mut fmt::Formatter<'_>) -> fmt::Result {
        f.write_str(match self {
            BuildError::TextTooLong => "the source or the names are above 1,048,576 bytes",
            BuildError::TooMany => "there are 65,535 nodes or scopes already",
            BuildError::NoSuchId => "the node or the scope is none of this builder",
            BuildError::NotInPreorder => "the parent is neither the node that was added last nor one around it",
            BuildError::TooDeep => "the node would stand deeper than 512 below the program",
            BuildError::Span => "the span ends before it starts, or behind the source",
            BuildError::ScopeElsewhere => "the scope was made at a node that is not around this one",
            BuildError::NoMemory => "there is no memory for it",
        })
    }
}

impl Error for BuildError {}

/// Makes the tables of a rule. Nodes are added in the order in which they stand in the text, a parent before its children; what no tree can be
/// is told at once, and the rest (which kinds a parent takes, which flags there are) by [`rule`](Builder::rule), which asks the library.
///
/// `a: { continue a; }`:
///
/// ```
/// use velkunshe::{findings, Builder, Code, Kind, Node, Role, ScopeFlags, SourceType};
///
/// # fn main() -> Result<(), Box<dyn std::error::Error>> {
/// let mut rule = Builder::new(SourceType::Script, "a: { continue a; }", ScopeFlags::NONE)?;
/// let (program, top) = (Builder::PROGRAM, Builder::TOP);
/// let labeled = rule.add(program, Node::new(Kind::Labeled, Role::Held, 0..18, top))?;
/// rule.add(labeled, Node::new(Kind::LabelIdentifier, Role::Label, 0..1, top).name("a"))?;
/// let block = rule.add(labeled, Node::new(Kind::Block, Role::Held, 3..18, top))?;
/// let inner = rule.scope(top, ScopeFlags::NONE, block)?;
/// let jump = rule.add(block, Node::new(Kind::Continue, Role::Held, 5..16, inner))?;
/// rule.add(jump, Node::new(Kind::LabelIdentifier, Role::Label, 14..15, inner).name("a"))?;
///
/// let found = findings(&rule.rule()?)?;
/// assert_eq!((found[0].code, found[0].node), (Code::InvalidLabelNonIteration, jump.number()));
/// # Ok(())
/// # }
/// ```
#[derive(Clone, Debug)]
pub struct Builder {
    source_type: SourceType,
    async_bodies: bool,
    nodes: Vec<u32>,
    scopes: Vec<u32>,
    source: Vec<u8>,
    names: Vec<u8>,
    /// The node that was added last and those around it, from the program on.
    path: Vec<u32>,
}

impl Builder {
    /// The program, which is there from the start.
    pub const PROGRAM: NodeId = NodeId(0);
    /// The scope of the program, which is there from the start.
    pub const TOP: ScopeId = ScopeId(0);

    /// A rule with the program and its scope alone. That scope is strict in a module, and where `more` says so: a script that begins with
    /// "use strict".
    ///
    /// # Errors
    ///
    /// [`BuildError::TextTooLong`], [`BuildError::NoMemory`].
    pub fn new(source_type: SourceType, source: &str, more: ScopeFlags) -> Result<Builder, BuildError> {
        if source.len() > MOST_BYTES {
            return Err(BuildError::TextTooLong);
        }
        let mut text = Vec::new();
        append(&mut text, source.as_bytes())?;
        let strict = if source_type == SourceType::Script { ScopeFlags::NONE } else { ScopeFlags::STRICT };
        let mut builder = Builder {
            source_type,
            async_bodies: false,
            nodes: Vec::new(),
            scopes: Vec::new(),
            source: text,
            names: Vec::new(),
            path: Vec::new(),
        };
        append(&mut builder.nodes, &[0, 0, 0, 0, source.len() as u32, 0, 0, 0, 0, 0])?;
        append(&mut builder.scopes, &[0, (ScopeFlags::TOP | strict | more).number(), 0])?;
        append(&mut builder.path, &[0])?;
        Ok(builder)
    }

    /// Whether async functions and generators as bodies are found ([`Rule::async_bodies`]); they are not at first.
    pub fn async_bodies(&mut self, found: bool) {
        self.async_bodies = found;
    }

    /// Adds a node under a parent, as its last child so far.
    ///
    /// # Errors
    ///
    /// All of [`BuildError`]; nothing is added then.
    pub fn add(&mut self, parent: NodeId, node: Node) -> Result<NodeId, BuildError> {
        let id = next(&self.nodes, NODE)?;
        let depth = self.depth_under(parent, &node)?;
        let name_start = if node.name.is_empty() { 0 } else { self.names.len() };
        let record = [
            node.kind.number(),
            parent.0,
            node.role.number(),
            node.span.start as u32,
            node.span.end as u32,
            node.scope.0,
            node.flags.number(),
            node.extra,
            name_start as u32,
            node.name.len() as u32,
        ];
        // Room for the name and the way up first, so that all is added or nothing.
        room(&mut self.names, node.name.len())?;
        room(&mut self.path, 1)?;
        append(&mut self.nodes, &record)?;
        self.names.extend_from_slice(node.name.as_bytes());
        self.path.truncate(depth);
        self.path.push(id);
        Ok(NodeId(id))
    }

    /// How deep a node stands under this parent, where it may.
    fn depth_under(&self, parent: NodeId, node: &Node) -> Result<usize, BuildError> {
        let depth = 1 + self.path.binary_search(&parent.0).map_err(|_| self.not_around(parent))?;
        if depth > MOST_DEPTH {
            return Err(BuildError::TooDeep);
        }
        if node.span.start > node.span.end || node.span.end > self.source.len() {
            return Err(BuildError::Span);
        }
        let at = self.node_of(node.scope)?;
        if self.path[..depth].binary_search(&at).is_err() {
            return Err(BuildError::ScopeElsewhere);
        }
        if node.name.len() > MOST_BYTES - self.names.len() {
            return Err(BuildError::TextTooLong);
        }
        Ok(depth)
    }

    /// Makes a scope at a node, for the nodes below it. It is strict where the outer one is. At a class it is the class's own.
    ///
    /// # Errors
    ///
    /// [`BuildError::NoSuchId`], [`BuildError::ScopeElsewhere`] where the outer scope's node is not around this one or the node itself,
    /// [`BuildError::TooMany`], [`BuildError::NoMemory`].
    pub fn scope(&mut self, outer: ScopeId, flags: ScopeFlags, node: NodeId) -> Result<ScopeId, BuildError> {
        let id = next(&self.scopes, SCOPE)?;
        let above = self.node_of(outer)?;
        if node.0 as usize >= self.nodes.len() / NODE {
            return Err(BuildError::NoSuchId);
        }
        let mut around = node.0;
        // A parent's number is smaller, and the program is its own parent.
        while around > above {
            around = self.nodes[around as usize * NODE + PARENT];
        }
        if around != above {
            return Err(BuildError::ScopeElsewhere);
        }
        let inherited = self.scopes[outer.0 as usize * SCOPE + SCOPE_FLAGS] & ScopeFlags::STRICT.number();
        append(&mut self.scopes, &[outer.0, flags.number() | inherited, node.0])?;
        let record = &mut self.nodes[node.0 as usize * NODE..][..NODE];
        if record[0] == Kind::Class.number() {
            record[EXTRA] = id;
        }
        Ok(ScopeId(id))
    }

    /// The tables, as they are.
    pub fn tables(&self) -> Rule<'_> {
        Rule {
            source_type: self.source_type.number(),
            async_bodies: self.async_bodies,
            nodes: &self.nodes,
            scopes: &self.scopes,
            source: &self.source,
            names: &self.names,
        }
    }

    /// The tables, if they are well-formed.
    ///
    /// # Errors
    ///
    /// Refusals 1 to 6 and 13 to 15, as [`check`](crate::check()) gives them.
    pub fn rule(&self) -> Result<Rule<'_>, Refusal> {
        let rule = self.tables();
        match check(&rule, &mut []) {
            // It has findings, so its tables were not turned down.
            Ok(_) | Err(Refusal { reason: Reason::FindingsSlice, .. }) => Ok(rule),
            Err(refusal) => Err(refusal),
        }
    }

    /// Why there is no place for a node under this one.
    fn not_around(&self, parent: NodeId) -> BuildError {
        if parent.0 as usize >= self.nodes.len() / NODE {
            return BuildError::NoSuchId;
        }
        BuildError::NotInPreorder
    }

    /// The node at which a scope was made.
    fn node_of(&self, scope: ScopeId) -> Result<u32, BuildError> {
        self.scopes.get(scope.0 as usize * SCOPE + SCOPE_NODE).copied().ok_or(BuildError::NoSuchId)
    }
}

/// The number of the record that comes next.
fn next(table: &[u32], record: usize) -> Result<u32, BuildError> {
    let count = table.len() / record;
    if count >= MOST_RECORDS {
        return Err(BuildError::TooMany);
    }
    Ok(count as u32)
}

/// Room for so many entries more; a vector grows by a part of its length, so that one entry after the other stays cheap.
fn room<T>(table: &mut Vec<T>, more: usize) -> Result<(), BuildError> {
    table.try_reserve(more).map_err(|_| BuildError::NoMemory)
}

/// Copies entries to the end, where there is memory for them.
fn append<T: Copy>(table: &mut Vec<T>, more: &[T]) -> Result<(), BuildError> {
    room(table, more.len())?;
    table.extend_from_slice(more);
    Ok(())
}
