//! Document 01, "Tables": the records of nodes and scopes, read by name.

/// A span, or 0,0 where there is none.
pub type Span = (u32, u32);

pub const NO_SPAN: Span = (0, 0);

/// Numbers per node record and per scope record.
pub const NODE: usize = 10;
pub const SCOPE: usize = 3;

// Kinds.
pub const PROGRAM: u32 = 0;
pub const FUNCTION: u32 = 1;
pub const ARROW: u32 = 2;
pub const STATIC_BLOCK: u32 = 3;
pub const FUNCTION_BODY: u32 = 4;
pub const BLOCK: u32 = 5;
pub const LABELED: u32 = 6;
pub const FOR: u32 = 7;
pub const FOR_IN: u32 = 8;
pub const FOR_OF: u32 = 9;
pub const WHILE: u32 = 10;
pub const DO_WHILE: u32 = 11;
pub const IF: u32 = 12;
pub const WITH: u32 = 13;
pub const SWITCH: u32 = 14;
pub const SWITCH_CASE: u32 = 15;
pub const TRY: u32 = 16;
pub const CATCH_CLAUSE: u32 = 17;
pub const BREAK: u32 = 18;
pub const CONTINUE: u32 = 19;
pub const RETURN: u32 = 20;
pub const THROW: u32 = 21;
pub const OTHER_STATEMENT: u32 = 22;
pub const DIRECTIVE: u32 = 23;
pub const VARIABLE_DECLARATION: u32 = 24;
pub const VARIABLE_DECLARATOR: u32 = 25;
pub const CLASS: u32 = 26;
pub const CLASS_BODY: u32 = 27;
pub const METHOD_DEFINITION: u32 = 28;
pub const PROPERTY_DEFINITION: u32 = 29;
pub const ACCESSOR_PROPERTY: u32 = 30;
pub const BINDING_IDENTIFIER: u32 = 31;
pub const IDENTIFIER_REFERENCE: u32 = 32;
pub const LABEL_IDENTIFIER: u32 = 33;
pub const PRIVATE_IDENTIFIER: u32 = 34;
pub const NUMERIC_LITERAL: u32 = 35;
pub const STRING_LITERAL: u32 = 36;
pub const SUPER: u32 = 37;
pub const CALL: u32 = 38;
pub const NEW: u32 = 39;
pub const OTHER_MEMBER: u32 = 40;
pub const PRIVATE_FIELD: u32 = 41;
pub const PRIVATE_IN: u32 = 42;
pub const OBJECT: u32 = 43;
pub const OBJECT_PROPERTY: u32 = 44;
pub const UNARY: u32 = 45;
pub const CHAIN: u32 = 46;
pub const AWAIT: u32 = 47;
pub const YIELD: u32 = 48;
pub const FORMAL_PARAMETER: u32 = 49;
pub const FORMAL_PARAMETER_REST: u32 = 50;
pub const BINDING_REST_ELEMENT: u32 = 51;
pub const JSX_ATTRIBUTE: u32 = 52;
pub const EXPORT_DEFAULT: u32 = 53;
pub const EXPORT_NAMED: u32 = 54;
pub const ANYTHING_ELSE: u32 = 55;

// Roles.
pub const OTHER: u32 = 0;
pub const VALUE: u32 = 1;
pub const KEY: u32 = 2;
pub const BODY: u32 = 3;
pub const ALTERNATE: u32 = 4;
pub const FINALLY: u32 = 5;
pub const LABEL: u32 = 6;
pub const LEFT: u32 = 7;

// Flags of a node.
pub const IS_STATIC: u32 = 2;
pub const PRIVATE_KEY: u32 = 4;
pub const WRITTEN_TO: u32 = 8;
pub const FOR_AWAIT: u32 = 16;
pub const DECLARATION: u32 = 32;
pub const HAS_HERITAGE: u32 = 64;
pub const IS_METHOD: u32 = 128;
/// On a `for`: has a test.
pub const HAS_INITIALISER: u32 = 256;
pub const PLAIN_NAME: u32 = 512;
pub const SIMPLE_PARAMETERS: u32 = 1024;
pub const IS_DELETE: u32 = 2048;
pub const IS_DEFAULT: u32 = 4096;
/// On a Function only.
pub const ASYNC_OR_GENERATOR: u32 = 8192;
/// On class elements (kinds 28 to 30) of a TypeScript module only.
pub const NO_FIXED_NAME: u32 = 16384;

// Source types.
pub const MODULE: u32 = 1;
pub const TYPESCRIPT: u32 = 2;

// Flags of a scope.
pub const STRICT: u32 = 1;
pub const TOP: u32 = 2;
pub const IN_FUNCTION: u32 = 4;
pub const IN_ARROW: u32 = 8;
pub const IN_STATIC_BLOCK: u32 = 16;

/// The lent tables. Only `input_refusal` may be asked about tables of any kind; all else wants well-formed ones.
#[derive(Clone, Copy, Debug)]
pub struct Tables<'a> {
    /// 0 script, 1 module, 2 TypeScript module.
    pub source_type: u32,
    /// Whether async functions and generators as bodies are found: code 34, which the Rust leaves to its parser.
    pub async_bodies: bool,
    pub nodes: &'a [u32],
    pub scopes: &'a [u32],
    pub source: &'a [u8],
    pub names: &'a [u8],
}

impl<'a> Tables<'a> {
    pub fn node_count(&self) -> usize {
        self.nodes.len() / NODE
    }

    pub fn scope_count(&self) -> usize {
        self.scopes.len() / SCOPE
    }

    pub fn kind(&self, n: usize) -> u32 {
        self.nodes[NODE * n]
    }

    pub fn parent(&self, n: usize) -> usize {
        self.nodes[NODE * n + 1] as usize
    }

    pub fn role(&self, n: usize) -> u32 {
        self.nodes[NODE * n + 2]
    }

    pub fn span(&self, n: usize) -> Span {
        (self.nodes[NODE * n + 3], self.nodes[NODE * n + 4])
    }

    pub fn scope(&self, n: usize) -> usize {
        self.nodes[NODE * n + 5] as usize
    }

    pub fn flags(&self, n: usize) -> u32 {
        self.nodes[NODE * n + 6]
    }

    pub fn has(&self, n: usize, flag: u32) -> bool {
        self.flags(n) & flag != 0
    }

    pub fn extra(&self, n: usize) -> u32 {
        self.nodes[NODE * n + 7]
    }

    pub fn name_start(&self, n: usize) -> u32 {
        self.nodes[NODE * n + 8]
    }

    pub fn name_length(&self, n: usize) -> u32 {
        self.nodes[NODE * n + 9]
    }

    pub fn name(&self, n: usize) -> &'a [u8] {
        let start = self.name_start(n) as usize;
        &self.names[start..start + self.name_length(n) as usize]
    }

    pub fn text(&self, (start, end): Span) -> &'a [u8] {
        &self.source[start as usize..end as usize]
    }

    pub fn scope_parent(&self, s: usize) -> usize {
        self.scopes[SCOPE * s] as usize
    }

    pub fn scope_flags(&self, s: usize) -> u32 {
        self.scopes[SCOPE * s + 1]
    }

    pub fn scope_node(&self, s: usize) -> usize {
        self.scopes[SCOPE * s + 2] as usize
    }

    /// The scope and those around it, nearest first; the last is scope 0.
    pub fn scope_ancestors(&self, s: usize) -> impl Iterator<Item = usize> + '_ {
        std::iter::successors(Some(s), |&s| (s != 0).then(|| self.scope_parent(s)))
    }

    /// Ancestors strictly above a node, nearest first; the last is node 0.
    pub fn ancestors(&self, n: usize) -> impl Iterator<Item = usize> + '_ {
        std::iter::successors(Some(n), |&n| (n != 0).then(|| self.parent(n))).skip(1)
    }

    /// The children of a node in node order. They lie before the first later node whose parent is smaller.
    pub fn children(&self, n: usize) -> impl Iterator<Item = usize> + '_ {
        (n + 1..self.node_count()).take_while(move |&i| self.parent(i) >= n).filter(move |&i| self.parent(i) == n)
    }

    /// "The first child fit for a part is that part": by role,
    pub fn part(&self, n: usize, role: u32) -> Option<usize> {
        self.children(n).find(|&c| self.role(c) == role)
    }

    /// by kind,
    pub fn part_of_kind(&self, n: usize, kind: u32) -> Option<usize> {
        self.children(n).find(|&c| self.kind(c) == kind)
    }

    /// and the label of a Labeled, Break or Continue by both.
    pub fn label(&self, n: usize) -> Option<usize> {
        self.children(n).find(|&c| self.kind(c) == LABEL_IDENTIFIER && self.role(c) == LABEL)
    }

    /// "A missing one has span 0,0."
    pub fn span_of(&self, part: Option<usize>) -> Span {
        part.map_or(NO_SPAN, |n| self.span(n))
    }

    /// A node's code is strict if its scope is.
    pub fn strict(&self, n: usize) -> bool {
        self.scope_flags(self.scope(n)) & STRICT != 0
    }

    /// A TypeScript module is a module too.
    pub fn is_module(&self) -> bool {
        matches!(self.source_type, MODULE | TYPESCRIPT)
    }

    pub fn is_typescript(&self) -> bool {
        self.source_type == TYPESCRIPT
    }

    pub fn is_loop(&self, n: usize) -> bool {
        is_loop_kind(self.kind(n))
    }
}

pub fn is_loop_kind(kind: u32) -> bool {
    (FOR..=DO_WHILE).contains(&kind)
}

/// Kinds that run apart: Program, Function, Arrow, StaticBlock.
pub fn is_unit_kind(kind: u32) -> bool {
    kind <= STATIC_BLOCK
}
