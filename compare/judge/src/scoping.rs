//! A stand-in for the crate's scoping, filled from the tables. Bindings and redeclarations, which only left-out
//! checks read, are empty.

use oxc_span::Span;
use oxc_str::Ident;
use oxc_syntax::{
    node::NodeId,
    reference::{ReferenceFlags, ReferenceId},
    scope::{ScopeFlags, ScopeId},
    symbol::{SymbolFlags, SymbolId},
};
use rustc_hash::FxHashMap;

pub struct Redeclaration {
    pub span: Span,
    pub flags: SymbolFlags,
}

pub struct Reference(ReferenceFlags);

impl Reference {
    pub fn flags(&self) -> ReferenceFlags {
        self.0
    }
}

pub struct Scope {
    pub parent: Option<ScopeId>,
    pub flags: ScopeFlags,
    pub node: NodeId,
}

#[derive(Default)]
pub struct Scoping {
    pub scopes: FxHashMap<ScopeId, Scope>,
    references: FxHashMap<ReferenceId, Reference>,
    bindings: FxHashMap<Ident<'static>, SymbolId>,
}

impl Scoping {
    pub fn root_scope_id(&self) -> ScopeId {
        ScopeId::new(0)
    }

    pub fn scope_flags(&self, scope: ScopeId) -> ScopeFlags {
        self.scopes[&scope].flags
    }

    pub fn get_node_id(&self, scope: ScopeId) -> NodeId {
        self.scopes[&scope].node
    }

    pub fn scope_ancestors(&self, scope: ScopeId) -> impl Iterator<Item = ScopeId> + '_ {
        std::iter::successors(Some(scope), |scope| self.scopes[scope].parent)
    }

    pub fn add_reference(&mut self, id: ReferenceId, flags: ReferenceFlags) {
        self.references.insert(id, Reference(flags));
    }

    pub fn get_reference(&self, id: ReferenceId) -> &Reference {
        &self.references[&id]
    }

    pub fn get_bindings(&self, _scope: ScopeId) -> &FxHashMap<Ident<'static>, SymbolId> {
        &self.bindings
    }

    pub fn symbol_flags(&self, _symbol: SymbolId) -> SymbolFlags {
        SymbolFlags::from_bits(0)
    }

    pub fn symbol_name(&self, _symbol: SymbolId) -> &str {
        ""
    }

    pub fn symbol_redeclarations(&self, _symbol: SymbolId) -> &[Redeclaration] {
        &[]
    }
}
