//! What oxc_semantic 0.157.0's checker leans on, as small as it goes: stand-ins for oxc_allocator, oxc_ast,
//! oxc_data_structures, oxc_diagnostics, oxc_ecmascript, oxc_index, oxc_span, oxc_str, oxc_syntax, itertools, memchr
//! and rustc_hash, all in one crate that the judge takes in under each of these names. An address is a node's number.
//! What only left-out checks read (bindings, redeclarations, exports, TypeScript) is there but empty.

#![allow(non_upper_case_globals)]

pub mod ast;
mod diagnostic;
mod flags;
mod tools;

pub use ast::{AstKind, StaticPropertyName};
pub use diagnostic::{Diagnostics, LabeledSpan, OxcDiagnostic};
pub use tools::{
    Address, BoundNames, Either, FxBuildHasher, FxHashMap, GetAddress, GetSpan, Ident, IndexVec, IsSimpleParameterList,
    PropName, RawText, SourceType, Span, Str, best_match, memchr_iter,
};

/// Paths of oxc_syntax.
pub mod class {
    pub use crate::flags::ElementKind;
    pub use crate::tools::{ClassId, ElementId};
}
pub mod node {
    pub use crate::tools::NodeId;
}
pub mod number {
    pub use crate::flags::NumberBase;
}
pub mod operator {
    pub use crate::flags::UnaryOperator;
}
pub mod reference {
    pub use crate::flags::ReferenceFlags;
    pub use crate::tools::ReferenceId;
}
pub mod scope {
    pub use crate::flags::ScopeFlags;
    pub use crate::tools::ScopeId;
}
pub mod symbol {
    pub use crate::flags::SymbolFlags;
    pub use crate::tools::SymbolId;
}
/// Path of oxc_data_structures.
pub mod stack {
    pub use crate::tools::Stack;
}
