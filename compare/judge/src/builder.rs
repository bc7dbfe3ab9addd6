//! A stand-in for the crate's builder: what the checks read of it.

use std::cell::RefCell;

use oxc_diagnostics::{Diagnostics, OxcDiagnostic};
use oxc_span::{RawText, SourceType};
use oxc_syntax::scope::{ScopeFlags, ScopeId};

use crate::class::ClassTableBuilder;
use crate::node::{Ancestry, AncestryStack};
use crate::scoping::Scoping;

pub struct SemanticBuilder<'a> {
    pub source_text: &'a RawText,
    pub source_type: SourceType,
    pub errors: RefCell<Diagnostics>,
    pub current_scope_id: ScopeId,
    pub stack: AncestryStack<'a>,
    pub scoping: Scoping,
    pub class_table_builder: ClassTableBuilder<'a>,
}

impl<'a> SemanticBuilder<'a> {
    pub fn error(&self, error: OxcDiagnostic) {
        self.errors.borrow_mut().push(error);
    }

    pub fn ancestry(&self) -> Ancestry<'a, '_> {
        Ancestry::Stack(&self.stack)
    }

    /// Ambient code is left out.
    pub fn in_ambient_context(&self) -> bool {
        false
    }

    pub fn current_scope_flags(&self) -> ScopeFlags {
        self.scoping.scope_flags(self.current_scope_id)
    }

    pub fn strict_mode(&self) -> bool {
        self.current_scope_flags().is_strict_mode()
    }
}
