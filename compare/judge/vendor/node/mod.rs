//! A stand-in for the module's root. The full node store is never built: ancestry is in its stack form.

use oxc_ast::AstKind;
use oxc_syntax::node::NodeId;

mod ancestry;

pub use ancestry::{Ancestry, AncestryStack};

pub enum AstNodes<'a> {
    Never(std::convert::Infallible, AstKind<'a>),
}

impl<'a> AstNodes<'a> {
    fn never(&self) -> ! {
        let AstNodes::Never(never, _) = self;
        match *never {}
    }

    pub fn kind(&self, _node_id: NodeId) -> AstKind<'a> {
        self.never()
    }

    pub fn parent_kind(&self, _node_id: NodeId) -> AstKind<'a> {
        self.never()
    }

    pub fn parent_id(&self, _node_id: NodeId) -> NodeId {
        self.never()
    }

    pub fn ancestor_kinds<'n>(&'n self, _node_id: NodeId) -> std::iter::Empty<AstKind<'a>> {
        self.never()
    }
}
