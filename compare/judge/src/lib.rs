//! The crate's own text as judge: checker/mod.rs, checker/javascript.rs, class/table.rs, class/builder.rs,
//! node/ancestry.rs and diagnostics.rs of oxc_semantic 0.157.0 (vendor/, unchanged), compiled over stand-ins and run
//! over the tree of a table.

extern crate standin as itertools;
extern crate standin as memchr;
extern crate standin as oxc_allocator;
extern crate standin as oxc_ast;
extern crate standin as oxc_data_structures;
extern crate standin as oxc_diagnostics;
extern crate standin as oxc_ecmascript;
extern crate standin as oxc_index;
extern crate standin as oxc_span;
extern crate standin as oxc_str;
extern crate standin as oxc_syntax;
extern crate standin as rustc_hash;

mod builder;
// The crate's text, which is neither formatted nor judged by lints.
#[path = "../vendor/checker/mod.rs"]
#[allow(dead_code, unused, clippy::all)]
#[rustfmt::skip]
mod checker;
#[path = "../vendor/class/mod.rs"]
#[allow(dead_code, clippy::all)]
#[rustfmt::skip]
mod class;
mod codes;
#[path = "../vendor/diagnostics.rs"]
#[allow(dead_code, clippy::all)]
#[rustfmt::skip]
mod diagnostics;
#[path = "../vendor/node/mod.rs"]
#[allow(dead_code, clippy::all)]
#[rustfmt::skip]
mod node;
mod scoping;
mod tree;
mod visit;

use oxc_syntax::node::NodeId;
pub use visit::{Verdict, judge};

/// Read by left-out checks alone.
trait IsGlobalReference {
    fn is_global_reference(&self, scoping: &scoping::Scoping) -> bool;
}

impl IsGlobalReference for oxc_ast::ast::IdentifierReference<'_> {
    fn is_global_reference(&self, _scoping: &scoping::Scoping) -> bool {
        false
    }
}
