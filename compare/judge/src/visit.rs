//! Visits the tree of a table as the crate's builder does (src/builder.rs: enter_node, leave_node, visit_class,
//! visit_class_body, visit_private_identifier): a node is checked when it is left.

use std::cell::RefCell;
use std::panic::{AssertUnwindSafe, catch_unwind};

use oxc_ast::AstKind;
use oxc_span::{RawText, SourceType};
use oxc_syntax::{
    class::ClassId,
    node::NodeId,
    reference::{ReferenceFlags, ReferenceId},
    scope::{ScopeFlags, ScopeId},
};

use crate::builder::SemanticBuilder;
use crate::checker;
use crate::class::ClassTableBuilder;
use crate::codes::finding_of;
use crate::node::AncestryStack;
use crate::scoping::{Scope, Scoping};
use crate::tree::{Arena, Record, build};

#[derive(Clone, Debug, PartialEq, Eq)]
pub enum Verdict {
    /// In document 01's order.
    Findings(Vec<[u32; 7]>),
    /// The lowest Super at which the crate's text ends in a panic.
    Stuck(u32),
    /// A panic elsewhere: of the stand-ins, or one that document 01 doesn't foresee.
    Broken(u32),
}

/// The findings of tables that pass refusals 1 to 5, 13 and 14. Panics are caught: the caller may want to silence
/// the panic hook.
pub fn judge(source_type: u32, nodes: &[u32], scopes: &[u32], source: &[u8], names: &[u8]) -> Verdict {
    let arena = Arena::default();
    let typescript = source_type == 2;
    let kinds = build(&arena, nodes, source, names, typescript);
    let mut visit = Visit {
        ctx: SemanticBuilder {
            source_text: RawText::new(source),
            source_type: SourceType { module: source_type >= 1, typescript },
            errors: RefCell::new(Vec::new()),
            current_scope_id: ScopeId::new(0),
            stack: AncestryStack::default(),
            scoping: scoping(nodes, scopes, names),
            class_table_builder: ClassTableBuilder::new(),
        },
        classes: Vec::new(),
        found: Vec::new(),
        panics: Vec::new(),
    };
    visit.ctx.class_table_builder.enabled = true;
    let mut path: Vec<(Record, AstKind)> = Vec::new();
    for (number, &kind) in kinds.iter().enumerate() {
        let record = Record::read(nodes, names, number as u32);
        while number > 0 && path.last().is_some_and(|(r, _)| r.number != record.parent) {
            let (record, kind) = path.pop().unwrap();
            visit.leave(&record, kind);
        }
        visit.enter(kind);
        path.push((record, kind));
    }
    while let Some((record, kind)) = path.pop() {
        visit.leave(&record, kind);
    }
    visit.verdict()
}

fn scoping(nodes: &[u32], scopes: &[u32], names: &[u8]) -> Scoping {
    let mut scoping = Scoping::default();
    for (s, record) in scopes.chunks(3).enumerate() {
        let parent = (s > 0).then(|| ScopeId::new(record[0]));
        let scope = Scope { parent, flags: ScopeFlags::from_bits(record[1]), node: NodeId::new(record[2]) };
        scoping.scopes.insert(ScopeId::new(s as u32), scope);
    }
    for number in 0..(nodes.len() / 10) as u32 {
        let record = Record::read(nodes, names, number);
        if record.kind == 32 {
            let flags = if record.is_written() { ReferenceFlags::Write } else { ReferenceFlags::Read };
            scoping.add_reference(ReferenceId::new(number), flags);
        }
    }
    scoping
}

struct Visit<'a> {
    ctx: SemanticBuilder<'a>,
    /// For each Class that is being visited, the class around it and, once its body is left, its own.
    classes: Vec<(Option<ClassId>, Option<ClassId>)>,
    /// Findings with their raising node, in the order in which the crate's text gives them.
    found: Vec<[u32; 7]>,
    /// Nodes whose check panicked, and whether they are Super.
    panics: Vec<(u32, bool)>,
}

impl<'a> Visit<'a> {
    fn enter(&mut self, kind: AstKind<'a>) {
        let ctx = &mut self.ctx;
        ctx.stack.push(kind);
        match kind {
            AstKind::Class(_) => self.classes.push((ctx.class_table_builder.current_class_id, None)),
            AstKind::ClassBody(body) => {
                let parent_node_id = ctx.ancestry().parent_node_id();
                ctx.class_table_builder.declare_class_body(body, parent_node_id);
            }
            AstKind::PrivateIdentifier(ident) => {
                let parent_kind = ctx.ancestry().parent_kind();
                ctx.class_table_builder.add_private_identifier_reference(ident, kind.node_id(), parent_kind);
            }
            _ => {}
        }
    }

    fn leave(&mut self, record: &Record<'a>, kind: AstKind<'a>) {
        if let AstKind::Class(_) = kind {
            // The crate leaves a class only after its own check. It visits the body last; a table may have parts
            // behind the body, which belong outside, so the class is put back here.
            let (_, own) = self.classes.pop().expect("a class");
            self.ctx.class_table_builder.current_class_id = own;
        }
        self.check(record, kind);
        self.ctx.stack.pop();
        match kind {
            AstKind::ClassBody(_) => {
                let (outer, own) = self.classes.last_mut().expect("a class");
                *own = self.ctx.class_table_builder.current_class_id;
                self.ctx.class_table_builder.current_class_id = *outer;
            }
            AstKind::Class(_) => self.ctx.class_table_builder.pop_class(),
            _ => {}
        }
    }

    fn check(&mut self, record: &Record<'a>, kind: AstKind<'a>) {
        // Its only check, of redeclarations, is left out, and panics where its parent is no declaration.
        if matches!(kind, AstKind::VariableDeclarator(_)) {
            return;
        }
        self.ctx.current_scope_id = record.scope;
        let ctx = &self.ctx;
        if catch_unwind(AssertUnwindSafe(|| checker::check(kind, ctx))).is_err() {
            self.panics.push((record.number, matches!(kind, AstKind::Super(_))));
        }
        let errors = std::mem::take(&mut *self.ctx.errors.borrow_mut());
        self.found.extend(errors.iter().map(|error| finding_of(error, record.number)));
    }

    fn verdict(mut self) -> Verdict {
        if let Some(&(node, _)) = self.panics.iter().find(|(_, is_super)| !is_super) {
            return Verdict::Broken(node);
        }
        if let Some(node) = self.panics.iter().map(|p| p.0).min() {
            return Verdict::Stuck(node);
        }
        // By raising node; the order within one check stays.
        self.found.sort_by_key(|finding| finding[1]);
        Verdict::Findings(self.found)
    }
}
