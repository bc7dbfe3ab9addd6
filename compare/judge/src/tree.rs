//! From a table to the stand-in's nodes. A child has a larger number than its parent, so the nodes are made from the
//! last to the first.

use std::cell::{Cell, RefCell};
use std::marker::PhantomData;

use oxc_ast::{AstKind, ast::*};
use oxc_span::Span;
use oxc_str::Ident;
use oxc_syntax::{node::NodeId, number::NumberBase, operator::UnaryOperator, reference::ReferenceId, scope::ScopeId};

/// What an arena holds, and what frees it.
type Item = (*mut u8, unsafe fn(*mut u8));

/// Keeps the nodes of one tree at their places until it is dropped.
#[derive(Default)]
pub struct Arena {
    items: RefCell<Vec<Item>>,
}

impl Arena {
    #[expect(clippy::mut_from_ref)]
    pub fn alloc<'a, T: 'a>(&'a self, item: T) -> &'a mut T {
        unsafe fn free<T>(item: *mut u8) {
            drop(unsafe { Box::from_raw(item.cast::<T>()) });
        }
        let item = Box::into_raw(Box::new(item));
        self.items.borrow_mut().push((item.cast(), free::<T>));
        // SAFETY: the box is freed only when the arena is dropped; no other reference to it exists.
        unsafe { &mut *item }
    }
}

impl Drop for Arena {
    fn drop(&mut self) {
        for (item, free) in self.items.get_mut().drain(..) {
            // SAFETY: made by `alloc` with this type.
            unsafe { free(item) };
        }
    }
}

/// A record of the table by name.
#[derive(Clone, Copy)]
pub struct Record<'a> {
    pub number: u32,
    pub kind: u32,
    pub parent: u32,
    role: u32,
    span: Span,
    pub scope: ScopeId,
    flags: u32,
    extra: u32,
    name: Ident<'a>,
}

impl<'a> Record<'a> {
    pub fn read(nodes: &[u32], names: &'a [u8], number: u32) -> Self {
        let at = 10 * number as usize;
        let [kind, parent, role, start, end, scope, flags, extra, name, length] =
            nodes[at..at + 10].try_into().unwrap();
        Record {
            number,
            kind,
            parent,
            role,
            span: Span::new(start, end),
            scope: ScopeId::new(scope),
            flags,
            extra,
            name: Ident(&names[name as usize..(name + length) as usize]),
        }
    }

    fn has(&self, flag: u32) -> bool {
        self.flags & flag != 0
    }

    pub fn node_id(&self) -> NodeId {
        NodeId::new(self.number)
    }

    /// The flags of the reference that an IdentifierReference is: written to or not.
    pub fn is_written(&self) -> bool {
        self.has(8)
    }
}

/// The children of one node, with the nodes made of them.
type Children<'a> = [(Record<'a>, AstKind<'a>)];

/// All nodes of the tree, which in a TypeScript module has a mark for elements without a fixed name.
pub fn build<'a>(
    arena: &'a Arena,
    nodes: &[u32],
    source: &'a [u8],
    names: &'a [u8],
    typescript: bool,
) -> Vec<AstKind<'a>> {
    let count = nodes.len() / 10;
    let mut children: Vec<Vec<(Record<'a>, AstKind<'a>)>> = vec![Vec::new(); count];
    let mut kinds = Vec::with_capacity(count);
    for number in (0..count).rev() {
        let record = Record::read(nodes, names, number as u32);
        let mut own = std::mem::take(&mut children[number]);
        own.reverse();
        let kind = node(arena, record, &own, source, typescript);
        kinds.push(kind);
        if number > 0 {
            children[record.parent as usize].push((record, kind));
        }
    }
    kinds.reverse();
    kinds
}

fn by_role<'a>(children: &Children<'a>, role: u32) -> Option<AstKind<'a>> {
    children.iter().find(|(r, _)| r.role == role).map(|c| c.1)
}

fn statement<'a>(children: &Children<'a>, role: u32) -> Statement<'a> {
    Statement::of(by_role(children, role).expect("a held statement"))
}

fn value<'a>(children: &Children<'a>) -> Option<Expression<'a>> {
    by_role(children, 1).map(|kind| Expression::of(Some(kind)))
}

fn label<'a>(children: &Children<'a>) -> Option<LabelIdentifier<'a>> {
    children.iter().find(|(r, _)| r.role == 6 && r.kind == 33).map(|(r, _)| LabelIdentifier {
        node_id: r.node_id(),
        span: r.span,
        name: r.name,
        tree: PhantomData,
    })
}

fn left<'a>(children: &Children<'a>) -> ForStatementLeft<'a> {
    match by_role(children, 7) {
        Some(AstKind::VariableDeclaration(declaration)) => ForStatementLeft::VariableDeclaration(declaration),
        _ => ForStatementLeft::Other,
    }
}

fn key<'a>(children: &Children<'a>, private: bool) -> PropertyKey<'a> {
    let key = children.iter().find(|(r, _)| r.role == 2);
    PropertyKey {
        // An IdentifierReference is the expression of a computed key, of which the crate gives no name.
        name: key.filter(|(r, _)| r.kind != 32).map(|(r, _)| r.name).filter(|name| !name.as_bytes().is_empty()),
        private,
        span: key.map_or(Span::default(), |(r, _)| r.span),
    }
}

/// The key of a class element. In a TypeScript module flag 16384 alone says that it gives no name.
fn element_key<'a>(children: &Children<'a>, r: &Record<'a>, typescript: bool) -> PropertyKey<'a> {
    let mut key = key(children, r.has(4));
    if typescript {
        key.name = children.iter().find(|(r, _)| r.role == 2).map(|(r, _)| r.name).filter(|_| !r.has(16384));
    }
    key
}

fn node<'a>(
    arena: &'a Arena,
    r: Record<'a>,
    children: &Children<'a>,
    source: &'a [u8],
    typescript: bool,
) -> AstKind<'a> {
    macro_rules! make {
        ($kind:ident: $type:ident { $($field:ident: $value:expr),* $(,)? }) => {
            AstKind::$kind(arena.alloc($type { node_id: r.node_id(), span: r.span, $($field: $value,)* tree: PhantomData }))
        };
        ($kind:ident { $($field:ident: $value:expr),* $(,)? }) => { make!($kind: $kind { $($field: $value),* }) };
        ($kind:ident) => { make!($kind: Other {}) };
    }
    let first_of_kind = |kind: u32| children.iter().find(|(r, _)| r.kind == kind).map(|c| c.1);
    let params = |r: &Record<'a>| FormalParameters {
        node_id: r.node_id(),
        span: Span::default(),
        simple: r.has(1024),
        tree: PhantomData,
    };
    match r.kind {
        0 => make!(Program { body: Vec::new() }),
        1 => make!(Function {
            id: None,
            declaration: r.has(32),
            params: params(&r),
            body: first_of_kind(4).map(|body| FunctionBody {
                node_id: body.node_id(),
                span: body.span(),
                tree: PhantomData,
            }),
            r#async: false,
            generator: false,
        }),
        2 => make!(ArrowFunctionExpression { params: params(&r) }),
        3 => make!(StaticBlock),
        4 => make!(FunctionBody {}),
        6 => make!(LabeledStatement { label: label(children).expect("a label"), body: statement(children, 3) }),
        7 => make!(ForStatement { body: statement(children, 3) }),
        8 => make!(ForInStatement { left: left(children), body: statement(children, 3) }),
        9 => make!(ForOfStatement { left: left(children), body: statement(children, 3), r#await: r.has(16) }),
        10 => make!(WhileStatement { body: statement(children, 3) }),
        11 => make!(DoWhileStatement { body: statement(children, 3) }),
        12 => make!(IfStatement {
            consequent: statement(children, 3),
            alternate: by_role(children, 4).map(Statement::of),
        }),
        13 => make!(WithStatement { body: statement(children, 3) }),
        14 => make!(SwitchStatement),
        18 => make!(BreakStatement { label: label(children) }),
        19 => make!(ContinueStatement { label: label(children) }),
        23 => make!(Directive { directive: r.name }),
        24 => make!(VariableDeclaration {
            kind: match r.extra {
                0 => VariableDeclarationKind::Var,
                1 => VariableDeclarationKind::Let,
                2 => VariableDeclarationKind::Const,
                3 => VariableDeclarationKind::Using,
                _ => VariableDeclarationKind::AwaitUsing,
            },
            declarations: children
                .iter()
                .filter_map(|c| if let AstKind::VariableDeclarator(declarator) = c.1 { Some(declarator) } else { None })
                .collect(),
        }),
        25 => make!(VariableDeclarator {
            id: if r.has(512) { BindingPattern::BindingIdentifier(PhantomData) } else { BindingPattern::Other },
            init: r.has(256).then_some(()),
        }),
        26 => make!(Class {
            declaration: r.has(32),
            id: match first_of_kind(31) {
                Some(AstKind::BindingIdentifier(id)) => Some(id),
                _ => None,
            },
            heritage: r.has(64).then_some(()),
            body: match first_of_kind(27) {
                Some(AstKind::ClassBody(body)) => body,
                _ => panic!("a class body"),
            },
            scope: ScopeId::new(r.extra),
        }),
        27 => make!(ClassBody {
            body: children
                .iter()
                .filter_map(|c| match c.1 {
                    AstKind::StaticBlock(_) => Some(ClassElement::StaticBlock),
                    AstKind::MethodDefinition(method) => Some(ClassElement::MethodDefinition(method)),
                    AstKind::PropertyDefinition(property) => Some(ClassElement::PropertyDefinition(property)),
                    AstKind::AccessorProperty(accessor) => Some(ClassElement::AccessorProperty(accessor)),
                    _ => None,
                })
                .collect(),
        }),
        28 => make!(MethodDefinition {
            kind: match r.extra {
                0 => MethodDefinitionKind::Constructor,
                1 => MethodDefinitionKind::Method,
                2 => MethodDefinitionKind::Get,
                _ => MethodDefinitionKind::Set,
            },
            key: element_key(children, &r, typescript),
            value: match by_role(children, 1) {
                Some(AstKind::Function(function)) => function,
                _ => panic!("a method's function"),
            },
            r#static: r.has(2),
        }),
        29 => make!(PropertyDefinition {
            key: element_key(children, &r, typescript),
            value: value(children),
            r#static: r.has(2),
        }),
        30 => make!(AccessorProperty {
            key: element_key(children, &r, typescript),
            value: value(children),
            r#static: r.has(2),
        }),
        31 => make!(BindingIdentifier { name: r.name }),
        32 => make!(IdentifierReference { name: r.name, reference_id: Cell::new(Some(ReferenceId::new(r.number))) }),
        33 => make!(LabelIdentifier { name: r.name }),
        34 => make!(PrivateIdentifier { name: r.name }),
        35 => make!(NumericLiteral {
            raw: Some(Ident(&source[r.span.start as usize..r.span.end as usize])),
            base: match r.extra {
                0 => NumberBase::Decimal,
                1 => NumberBase::Float,
                2 => NumberBase::Binary,
                3 => NumberBase::Octal,
                _ => NumberBase::Hex,
            },
        }),
        36 => make!(StringLiteral { value: StringValue(r.extra as usize) }),
        37 => make!(Super {}),
        38 => make!(CallExpression {}),
        39 => make!(NewExpression {}),
        40 => make!(MemberExpression),
        41 => make!(PrivateFieldExpression {
            field: PrivateField { span: first_of_kind(34).map_or(Span::default(), |field| field.span()) },
        }),
        42 => make!(PrivateInExpression),
        43 => make!(ObjectExpression {
            properties: children
                .iter()
                .map(|c| match c.1 {
                    AstKind::ObjectProperty(property) => ObjectPropertyKind::ObjectProperty(property),
                    _ => ObjectPropertyKind::SpreadProperty,
                })
                .collect(),
        }),
        44 => make!(ObjectProperty {
            kind: match r.extra {
                0 => PropertyKind::Init,
                1 => PropertyKind::Get,
                _ => PropertyKind::Set,
            },
            method: r.has(128),
            key: key(children, r.has(4)),
            value: Expression::of(by_role(children, 1)),
        }),
        45 => make!(UnaryExpression {
            operator: if r.has(2048) { UnaryOperator::Delete } else { UnaryOperator::Other },
            argument: Expression::of(by_role(children, 1)),
        }),
        46 => make!(ChainExpression {
            expression: match children.first() {
                Some((_, AstKind::PrivateFieldExpression(field))) => ChainElement::PrivateFieldExpression(field),
                _ => ChainElement::Other,
            },
        }),
        47 => make!(AwaitExpression {}),
        48 => make!(YieldExpression {}),
        49 => make!(FormalParameter),
        50 => make!(FormalParameterRest),
        51 => make!(BindingRestElement),
        52 => make!(JSXAttribute),
        53 => make!(ExportDefaultDeclaration),
        55 if r.extra == 1 => {
            make!(ParenthesizedExpression { expression: Expression::of(children.first().map(|c| c.1)) })
        }
        _ => make!(Other),
    }
}
