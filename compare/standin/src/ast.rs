//! The nodes, with those parts that the checks read. Each has its number; boxes of the crate are plain references.

use std::cell::Cell;

use crate::flags::{NumberBase, UnaryOperator};
use crate::tools::{
    Address, BoundNames, GetAddress, GetSpan, Ident, IsSimpleParameterList, NodeId, PropName, ReferenceId, ScopeId,
    Span, SymbolId,
};

pub use crate::tools::Str;

macro_rules! nodes {
    ($($name:ident { $($field:ident: $type:ty,)* })*) => {$(
        #[derive(Debug)]
        pub struct $name<'a> {
            pub node_id: NodeId,
            pub span: Span,
            $(pub $field: $type,)*
            pub tree: std::marker::PhantomData<&'a ()>,
        }
    )*};
}

nodes! {
    Program { body: Vec<Statement<'a>>, }
    Function {
        id: Option<BindingIdentifier<'a>>,
        declaration: bool,
        params: FormalParameters<'a>,
        body: Option<FunctionBody<'a>>,
        r#async: bool,
        generator: bool,
    }
    ArrowFunctionExpression { params: FormalParameters<'a>, }
    FormalParameters { simple: bool, }
    FunctionBody {}
    LabeledStatement { label: LabelIdentifier<'a>, body: Statement<'a>, }
    ForStatement { body: Statement<'a>, }
    ForInStatement { left: ForStatementLeft<'a>, body: Statement<'a>, }
    ForOfStatement { left: ForStatementLeft<'a>, body: Statement<'a>, r#await: bool, }
    WhileStatement { body: Statement<'a>, }
    DoWhileStatement { body: Statement<'a>, }
    IfStatement { consequent: Statement<'a>, alternate: Option<Statement<'a>>, }
    WithStatement { body: Statement<'a>, }
    BreakStatement { label: Option<LabelIdentifier<'a>>, }
    ContinueStatement { label: Option<LabelIdentifier<'a>>, }
    Directive { directive: Str<'a>, }
    VariableDeclaration { kind: VariableDeclarationKind, declarations: Vec<&'a VariableDeclarator<'a>>, }
    VariableDeclarator { id: BindingPattern<'a>, init: Option<()>, }
    Class {
        declaration: bool,
        id: Option<&'a BindingIdentifier<'a>>,
        heritage: Option<()>,
        body: &'a ClassBody<'a>,
        scope: ScopeId,
    }
    ClassBody { body: Vec<ClassElement<'a>>, }
    MethodDefinition {
        kind: MethodDefinitionKind,
        key: PropertyKey<'a>,
        value: &'a Function<'a>,
        r#static: bool,
    }
    PropertyDefinition { key: PropertyKey<'a>, value: Option<Expression<'a>>, r#static: bool, }
    AccessorProperty { key: PropertyKey<'a>, value: Option<Expression<'a>>, r#static: bool, }
    BindingIdentifier { name: Ident<'a>, }
    IdentifierReference { name: Ident<'a>, reference_id: Cell<Option<ReferenceId>>, }
    LabelIdentifier { name: Ident<'a>, }
    PrivateIdentifier { name: Ident<'a>, }
    NumericLiteral { raw: Option<Str<'a>>, base: NumberBase, }
    StringLiteral { value: StringValue, }
    Super {}
    CallExpression {}
    NewExpression {}
    PrivateFieldExpression { field: PrivateField, }
    ObjectExpression { properties: Vec<ObjectPropertyKind<'a>>, }
    ObjectProperty { kind: PropertyKind, method: bool, key: PropertyKey<'a>, value: Expression<'a>, }
    UnaryExpression { operator: UnaryOperator, argument: Expression<'a>, }
    ParenthesizedExpression { expression: Expression<'a>, }
    ChainExpression { expression: ChainElement<'a>, }
    AwaitExpression {}
    YieldExpression {}
    // Nodes of which only the kind, number and span are read, and those of left-out checks, which never occur.
    Other {}
    ExportNamedDeclaration { specifiers: Vec<ExportSpecifier<'a>>, }
    ExportSpecifier { local: ModuleExportName<'a>, }
    TSIndexSignature { type_annotation: TSTypeAnnotation<'a>, }
    TSTypeAnnotation {}
}

/// The field of a private member: only its span is read.
#[derive(Clone, Copy, Debug)]
pub struct PrivateField {
    pub span: Span,
}

/// The value of a string: only its length is known.
#[derive(Clone, Copy, Debug)]
pub struct StringValue(pub usize);

impl StringValue {
    #[expect(clippy::len_without_is_empty)]
    pub fn len(&self) -> usize {
        self.0
    }
}

macro_rules! kinds {
    ($($kind:ident($type:ident),)*) => {
        #[derive(Clone, Copy, Debug)]
        pub enum AstKind<'a> {
            $($kind(&'a $type<'a>),)*
        }

        impl AstKind<'_> {
            pub fn node_id(&self) -> NodeId {
                match self {
                    $(AstKind::$kind(node) => node.node_id,)*
                }
            }

            pub fn span(&self) -> Span {
                match self {
                    $(AstKind::$kind(node) => node.span,)*
                }
            }
        }
    };
}

kinds! {
    Program(Program), Function(Function), ArrowFunctionExpression(ArrowFunctionExpression), StaticBlock(Other),
    LabeledStatement(LabeledStatement), ForStatement(ForStatement), ForInStatement(ForInStatement),
    ForOfStatement(ForOfStatement), WhileStatement(WhileStatement), DoWhileStatement(DoWhileStatement),
    IfStatement(IfStatement), WithStatement(WithStatement), SwitchStatement(Other), BreakStatement(BreakStatement),
    ContinueStatement(ContinueStatement), Directive(Directive), VariableDeclaration(VariableDeclaration),
    VariableDeclarator(VariableDeclarator), Class(Class), ClassBody(ClassBody), MethodDefinition(MethodDefinition),
    PropertyDefinition(PropertyDefinition), AccessorProperty(AccessorProperty), BindingIdentifier(BindingIdentifier),
    IdentifierReference(IdentifierReference), LabelIdentifier(LabelIdentifier), PrivateIdentifier(PrivateIdentifier),
    NumericLiteral(NumericLiteral), StringLiteral(StringLiteral), Super(Super), CallExpression(CallExpression),
    NewExpression(NewExpression), MemberExpression(Other), PrivateFieldExpression(PrivateFieldExpression),
    PrivateInExpression(Other), ObjectExpression(ObjectExpression), ObjectProperty(ObjectProperty),
    UnaryExpression(UnaryExpression), ParenthesizedExpression(ParenthesizedExpression),
    ChainExpression(ChainExpression), AwaitExpression(AwaitExpression), YieldExpression(YieldExpression),
    FormalParameter(Other), FormalParameterRest(Other), BindingRestElement(Other), JSXAttribute(Other),
    ExportDefaultDeclaration(Other), FunctionBody(FunctionBody), Other(Other),
    // Never made.
    FormalParameters(FormalParameters), BindingProperty(Other), ArrayPattern(Other), AssignmentPattern(Other),
    TSIndexSignature(TSIndexSignature), TSTypeAnnotation(TSTypeAnnotation), TSTypePredicate(Other),
    TSExternalModuleDeclaration(Other), TSNamespaceDeclaration(Other), TSGlobalDeclaration(Other),
    TSEnumDeclaration(Other), TSInferType(Other),
}

impl<'a> AstKind<'a> {
    pub fn is_iteration_statement(&self) -> bool {
        matches!(
            self,
            AstKind::DoWhileStatement(_)
                | AstKind::ForInStatement(_)
                | AstKind::ForOfStatement(_)
                | AstKind::ForStatement(_)
                | AstKind::WhileStatement(_)
        )
    }

    pub fn is_member_expression_kind(&self) -> bool {
        matches!(self, AstKind::MemberExpression(_) | AstKind::PrivateFieldExpression(_))
    }

    pub fn as_class(&self) -> Option<&'a Class<'a>> {
        if let AstKind::Class(class) = self { Some(class) } else { None }
    }
}

impl GetAddress for AstKind<'_> {
    fn address(&self) -> Address {
        Address(Some(self.node_id()))
    }
}

impl GetAddress for Function<'_> {
    fn address(&self) -> Address {
        Address(Some(self.node_id))
    }
}

impl GetAddress for TSTypeAnnotation<'_> {
    fn address(&self) -> Address {
        Address(Some(self.node_id))
    }
}

#[derive(Clone, Copy, Debug)]
pub enum Statement<'a> {
    FunctionDeclaration(&'a Function<'a>),
    LabeledStatement(&'a LabeledStatement<'a>),
    ExportNamedDeclaration(&'a ExportNamedDeclaration<'a>),
    Other(AstKind<'a>),
}

impl<'a> Statement<'a> {
    /// A Function that stands as a statement is a declaration.
    pub fn of(kind: AstKind<'a>) -> Self {
        match kind {
            AstKind::Function(function) => Statement::FunctionDeclaration(function),
            AstKind::LabeledStatement(labeled) => Statement::LabeledStatement(labeled),
            kind => Statement::Other(kind),
        }
    }

    pub fn is_iteration_statement(&self) -> bool {
        matches!(self, Statement::Other(kind) if kind.is_iteration_statement())
    }
}

#[derive(Clone, Copy, Debug)]
pub enum Expression<'a> {
    Identifier(&'a IdentifierReference<'a>),
    PrivateFieldExpression(&'a PrivateFieldExpression<'a>),
    ParenthesizedExpression(&'a ParenthesizedExpression<'a>),
    ChainExpression(&'a ChainExpression<'a>),
    Other(AstKind<'a>),
    Missing,
}

impl<'a> Expression<'a> {
    pub fn of(kind: Option<AstKind<'a>>) -> Self {
        match kind {
            Some(AstKind::IdentifierReference(ident)) => Expression::Identifier(ident),
            Some(AstKind::PrivateFieldExpression(field)) => Expression::PrivateFieldExpression(field),
            Some(AstKind::ParenthesizedExpression(inner)) => Expression::ParenthesizedExpression(inner),
            Some(AstKind::ChainExpression(chain)) => Expression::ChainExpression(chain),
            Some(kind) => Expression::Other(kind),
            None => Expression::Missing,
        }
    }

    pub fn get_inner_expression(&self) -> &Expression<'a> {
        let mut expr = self;
        while let Expression::ParenthesizedExpression(inner) = expr {
            expr = &inner.expression;
        }
        expr
    }
}

impl GetAddress for Expression<'_> {
    fn address(&self) -> Address {
        Address(match self {
            Expression::Identifier(node) => Some(node.node_id),
            Expression::PrivateFieldExpression(node) => Some(node.node_id),
            Expression::ParenthesizedExpression(node) => Some(node.node_id),
            Expression::ChainExpression(node) => Some(node.node_id),
            Expression::Other(kind) => Some(kind.node_id()),
            Expression::Missing => None,
        })
    }
}

#[derive(Clone, Copy, Debug)]
pub enum ChainElement<'a> {
    PrivateFieldExpression(&'a PrivateFieldExpression<'a>),
    Other,
}

#[derive(Clone, Copy, Debug)]
pub enum ForStatementLeft<'a> {
    VariableDeclaration(&'a VariableDeclaration<'a>),
    Other,
}

#[derive(Clone, Copy, Debug)]
pub enum BindingPattern<'a> {
    BindingIdentifier(std::marker::PhantomData<&'a ()>),
    Other,
}

/// Read by left-out checks alone.
impl<'a> BoundNames<'a> for BindingPattern<'a> {
    fn bound_names<F: FnMut(&BindingIdentifier<'a>)>(&self, _f: &mut F) {}
}

#[derive(Clone, Copy, Debug)]
pub enum ClassElement<'a> {
    StaticBlock,
    MethodDefinition(&'a MethodDefinition<'a>),
    PropertyDefinition(&'a PropertyDefinition<'a>),
    AccessorProperty(&'a AccessorProperty<'a>),
}

#[derive(Clone, Copy, Debug)]
pub enum ObjectPropertyKind<'a> {
    ObjectProperty(&'a ObjectProperty<'a>),
    SpreadProperty,
}

#[derive(Clone, Copy, Debug)]
pub enum ModuleExportName<'a> {
    IdentifierReference(&'a IdentifierReference<'a>),
    Other,
}

/// A key: its name is the key node's, whatever kind that is, but for an IdentifierReference (the tree's maker leaves it out); the element's flag says whether it is private.
#[derive(Clone, Copy, Debug)]
pub struct PropertyKey<'a> {
    pub name: Option<Ident<'a>>,
    pub private: bool,
    pub span: Span,
}

impl<'a> PropertyKey<'a> {
    pub fn is_private_identifier(&self) -> bool {
        self.private
    }

    pub fn name(&self) -> Option<StaticPropertyName<'a>> {
        self.name.map(StaticPropertyName)
    }
}

impl GetSpan for PropertyKey<'_> {
    fn span(&self) -> Span {
        self.span
    }
}

/// Of a key that is computed or shorthand the crate gives none: such a key node has no name in the tables, or is an IdentifierReference.
impl PropName for PropertyKey<'_> {
    fn prop_name(&self) -> Option<(&str, Span)> {
        self.name.map(|name| (name.as_str(), self.span))
    }
}

impl PropName for ObjectPropertyKind<'_> {
    fn prop_name(&self) -> Option<(&str, Span)> {
        match self {
            ObjectPropertyKind::ObjectProperty(prop) => prop.key.prop_name(),
            ObjectPropertyKind::SpreadProperty => None,
        }
    }
}

#[derive(Clone, Copy, Debug, PartialEq, Eq, Hash)]
pub struct StaticPropertyName<'a>(Ident<'a>);

impl<'a> StaticPropertyName<'a> {
    pub fn as_str(&self) -> Option<&'a str> {
        Some(self.0.as_str())
    }

    pub fn display(&self) -> Ident<'a> {
        self.0
    }
}

impl PartialEq<Ident<'_>> for StaticPropertyName<'_> {
    fn eq(&self, other: &Ident<'_>) -> bool {
        self.0.as_bytes() == other.as_bytes()
    }
}

impl IsSimpleParameterList for FormalParameters<'_> {
    fn is_simple_parameter_list(&self) -> bool {
        self.simple
    }
}

#[derive(Clone, Copy, Debug, PartialEq, Eq)]
pub enum VariableDeclarationKind {
    Var,
    Let,
    Const,
    Using,
    AwaitUsing,
}

impl VariableDeclarationKind {
    pub fn is_var(self) -> bool {
        self == Self::Var
    }

    pub fn is_lexical(self) -> bool {
        self != Self::Var
    }

    /// Declared with `using` or `await using`.
    pub fn is_using(self) -> bool {
        matches!(self, Self::Using | Self::AwaitUsing)
    }

    pub fn is_await_using(self) -> bool {
        self == Self::AwaitUsing
    }

    pub fn as_str(self) -> &'static str {
        ["var", "let", "const", "using", "await using"][self as usize]
    }
}

#[derive(Clone, Copy, Debug, PartialEq, Eq)]
pub enum MethodDefinitionKind {
    Constructor,
    Method,
    Get,
    Set,
}

impl MethodDefinitionKind {
    pub fn is_constructor(self) -> bool {
        self == Self::Constructor
    }
}

#[derive(Clone, Copy, Debug, PartialEq, Eq)]
pub enum PropertyKind {
    Init,
    Get,
    Set,
}

impl Function<'_> {
    pub fn is_declaration(&self) -> bool {
        self.declaration
    }

    /// Bodiless: an overload or a declaration without implementation.
    pub fn is_typescript_syntax(&self) -> bool {
        self.body.is_none()
    }
}

impl Class<'_> {
    pub fn is_declaration(&self) -> bool {
        self.declaration
    }

    pub fn scope_id(&self) -> ScopeId {
        self.scope
    }
}

impl BindingIdentifier<'_> {
    pub fn symbol_id(&self) -> SymbolId {
        SymbolId::new(0)
    }
}
