//! The builder: the tables that it makes, and what it tells at once.

use velkunshe::{
    extras, findings, BuildError, Builder, Code, Flags, Kind, Node, NodeId, Reason, Role, ScopeFlags, ScopeId,
    SourceType, NODE,
};

const PROGRAM: NodeId = Builder::PROGRAM;
const TOP: ScopeId = Builder::TOP;

fn script(source: &str) -> Builder {
    Builder::new(SourceType::Script, source, ScopeFlags::NONE).unwrap()
}

/// `a: { continue a; }` comes to the tables of document 01.
#[test]
fn the_worked_example() {
    let mut rule = script("a: { continue a; }");
    let labeled = rule.add(PROGRAM, Node::new(Kind::Labeled, Role::Held, 0..18, TOP)).unwrap();
    rule.add(labeled, Node::new(Kind::LabelIdentifier, Role::Label, 0..1, TOP).name("a")).unwrap();
    let block = rule.add(labeled, Node::new(Kind::Block, Role::Held, 3..18, TOP)).unwrap();
    let inner = rule.scope(TOP, ScopeFlags::NONE, block).unwrap();
    let jump = rule.add(block, Node::new(Kind::Continue, Role::Held, 5..16, inner)).unwrap();
    rule.add(jump, Node::new(Kind::LabelIdentifier, Role::Label, 14..15, inner).name("a")).unwrap();
    let made = rule.rule().unwrap();
    let nodes = [
        [0, 0, 0, 0, 18, 0, 0, 0, 0, 0],
        [6, 0, 3, 0, 18, 0, 0, 0, 0, 0],
        [33, 1, 6, 0, 1, 0, 0, 0, 0, 1],
        [5, 1, 3, 3, 18, 0, 0, 0, 0, 0],
        [19, 3, 3, 5, 16, 1, 0, 0, 0, 0],
        [33, 4, 6, 14, 15, 1, 0, 0, 1, 1],
    ];
    assert_eq!(made.nodes, nodes.concat());
    assert_eq!((made.scopes, made.names, made.source_type), (&[0, 2, 0, 0, 0, 3][..], &b"aa"[..], 0));
    let found = findings(&made).unwrap();
    assert_eq!((found[0].code, found[0].node), (Code::InvalidLabelNonIteration, jump.number()));
    assert_eq!((made.kind(jump.number()), made.kind(6)), (Some(Kind::Continue), None));
}

/// `(class { static #n = 1; })`: a class has its scope as its extra number, and that is strict as it says.
#[test]
fn a_class() {
    let mut rule = script("(class { static #n = 1; })");
    let held = rule.add(PROGRAM, Node::new(Kind::OtherStatement, Role::Held, 0..26, TOP)).unwrap();
    let brackets = Node::new(Kind::AnythingElse, Role::Other, 0..26, TOP).extra(extras::PARENTHESIS);
    let brackets = rule.add(held, brackets).unwrap();
    let class = rule.add(brackets, Node::new(Kind::Class, Role::Value, 1..25, TOP)).unwrap();
    let inner = rule.scope(TOP, ScopeFlags::STRICT, class).unwrap();
    let body = rule.add(class, Node::new(Kind::ClassBody, Role::Held, 7..25, inner)).unwrap();
    let flags = Flags::STATIC | Flags::PRIVATE_KEY | Flags::INITIALISER;
    let field = rule.add(body, Node::new(Kind::PropertyDefinition, Role::Other, 9..23, inner).flags(flags)).unwrap();
    rule.add(field, Node::new(Kind::PrivateIdentifier, Role::Key, 16..18, inner).name("n")).unwrap();
    rule.add(field, Node::new(Kind::NumericLiteral, Role::Value, 21..22, inner)).unwrap();
    let below = rule.scope(inner, ScopeFlags::NONE, field).unwrap();
    let made = rule.rule().unwrap();
    assert_eq!(made.nodes[class.number() as usize * NODE + 7], inner.number());
    assert_eq!(made.scopes[below.number() as usize * 3..], [inner.number(), 1, field.number()]);
    assert_eq!(findings(&made), Ok(vec![]));
    assert!(flags.contains(Flags::PRIVATE_KEY) && !flags.contains(Flags::METHOD));
}

#[test]
fn told_at_once() {
    let mut rule = script("x; y;");
    let statement = |span| Node::new(Kind::OtherStatement, Role::Held, span, TOP);
    let first = rule.add(PROGRAM, statement(0..2)).unwrap();
    let inner = rule.scope(TOP, ScopeFlags::NONE, first).unwrap();
    let second = rule.add(PROGRAM, statement(3..5)).unwrap();
    let before = format!("{rule:?}");
    assert_eq!(rule.add(first, statement(0..1)), Err(BuildError::NotInPreorder));
    assert_eq!(rule.add(second, statement(0..6)), Err(BuildError::Span));
    #[allow(clippy::reversed_empty_ranges)]
    let reversed = statement(2..1);
    assert_eq!(rule.add(second, reversed), Err(BuildError::Span));
    let elsewhere = Node::new(Kind::OtherStatement, Role::Held, 3..5, inner);
    assert_eq!(rule.add(second, elsewhere), Err(BuildError::ScopeElsewhere));
    assert_eq!(rule.scope(inner, ScopeFlags::NONE, second), Err(BuildError::ScopeElsewhere));
    // Ids of another builder, which has more of both.
    let mut other = script("x; y; z;");
    let nodes: Vec<NodeId> = (0..3).map(|_| other.add(PROGRAM, statement(0..2)).unwrap()).collect();
    let scopes: Vec<ScopeId> = nodes.iter().map(|&n| other.scope(TOP, ScopeFlags::NONE, n).unwrap()).collect();
    assert_eq!(rule.add(nodes[2], statement(0..1)), Err(BuildError::NoSuchId));
    assert_eq!(rule.scope(TOP, ScopeFlags::NONE, nodes[2]), Err(BuildError::NoSuchId));
    assert_eq!(rule.scope(scopes[1], ScopeFlags::NONE, first), Err(BuildError::NoSuchId));
    let unknown = Node::new(Kind::OtherStatement, Role::Held, 0..1, scopes[1]);
    assert_eq!(rule.add(second, unknown), Err(BuildError::NoSuchId));
    let long = "n".repeat(1_048_577);
    assert_eq!(rule.add(second, statement(0..1).name(&long)), Err(BuildError::TextTooLong));
    let too_long = Builder::new(SourceType::Script, &long, ScopeFlags::NONE).map(|_| ());
    assert_eq!(too_long, Err(BuildError::TextTooLong));
    assert_eq!(format!("{rule:?}"), before);
}

/// What the library alone turns down: a While without its statement, and a number that is no kind.
#[test]
fn told_by_the_library() {
    let mut rule = script("while (t);");
    rule.add(PROGRAM, Node::new(Kind::While, Role::Held, 0..10, TOP)).unwrap();
    let refusal = rule.rule().map(|_| ()).unwrap_err();
    assert_eq!((refusal.reason, refusal.place), (Reason::WrongCount, 1));
    rule.add(PROGRAM, Node::new(Kind::Unknown(56), Role::Held, 0..1, TOP)).unwrap();
    let refusal = rule.rule().map(|_| ()).unwrap_err();
    assert_eq!((refusal.reason, refusal.place), (Reason::Unlisted, 2));
}

/// The deepest tree, and the longest table; the library takes both, and no more can be added.
#[test]
fn at_the_limits() {
    let block = Node::new(Kind::Block, Role::Held, 0..0, TOP);
    let mut deep = script("");
    let mut parent = PROGRAM;
    for _ in 0..512 {
        parent = deep.add(parent, block.clone()).unwrap();
    }
    assert_eq!(deep.add(parent, block.clone()), Err(BuildError::TooDeep));
    assert!(deep.rule().is_ok());
    let mut long = script("");
    for _ in 1..65_535 {
        long.add(PROGRAM, block.clone()).unwrap();
        long.scope(TOP, ScopeFlags::NONE, PROGRAM).unwrap();
    }
    assert_eq!(long.add(PROGRAM, block), Err(BuildError::TooMany));
    assert_eq!(long.scope(TOP, ScopeFlags::NONE, PROGRAM), Err(BuildError::TooMany));
    assert!(long.rule().is_ok());
}
