//! The two rules that the examples call with, and what they print.
#![allow(dead_code)]

use velkunshe::{BuildError, Builder, Kind, Node, NodeId, Refusal, Role, ScopeFlags, ScopeId, Shown, SourceType};

pub type Done = Result<(), Box<dyn std::error::Error>>;

fn label(rule: &mut Builder, of: NodeId, start: usize, scope: ScopeId, name: &str) -> Result<NodeId, BuildError> {
    rule.add(of, Node::new(Kind::LabelIdentifier, Role::Label, start..start + 1, scope).name(name))
}

/// `a: { continue a; }`, and the same with another name for its label.
pub fn label_rule(name: &str) -> Result<Builder, BuildError> {
    let mut rule = Builder::new(SourceType::Script, "a: { continue a; }", ScopeFlags::NONE)?;
    let top = Builder::TOP;
    let labeled = rule.add(Builder::PROGRAM, Node::new(Kind::Labeled, Role::Held, 0..18, top))?;
    label(&mut rule, labeled, 0, top, name)?;
    let block = rule.add(labeled, Node::new(Kind::Block, Role::Held, 3..18, top))?;
    let inner = rule.scope(top, ScopeFlags::NONE, block)?;
    let jump = rule.add(block, Node::new(Kind::Continue, Role::Held, 5..16, inner))?;
    label(&mut rule, jump, 14, inner, name)?;
    Ok(rule)
}

/// `a: while(t){ switch(s){ case c: continue a; } x; }`
pub fn loop_rule() -> Result<Builder, BuildError> {
    let source = "a: while(t){ switch(s){ case c: continue a; } x; }";
    let mut rule = Builder::new(SourceType::Script, source, ScopeFlags::NONE)?;
    let top = Builder::TOP;
    let name = |at: usize, scope| {
        Node::new(Kind::IdentifierReference, Role::Other, at..at + 1, scope).name(&source[at..at + 1])
    };
    let labeled = rule.add(Builder::PROGRAM, Node::new(Kind::Labeled, Role::Held, 0..50, top))?;
    label(&mut rule, labeled, 0, top, "a")?;
    let turns = rule.add(labeled, Node::new(Kind::While, Role::Held, 3..50, top))?;
    rule.add(turns, name(9, top))?;
    let block = rule.add(turns, Node::new(Kind::Block, Role::Held, 11..50, top))?;
    let inner = rule.scope(top, ScopeFlags::NONE, block)?;
    let switch = rule.add(block, Node::new(Kind::Switch, Role::Held, 13..45, inner))?;
    rule.add(switch, name(20, inner))?;
    let cases = rule.scope(inner, ScopeFlags::NONE, switch)?;
    let case = rule.add(switch, Node::new(Kind::SwitchCase, Role::Held, 24..43, cases))?;
    rule.add(case, name(29, cases))?;
    let jump = rule.add(case, Node::new(Kind::Continue, Role::Held, 32..43, cases))?;
    label(&mut rule, jump, 41, cases, "a")?;
    rule.add(block, Node::new(Kind::OtherStatement, Role::Held, 46..48, inner))?;
    Ok(rule)
}

pub fn print_refusal(refusal: Refusal) {
    let (number, needed) = (refusal.number(), refusal.needed.unwrap_or(0));
    println!("refusal {number} at {}, needed {needed}: {}", refusal.place, refusal.reason);
}

pub fn print_route(answer: Result<Shown, Refusal>, route: &[u32]) {
    match answer {
        Ok(shown) => {
            route[..shown.entries].iter().for_each(|node| print!("{node} "));
            println!("end {}, taken {}: {}", shown.end.number(), shown.taken, shown.end);
        }
        Err(refusal) => print_refusal(refusal),
    }
}
