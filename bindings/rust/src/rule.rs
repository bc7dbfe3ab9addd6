//! A rule as the library takes it.

use crate::{Kind, NODE};

/// The tables of a rule. Nothing is asked of the numbers: what is no rule is turned down by a [`Refusal`](crate::Refusal). [`Builder`](crate::Builder)
/// makes them from nodes by name.
#[derive(Clone, Copy, Debug)]
pub struct Rule<'a> {
    /// The number of a [`SourceType`](crate::SourceType): 0 script, 1 module, 2 TypeScript module without ambient code: named class elements that are not private are compared too, and flag
    /// 16384 marks one without a fixed name.
    pub source_type: u32,
    /// Whether an async function or a generator (flag 8192) as body of an If or a label in sloppy code is found, as code 34. Without it
    /// the findings are the Rust's, which leaves that to its parser.
    pub async_bodies: bool,
    /// Ten numbers a node: kind, parent, role, span start, span end, scope, flags, extra, name start, name length.
    pub nodes: &'a [u32],
    /// Three numbers a scope: parent, flags, node.
    pub scopes: &'a [u32],
    /// The rule's text; spans are half-open byte ranges of it.
    pub source: &'a [u8],
    /// The bytes of all names.
    pub names: &'a [u8],
}

impl<'a> Rule<'a> {
    /// How many nodes there are.
    pub fn node_count(&self) -> usize {
        self.nodes.len() / NODE
    }

    /// What a node is; none where there is no such node.
    pub fn kind(&self, node: u32) -> Option<Kind> {
        self.nodes.chunks_exact(NODE).nth(node as usize).map(|record| Kind::from_number(record[0]))
    }

    /// The text of a node's span, for showing; empty where there is no such text.
    pub fn text(&self, node: u32) -> &'a str {
        let record = self.nodes.chunks_exact(NODE).nth(node as usize);
        record.map_or("", |r| self.part((r[3], r[4])))
    }

    /// The text of a span, as a [`Finding`](crate::Finding) has two, for showing; empty where there is no such text.
    pub fn part(&self, span: (u32, u32)) -> &'a str {
        let bytes = self.source.get(span.0 as usize..span.1 as usize);
        bytes.and_then(|b| std::str::from_utf8(b).ok()).unwrap_or("")
    }
}
