//! Small trees as a parser would make them, dense in what the checks look for: scopes, roles, flags and spans are
//! those of the crate's builder; names and jumps are picked so that many break a rule. The words themselves are not
//! written out: only literals have their text in the source.

use plain::reader::OwnedTables;

use crate::rng::Rng;

/// Names of which the checks know most.
const NAMES: [&str; 16] = [
    "a",
    "b",
    "x",
    "eval",
    "arguments",
    "await",
    "yield",
    "let",
    "static",
    "public",
    "implements",
    "interface",
    "package",
    "private",
    "protected",
    "arguments",
];
const LABELS: [&str; 8] = ["a", "b", "c", "a", "b", "a", "await", "yield"];
const PRIVATE: [&str; 3] = ["p", "q", "r"];
/// Names of class elements in a TypeScript module, public and private ones; the empty name is one of them.
const ELEMENTS: [&str; 4] = ["p", "q", "r", ""];
const TYPESCRIPT: u32 = 2;
const NO_FIXED_NAME: u32 = 16384;
const NUMBERS: [(&str, u32); 12] = [
    ("0", 0),
    ("7", 0),
    ("07", 3),
    ("08", 0),
    ("0.5", 1),
    ("00", 3),
    ("09.5", 1),
    ("0o7", 3),
    ("0b1", 2),
    ("0x1f", 4),
    ("010", 3),
    ("1", 0),
];
/// A raw string and the length of its value.
const STRINGS: [(&str, u32); 24] = [
    ("''", 0),
    ("'x'", 1),
    (r"'\0'", 1),
    (r"'\08'", 2),
    (r"'\8'", 1),
    (r"'\9'", 1),
    (r"'\\1'", 2),
    (r"'\1'", 1),
    (r"'\7'", 1),
    (r"'\00'", 1),
    (r"'\x41'", 1),
    (r"'\\\1'", 2),
    ("'0123456789abcdef'", 16),
    (r"'0123456789abcdef\9'", 17),
    (r"'0123456789abcdef\\9'", 18),
    (r"'0123456789abcdef\\\\\7'", 19),
    (r"'0123456789abcd\07'", 15),
    (r"'0123456789abcdefgh\0'", 19),
    (r"'\0\0\0\0\0\0\0\08'", 9),
    (r"'\n0123456789\1'", 12),
    (r"'\u{41}\\8\8'", 4),
    (r"'\0\1'", 2),
    (r"'\1\8'", 2),
    (r"'x\9\07\8'", 4),
];

pub struct Grammar<'r> {
    rng: &'r mut Rng,
    t: OwnedTables,
    /// The nodes that are open, outermost first.
    path: Vec<u32>,
    scope: u32,
    /// Nodes that may still be made; what must be there is made beyond it.
    budget: usize,
    /// Nothing that breaks a rule.
    calm: bool,
}

/// Tables of about so many nodes, calm ones for routes.
pub fn tables(rng: &mut Rng, size: usize, calm: bool) -> OwnedTables {
    let source_type = u32::from(rng.once_in(3));
    let strict = source_type == 1 || rng.once_in(3);
    tables_of(rng, size, calm, source_type, strict)
}

/// The same of a TypeScript module. A parser makes it strict; here some are not, for `with`.
pub fn typescript(rng: &mut Rng, size: usize, calm: bool) -> OwnedTables {
    let strict = !rng.once_in(3);
    tables_of(rng, size, calm, TYPESCRIPT, strict)
}

fn tables_of(rng: &mut Rng, size: usize, calm: bool, source_type: u32, strict: bool) -> OwnedTables {
    let mut g = Grammar {
        rng,
        t: OwnedTables { source_type, ..OwnedTables::default() },
        path: Vec::new(),
        scope: 0,
        budget: size,
        calm,
    };
    g.t.scopes = vec![0, 2 + u32::from(strict), 0];
    g.open(0, 0, 0, 0, "");
    if strict && source_type == 0 {
        g.leaf(23, 0, 0, 0, "use strict");
    }
    while g.budget > 0 {
        g.statement(3);
    }
    g.close();
    g.t
}

impl Grammar<'_> {
    fn open(&mut self, kind: u32, role: u32, flags: u32, extra: u32, name: &str) -> u32 {
        let number = (self.t.nodes.len() / 10) as u32;
        let parent = self.path.last().copied().unwrap_or(0);
        let start = self.t.source.len() as u32;
        let name_start = self.t.names.len() as u32;
        self.t.nodes.extend([kind, parent, role, start, 0, self.scope, flags, extra, name_start, name.len() as u32]);
        self.t.names.extend(name.bytes());
        self.t.source.push(b' ');
        self.path.push(number);
        self.budget = self.budget.saturating_sub(1);
        number
    }

    fn close(&mut self) {
        let number = self.path.pop().expect("an open node") as usize;
        self.t.source.push(b';');
        self.t.nodes[10 * number + 4] = self.t.source.len() as u32;
    }

    fn leaf(&mut self, kind: u32, role: u32, flags: u32, extra: u32, name: &str) {
        self.open(kind, role, flags, extra, name);
        self.close();
    }

    /// A node whose span is exactly this text.
    fn literal(&mut self, kind: u32, role: u32, extra: u32, raw: &str) {
        let number = self.open(kind, role, 0, extra, "") as usize;
        self.path.pop();
        let start = self.t.source.len() as u32;
        self.t.source.extend(raw.bytes());
        self.t.nodes[10 * number + 3] = start;
        self.t.nodes[10 * number + 4] = self.t.source.len() as u32;
    }

    fn set_flags(&mut self, node: u32, flags: u32) {
        self.t.nodes[10 * node as usize + 6] |= flags;
    }

    fn kind_of(&self, node: u32) -> u32 {
        self.t.nodes[10 * node as usize]
    }

    /// A scope at the node that is open; it is strict if the one around it is. Gives the scope around it.
    fn enter_scope(&mut self, flags: u32) -> u32 {
        let outer = self.scope;
        let strict = self.t.scopes[3 * outer as usize + 1] & 1;
        self.scope = (self.t.scopes.len() / 3) as u32;
        let node = *self.path.last().expect("an open node");
        self.t.scopes.extend([outer, flags | strict, node]);
        outer
    }

    fn is_typescript(&self) -> bool {
        self.t.source_type == TYPESCRIPT
    }

    fn is_strict(&self) -> bool {
        self.t.scopes[3 * self.scope as usize + 1] & 1 == 1
    }

    fn name(&mut self) -> &'static str {
        if self.calm { "x" } else { self.rng.pick(&NAMES) }
    }

    /// Kinds of the open nodes, nearest first, up to the unit.
    fn around(&self) -> impl Iterator<Item = u32> + '_ {
        self.path.iter().rev().map(|&n| self.kind_of(n)).take_while(|&kind| kind > 3)
    }

    fn statement(&mut self, role: u32) {
        if self.budget == 0 {
            return self.leaf(22, role, 0, 0, "");
        }
        match self.rng.below(27) {
            0 => self.block(role),
            1..=3 => self.labeled(role),
            4 => self.for_loop(role),
            5 | 6 => self.for_in_or_of(role),
            7 | 8 => {
                let kind = self.rng.pick(&[10, 11]);
                self.open(kind, role, 0, 0, "");
                if kind == 10 {
                    self.expression(1);
                }
                self.body(3);
                if kind == 11 {
                    self.expression(1);
                }
                self.close();
            }
            9 | 10 => {
                self.open(12, role, 0, 0, "");
                self.expression(1);
                self.body(3);
                if self.rng.once_in(2) {
                    self.body(4);
                }
                self.close();
            }
            11 if !(self.calm && (self.is_strict() || self.is_typescript())) => {
                self.open(13, role, 0, 0, "");
                self.expression(1);
                self.body(3);
                self.close();
            }
            12 => self.switch(role),
            13 if self.rng.once_in(3) => self.try_statement(role),
            23 | 24 if self.calm => self.try_statement(role),
            13..=16 if self.calm => self.calm_jump(role),
            13..=16 => self.jump(role),
            17 => self.return_or_throw(role),
            18 if self.calm && self.path.iter().any(|&n| self.kind_of(n) == 16) => self.return_or_throw(role),
            18 => self.variables(role, None),
            // As a body it may not stand.
            19 if !(self.calm && (6..=13).contains(&self.kind_of(self.path[self.path.len() - 1]))) => {
                self.function(role, 32, 0);
            }
            20 | 21 => self.class(role, true),
            // Below the top no text has one.
            22 if self.path.len() == 1 || self.rng.once_in(6) => self.export(role),
            _ => {
                self.open(22, role, 0, 0, "");
                self.expression(1);
                self.close();
            }
        }
    }

    /// A held statement, now and then a function declaration.
    fn body(&mut self, role: u32) {
        let function = self.budget > 0 && !self.calm && self.rng.once_in(8);
        if function { self.function(role, 32, 0) } else { self.statement(role) }
    }

    fn statements(&mut self) {
        for _ in 0..self.rng.below(4) {
            if self.budget > 0 {
                self.statement(3);
            }
        }
    }

    fn block(&mut self, role: u32) {
        self.open(5, role, 0, 0, "");
        let outer = self.enter_scope(0);
        self.statements();
        self.scope = outer;
        self.close();
    }

    fn labeled(&mut self, role: u32) {
        let label = if self.calm {
            ["a", "b", "c", "d"].into_iter().find(|l| !self.labels_in_sight().contains(l))
        } else {
            Some(self.rng.pick(&LABELS))
        };
        let Some(label) = label else { return self.leaf(22, role, 0, 0, "") };
        self.open(6, role, 0, 0, "");
        self.leaf(33, 6, 0, 0, label);
        match self.rng.below(4) {
            0 => self.labeled(3),
            1 => self.for_in_or_of(3),
            _ => self.body(3),
        }
        self.close();
    }

    fn for_loop(&mut self, role: u32) {
        let has_test = u32::from(self.rng.once_in(2)) * 256;
        self.open(7, role, has_test, 0, "");
        let outer = self.enter_scope(0);
        if self.rng.once_in(2) {
            self.variables(0, None);
        }
        if has_test != 0 {
            self.expression(0);
        }
        self.body(3);
        self.scope = outer;
        self.close();
    }

    fn for_in_or_of(&mut self, role: u32) {
        let kind = self.rng.pick(&[8, 9]);
        let awaits = if kind == 9 && !self.calm && self.rng.once_in(2) { 16 } else { 0 };
        self.open(kind, role, awaits, 0, "");
        let outer = self.enter_scope(0);
        if self.rng.once_in(4) {
            self.identifier(7, 8);
        } else {
            let declarators = if self.rng.once_in(8) { 2 } else { 1 };
            self.variables(7, Some(declarators));
        }
        self.expression(1);
        self.body(3);
        self.scope = outer;
        self.close();
    }

    fn switch(&mut self, role: u32) {
        self.open(14, role, 0, 0, "");
        self.expression(1);
        let outer = self.enter_scope(0);
        let mut default = self.rng.below(5);
        for _ in 0..self.rng.below(4) {
            self.open(15, 3, if default == 0 { 4096 } else { 0 }, 0, "");
            if default != 0 {
                self.expression(1);
            }
            default = default.wrapping_sub(1);
            self.statements();
            self.close();
        }
        self.scope = outer;
        self.close();
    }

    /// A return in a static block is refused, so calm trees have few of them.
    fn return_or_throw(&mut self, role: u32) {
        let in_static_block =
            self.path.iter().rev().map(|&n| self.kind_of(n)).find(|&kind| kind <= 3).is_some_and(|kind| kind == 3);
        let throws = self.calm && in_static_block && !self.rng.once_in(60);
        let kind = if throws { 21 } else { self.rng.pick(&[20, 21]) };
        self.open(kind, role, 0, 0, "");
        if self.rng.once_in(2) {
            self.expression(1);
        }
        self.close();
    }

    /// With a catch, a finally or both; now and then in an order that no text has.
    fn try_statement(&mut self, role: u32) {
        self.open(16, role, 0, 0, "");
        let mut parts = self.rng.pick(&[&[3, 4][..], &[3, 5], &[3, 4, 5], &[3, 4, 5]]).to_vec();
        if self.rng.once_in(4) {
            (1..parts.len()).rev().for_each(|i| parts.swap(i, self.rng.below(i + 1)));
        }
        for part in parts {
            if part == 4 { self.catch_clause() } else { self.tried_block(part) }
        }
        self.close();
    }

    fn catch_clause(&mut self) {
        self.open(17, 4, 0, 0, "");
        let outer = self.enter_scope(0);
        if self.rng.once_in(2) {
            let name = self.name();
            self.leaf(31, 0, 0, 0, name);
        }
        self.tried_block(3);
        self.scope = outer;
        self.close();
    }

    /// A Block of a Try: often with another Try in it, and often left by a jump, a return or a throw.
    fn tried_block(&mut self, role: u32) {
        self.open(5, role, 0, 0, "");
        let outer = self.enter_scope(0);
        if self.budget > 0 && self.rng.once_in(5) {
            self.try_statement(3);
        }
        self.statements();
        if self.rng.once_in(3) {
            match self.rng.below(3) {
                0 if self.calm => self.calm_jump(3),
                0 => self.jump(3),
                _ => self.return_or_throw(3),
            }
        }
        self.scope = outer;
        self.close();
    }

    /// A break or continue, more often than not with a label that is in sight.
    fn jump(&mut self, role: u32) {
        let kind = self.rng.pick(&[18, 19]);
        self.open(kind, role, 0, 0, "");
        if self.rng.once_in(2) {
            let label = if self.rng.once_in(3) { self.rng.pick(&LABELS) } else { self.label_in_sight() };
            self.leaf(33, 6, 0, 0, label);
        }
        self.close();
    }

    /// Labels around, up to the unit.
    fn labels_in_sight(&self) -> Vec<&'static str> {
        let inside = self.path.iter().rev().take_while(|&&n| self.kind_of(n) > 3);
        inside.filter(|&&n| self.kind_of(n) == 6).map(|&n| self.label_of(n)).collect()
    }

    fn label_in_sight(&mut self) -> &'static str {
        let labels = self.labels_in_sight();
        if labels.is_empty() { "a" } else { self.rng.pick(&labels) }
    }

    /// The label is the child right behind the Labeled.
    fn label_of(&self, labeled: u32) -> &'static str {
        let at = 10 * (labeled as usize + 1);
        let (start, length) = (self.t.nodes[at + 8] as usize, self.t.nodes[at + 9] as usize);
        let name = &self.t.names[start..start + length];
        ["a", "b", "c", "d", "await", "yield"].into_iter().find(|l| l.as_bytes() == name).expect("a label")
    }

    /// A jump that has a target, or else another statement.
    fn calm_jump(&mut self, role: u32) {
        let loops = self.around().any(|kind| (7..=11).contains(&kind));
        let labels = self.labels_in_sight();
        match self.rng.below(4) {
            0 if loops || self.around().any(|kind| kind == 14) => self.leaf(18, role, 0, 0, ""),
            1 if loops => self.leaf(19, role, 0, 0, ""),
            2 if !labels.is_empty() => self.labelled_jump(18, role, &labels),
            3 => {
                // Labels whose statement, past other labels, is a loop: it is open too.
                let inside: Vec<u32> = self.path.iter().rev().copied().take_while(|&n| self.kind_of(n) > 3).collect();
                let held = |n: u32| inside.iter().rev().copied().find(|&m| m > n && self.kind_of(m) != 6);
                let fit = inside.iter().copied().filter(|&n| self.kind_of(n) == 6);
                let labels: Vec<&'static str> = fit
                    .filter(|&n| held(n).is_some_and(|m| (7..=11).contains(&self.kind_of(m))))
                    .map(|n| self.label_of(n))
                    .collect();
                if labels.is_empty() { self.leaf(22, role, 0, 0, "") } else { self.labelled_jump(19, role, &labels) }
            }
            _ => self.leaf(22, role, 0, 0, ""),
        }
    }

    fn labelled_jump(&mut self, kind: u32, role: u32, labels: &[&'static str]) {
        self.open(kind, role, 0, 0, "");
        let label = self.rng.pick(labels);
        self.leaf(33, 6, 0, 0, label);
        self.close();
    }

    fn variables(&mut self, role: u32, count: Option<usize>) {
        let extra = if self.calm { self.rng.number(3) } else { self.rng.pick(&[0, 0, 1, 2, 3, 4]) };
        self.open(24, role, 0, extra, "");
        for _ in 0..count.unwrap_or(1 + self.rng.below(2)) {
            let plain = if self.rng.once_in(4) { 0 } else { 512 };
            let init = if self.rng.once_in(2) && !(self.calm && role == 7) { 256 } else { 0 };
            self.open(25, 0, plain + init, 0, "");
            if plain != 0 {
                let name = self.name();
                self.leaf(31, 0, 0, 0, name);
            } else {
                self.open(55, 0, 0, 0, "");
                let name = self.name();
                self.leaf(31, 0, 0, 0, name);
                self.close();
            }
            if init != 0 {
                self.expression(1);
            }
            self.close();
        }
        self.close();
    }

    /// A function with a scope of its own; `more` scope flags come on top.
    fn function(&mut self, role: u32, flags: u32, more: u32) {
        let simple = !self.rng.once_in(3);
        let special = if self.rng.once_in(3) { 8192 } else { 0 };
        let number = self.open(1, role, flags | special, 0, "");
        let outer = self.enter_scope(4 | more);
        if flags & 32 != 0 {
            let name = self.name();
            self.leaf(31, 0, 0, 0, name);
        }
        self.parameters(number, simple);
        if !self.rng.once_in(12) {
            self.function_body();
        }
        self.scope = outer;
        self.close();
    }

    fn arrow(&mut self, role: u32) {
        let simple = !self.rng.once_in(3);
        let number = self.open(2, role, 0, 0, "");
        let outer = self.enter_scope(4 | 8);
        self.parameters(number, simple);
        if self.rng.once_in(2) {
            self.open(4, 3, 0, 0, "");
            self.open(22, 3, 0, 0, "");
            self.expression(1);
            self.close();
            self.close();
        } else {
            self.function_body();
        }
        self.scope = outer;
        self.close();
    }

    fn parameters(&mut self, function: u32, simple: bool) {
        if simple {
            self.set_flags(function, 1024);
        }
        if self.rng.once_in(2) {
            self.open(49, 0, 0, 0, "");
            let name = self.name();
            self.leaf(31, 0, 0, 0, name);
            if !simple {
                self.expression(1);
            }
            self.close();
        }
        if !simple && self.rng.once_in(2) {
            self.open(50, 0, 0, 0, "");
            if self.rng.once_in(4) {
                self.expression(0); // A decorator.
            }
            self.open(51, 0, 0, 0, "");
            if self.rng.once_in(2) {
                let name = self.name();
                self.leaf(31, 0, 0, 0, name);
            } else {
                self.open(55, 0, 0, 0, "");
                self.expression(0);
                self.close();
            }
            self.close();
            self.close();
        }
    }

    fn function_body(&mut self) {
        self.open(4, 3, 0, 0, "");
        if self.rng.once_in(3) {
            let directive =
                if self.calm { "use other" } else { self.rng.pick(&["use strict", "use strict", "use other"]) };
            if directive == "use strict" {
                self.t.scopes[3 * self.scope as usize + 1] |= 1;
            }
            self.leaf(23, 0, 0, 0, directive);
        }
        let method = self.path.iter().rev().nth(2).is_some_and(|&n| self.kind_of(n) == 28);
        if method && !self.calm && self.rng.once_in(2) {
            self.open(22, 3, 0, 0, "");
            self.super_expression(1);
            self.close();
        }
        self.statements();
        self.close();
    }

    fn class(&mut self, role: u32, declaration: bool) {
        let number = self.open(26, role, u32::from(declaration) * 32, 0, "");
        if self.rng.once_in(8) {
            self.expression(0); // A decorator.
        }
        let outer = self.enter_scope(1);
        self.t.nodes[10 * number as usize + 7] = self.scope;
        if self.calm || !self.rng.once_in(4) {
            let name = self.name();
            self.leaf(31, 0, 0, 0, name);
        }
        if self.rng.once_in(2) {
            self.set_flags(number, 64);
            self.expression(0);
        }
        self.open(27, 0, 0, 0, "");
        if !self.calm && self.once_in_typescript(2) {
            (0..2 + self.rng.below(7)).for_each(|_| self.bare_element());
        }
        for _ in 0..1 + self.rng.below(4) {
            if self.budget > 0 {
                self.element();
            }
        }
        self.close();
        self.scope = outer;
        self.close();
    }

    fn element(&mut self) {
        let is_static = u32::from(self.rng.once_in(3)) * 2;
        let key = if self.calm { 2 } else { self.rng.below(4) };
        let private = if key < 2 { 4 } else { 0 };
        // A computed key has no fixed name as a rule, a key of another sort now and then.
        let seldom = if key == 3 { !self.once_in_typescript(4) } else { self.once_in_typescript(8) };
        let unfixed = if self.is_typescript() && seldom { NO_FIXED_NAME } else { 0 };
        match self.rng.below(10) {
            0..=3 if self.calm => self.static_block(),
            0 | 1 => self.static_block(),
            2 | 3 => {
                self.open(28, 0, unfixed, 0, "");
                let kind = self.name_or_reference();
                let name = if self.once_in_typescript(6) { "" } else { "constructor" };
                self.leaf(kind, 2, 0, 0, name);
                self.function(1, 0, 0);
                self.close();
            }
            4..=6 => {
                let extra = 1 + self.rng.number(3);
                self.open(28, 0, is_static + private + unfixed, extra, "");
                self.key(key);
                self.function(1, 0, 0);
                self.close();
            }
            n => {
                let kind = if n == 9 { 30 } else { 29 };
                self.open(kind, 0, is_static + private + unfixed, 0, "");
                if self.rng.once_in(8) {
                    self.expression(0); // A decorator.
                }
                self.key(key);
                if !self.rng.once_in(4) {
                    self.expression(1);
                }
                self.close();
            }
        }
    }

    fn static_block(&mut self) {
        self.open(3, 0, 0, 0, "");
        let outer = self.enter_scope(16);
        self.statements();
        self.scope = outer;
        self.close();
    }

    /// The kind of a key with a name: a name as written, or the IdentifierReference of a computed key (`[a]`).
    fn name_or_reference(&mut self) -> u32 {
        if self.rng.once_in(6) { 32 } else { 55 }
    }

    /// Once in n, and only in a TypeScript module: the others are drawn as they were before there was one.
    fn once_in_typescript(&mut self, n: usize) -> bool {
        self.is_typescript() && self.rng.once_in(n)
    }

    /// A private, a plain or a computed key; now and then a private one that is an IdentifierReference, as no text has.
    fn key(&mut self, which: usize) {
        if self.is_typescript() && which < 3 {
            self.typescript_key(which < 2);
        } else if which < 2 {
            let name = self.rng.pick(&PRIVATE);
            let kind = if self.rng.once_in(12) { 32 } else { 34 };
            self.leaf(kind, 2, 0, 0, name);
        } else if which == 2 {
            self.leaf(55, 2, 0, 0, "x");
        } else {
            self.expression(2);
        }
    }

    /// Names that are few, so that many elements have one name; in calm tables each has its own.
    fn typescript_key(&mut self, private: bool) {
        if self.calm {
            let name = format!("x{}", self.t.nodes.len());
            return self.leaf(55, 2, 0, 0, &name);
        }
        let name = self.rng.pick(&ELEMENTS);
        let kind = if self.rng.once_in(8) {
            32
        } else if private {
            34
        } else {
            55
        };
        self.leaf(kind, 2, 0, 0, name);
    }

    /// An element with nothing in it, of a TypeScript module: many in one class, with few names.
    fn bare_element(&mut self) {
        let private = if self.rng.once_in(2) { 4 } else { 0 };
        let is_static = if self.rng.once_in(2) { 2 } else { 0 };
        let unfixed = if self.rng.once_in(10) { NO_FIXED_NAME } else { 0 };
        let (kind, extra) = self.rng.pick(&[(28, 1), (28, 2), (28, 2), (28, 3), (28, 3), (29, 0), (30, 0), (28, 0)]);
        self.open(kind, 0, private + is_static + unfixed, extra, "");
        self.typescript_key(private != 0);
        if kind == 28 {
            self.open(1, 1, 1024, 0, "");
            let outer = self.enter_scope(4);
            if !self.rng.once_in(8) {
                self.leaf(4, 3, 0, 0, "");
            }
            self.scope = outer;
            self.close();
        }
        self.close();
    }

    fn export(&mut self, role: u32) {
        let kind = self.rng.pick(&[53, 54]);
        self.open(kind, role, 0, 0, "");
        match self.rng.below(4) {
            0 => self.class(0, true),
            // No text has two.
            1 if self.rng.once_in(4) => (0..2).for_each(|_| self.class(0, true)),
            1 => self.function(0, 32, 0),
            2 if kind == 54 => self.variables(0, None),
            _ => self.expression(0),
        }
        self.close();
    }

    fn identifier(&mut self, role: u32, flags: u32) {
        let name = self.name();
        self.leaf(32, role, flags, 0, name);
    }

    fn expression(&mut self, role: u32) {
        if self.budget == 0 {
            return self.leaf(55, role, 0, 0, "");
        }
        match self.rng.below(32) {
            0..=18 | 25 if self.calm => self.identifier(role, 0),
            0..=3 => {
                let written = u32::from(self.rng.once_in(3)) * 8;
                self.identifier(role, written);
            }
            4 | 5 => {
                let (raw, base) = self.rng.pick(&NUMBERS);
                self.literal(35, role, base, raw);
            }
            6..=8 => {
                let (raw, length) = self.rng.pick(&STRINGS);
                self.literal(36, role, length, raw);
            }
            9 | 10 => self.super_expression(role),
            11 | 12 => self.private_expression(role),
            13 | 14 => self.object(role),
            15..=17 => self.delete(role),
            18 => {
                let kind = self.rng.pick(&[47, 48]);
                self.open(kind, role, 0, 0, "");
                self.expression(1);
                self.close();
            }
            19 | 20 => self.function(role, 0, 0),
            21 | 22 => self.arrow(role),
            23 | 24 => self.class(role, false),
            25 => {
                self.open(52, role, 0, 0, "");
                let (raw, length) = self.rng.pick(&STRINGS);
                self.literal(36, 1, length, raw);
                self.close();
            }
            26 => {
                self.open(55, role, 0, 1, "");
                self.expression(0);
                self.close();
            }
            _ => {
                self.open(55, role, 0, 0, "");
                for _ in 0..self.rng.below(3) {
                    self.expression(0);
                }
                self.close();
            }
        }
    }

    /// `super()`, `new super()`, `super.x`.
    fn super_expression(&mut self, role: u32) {
        let kind = self.rng.pick(&[38, 38, 38, 39, 40, 40]);
        self.open(kind, role, 0, 0, "");
        self.leaf(37, 0, 0, 0, "");
        if kind != 40 && self.rng.once_in(3) {
            self.expression(1);
        }
        self.close();
    }

    /// `x.#p`, `#p in x`.
    fn private_expression(&mut self, role: u32) {
        let name = self.rng.pick(&PRIVATE);
        if self.rng.once_in(3) {
            self.open(42, role, 0, 0, "");
            self.leaf(34, 0, 0, 0, name);
            self.expression(0);
        } else {
            self.open(41, role, 0, 0, "");
            self.expression(0);
            self.leaf(34, 0, 0, 0, name);
        }
        self.close();
    }

    fn object(&mut self, role: u32) {
        self.open(43, role, 0, 0, "");
        for _ in 0..self.rng.below(4) {
            if self.rng.once_in(8) {
                self.expression(0); // A spread.
                continue;
            }
            let name = self.rng.pick(&["__proto__", "__proto__", "x"]);
            match self.rng.below(4) {
                0 => {
                    let extra = self.rng.number(3);
                    self.open(44, 0, if extra == 0 { 128 } else { 0 }, extra, "");
                    if self.rng.once_in(3) {
                        self.expression(2)
                    } else {
                        self.leaf(55, 2, 0, 0, name)
                    }
                    self.function(1, 0, 0);
                }
                _ => {
                    self.open(44, 0, 0, 0, "");
                    let kind = self.name_or_reference();
                    self.leaf(kind, 2, 0, 0, name);
                    self.expression(1);
                }
            }
            self.close();
        }
        self.close();
    }

    fn delete(&mut self, role: u32) {
        let flags = if self.rng.once_in(6) { 0 } else { 2048 };
        self.open(45, role, flags, 0, "");
        let parentheses = self.rng.below(3);
        for depth in 0..parentheses {
            self.open(55, u32::from(depth == 0), 0, 1, "");
        }
        let role = u32::from(parentheses == 0);
        match self.rng.below(4) {
            0 => self.identifier(role, 0),
            1 => self.private_expression(role),
            2 => {
                self.open(46, role, 0, 0, "");
                if self.rng.once_in(3) {
                    self.expression(0)
                } else {
                    self.private_expression(0)
                }
                self.close();
            }
            _ => self.expression(role),
        }
        for _ in 0..parentheses {
            self.close();
        }
        self.close();
    }
}
