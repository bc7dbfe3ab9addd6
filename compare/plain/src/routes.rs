//! Document 01, "Routes", with document 02's requests 1 (`try`) and 5 (static blocks): a unit run by ECMA-262's
//! completion rules, from tables, unit and answers alone. No code.

use crate::tables::*;

#[derive(Clone, Debug, PartialEq, Eq)]
pub struct Run {
    /// The nodes listed.
    pub list: Vec<u32>,
    /// 0 fell through, 1 returned, 2 thrown, 3 answers spent.
    pub end: u32,
    pub answers_taken: usize,
}

/// A completion record; the label is the jump's target, if it names one. `Spent` is no completion of the standard:
/// the run stops where it is.
#[derive(Clone, Copy, PartialEq, Eq)]
enum Completion<'a> {
    Normal,
    Break(Option<&'a [u8]>),
    Continue(Option<&'a [u8]>),
    Return,
    Throw,
    Spent,
}

use Completion::*;

/// Runs a unit of a well-formed tree that refusals 7 and 9 don't turn down.
pub fn run(t: &Tables, unit: usize, answers: &[u32]) -> Run {
    let mut runner = Runner { t, answers, taken: 0, list: Vec::new() };
    let holder = match t.kind(unit) {
        FUNCTION | ARROW => t.part_of_kind(unit, FUNCTION_BODY),
        _ => Some(unit),
    };
    let end = match holder.map_or(Normal, |h| runner.statements(h)) {
        Normal => 0,
        Return => 1,
        Throw => 2,
        Spent => 3,
        Break(_) | Continue(_) => unreachable!("refusal 9"),
    };
    Run { list: runner.list, end, answers_taken: runner.taken }
}

struct Runner<'t, 'a> {
    t: &'t Tables<'a>,
    answers: &'t [u32],
    taken: usize,
    list: Vec<u32>,
}

impl<'a> Runner<'_, 'a> {
    /// The node takes an answer and is listed as it does.
    fn ask(&mut self, n: usize) -> Option<u32> {
        let answer = *self.answers.get(self.taken)?;
        self.taken += 1;
        self.list.push(n as u32);
        Some(answer)
    }

    /// The statements of one holder in node order.
    fn statements(&mut self, holder: usize) -> Completion<'a> {
        let t = self.t;
        for stmt in t.children(holder).filter(|&c| t.role(c) == BODY) {
            let completion = self.statement(stmt, &[]);
            if completion != Normal {
                return completion;
            }
        }
        Normal
    }

    /// The statement with this role, if there is one.
    fn held(&mut self, n: usize, role: u32, labels: &[&'a [u8]]) -> Completion<'a> {
        self.t.part(n, role).map_or(Normal, |stmt| self.statement(stmt, labels))
    }

    /// `labels`: the standard's labelSet, the names of the Labeled directly around the statement.
    fn statement(&mut self, n: usize, labels: &[&'a [u8]]) -> Completion<'a> {
        let t = self.t;
        match t.kind(n) {
            BLOCK => self.statements(n),
            LABELED => {
                let name = t.label(n).map_or(&[][..], |l| t.name(l));
                let inner = [labels, &[name]].concat();
                match self.held(n, BODY, &inner) {
                    Break(Some(target)) if target == name => Normal,
                    completion => completion,
                }
            }
            FOR..=DO_WHILE => match self.iterate(n, labels) {
                Break(None) => Normal,
                completion => completion,
            },
            IF => match self.ask(n) {
                None => Spent,
                Some(0) => self.held(n, ALTERNATE, &[]),
                Some(_) => self.held(n, BODY, &[]),
            },
            WITH => {
                self.list.push(n as u32);
                self.held(n, BODY, &[])
            }
            SWITCH => match self.switch(n) {
                Break(None) => Normal,
                completion => completion,
            },
            TRY => self.try_statement(n),
            kind => {
                self.list.push(n as u32);
                let label = t.label(n).map(|l| t.name(l));
                match kind {
                    BREAK => Break(label),
                    CONTINUE => Continue(label),
                    RETURN => Return,
                    THROW => Throw,
                    CLASS | EXPORT_DEFAULT | EXPORT_NAMED => self.static_blocks(n),
                    // Other statements and declarations do nothing more.
                    _ => Normal,
                }
            }
        }
    }

    /// A Try isn't listed. A throw out of its role 3 Block goes to the catch, if there is one. "A finally block runs on
    /// each way out, and if it ends by a jump, a return or a throw, that end replaces the earlier one. When answers run
    /// out the route stops where it is, and no finally runs."
    fn try_statement(&mut self, n: usize) -> Completion<'a> {
        let t = self.t;
        let mut completion = self.held(n, BODY, &[]);
        if let (Throw, Some(clause)) = (completion, t.part(n, ALTERNATE)) {
            completion = self.held(clause, BODY, &[]);
        }
        if completion == Spent {
            return Spent;
        }
        match self.held(n, FINALLY, &[]) {
            Normal => completion,
            own => own,
        }
    }

    /// "After the class is listed, its static blocks run in node order .. A throw out of one leaves the class as a
    /// throw."
    fn static_blocks(&mut self, n: usize) -> Completion<'a> {
        for block in entered_blocks(self.t, n) {
            let completion = self.statements(block);
            if completion != Normal {
                return completion;
            }
        }
        Normal
    }

    /// The turns of a loop. A `for` without a test goes on whatever the answer says.
    fn iterate(&mut self, n: usize, labels: &[&'a [u8]]) -> Completion<'a> {
        let t = self.t;
        let after_body = t.kind(n) == DO_WHILE;
        let endless = t.kind(n) == FOR && !t.has(n, HAS_INITIALISER);
        let mut body_is_next = after_body;
        loop {
            if body_is_next {
                match self.held(n, BODY, &[]) {
                    Normal | Continue(None) => {}
                    Continue(Some(target)) if labels.contains(&target) => {}
                    completion => return completion,
                }
            }
            match self.ask(n) {
                None => return Spent,
                Some(0) if !endless => return Normal,
                Some(_) => body_is_next = true,
            }
        }
    }

    /// Answer k picks the k-th case from 0, `default` counted, else `default`, else none; later cases follow.
    fn switch(&mut self, n: usize) -> Completion<'a> {
        let t = self.t;
        let Some(answer) = self.ask(n) else { return Spent };
        let cases: Vec<usize> = t.children(n).filter(|&c| t.kind(c) == SWITCH_CASE).collect();
        let default = cases.iter().position(|&c| t.has(c, IS_DEFAULT));
        let picked = if (answer as usize) < cases.len() { Some(answer as usize) } else { default };
        for &case in picked.map_or(&[][..], |p| &cases[p..]) {
            let completion = self.statements(case);
            if completion != Normal {
                return completion;
            }
        }
        Normal
    }
}

/// The static blocks that run once this statement is listed: of a class, or of the classes that an export declares
/// ("its child, flag 32"), all in node order.
pub fn entered_blocks(t: &Tables, n: usize) -> Vec<usize> {
    let declared = |c: usize| t.kind(c) == CLASS && t.has(c, DECLARATION);
    let classes: Vec<usize> = match t.kind(n) {
        CLASS => vec![n],
        EXPORT_DEFAULT | EXPORT_NAMED => t.children(n).filter(|&c| declared(c)).collect(),
        _ => Vec::new(),
    };
    let bodies = classes.into_iter().filter_map(|class| t.part_of_kind(class, CLASS_BODY));
    bodies.flat_map(|body| t.children(body).filter(|&c| t.kind(c) == STATIC_BLOCK)).collect()
}

/// The lowest Break or Continue that has no target inside its nearest unit.
pub fn lowest_without_target(t: &Tables) -> Option<usize> {
    (0..t.node_count()).find(|&n| matches!(t.kind(n), BREAK | CONTINUE) && !has_target(t, n))
}

/// A break leaves the nearest loop or Switch, with a label the nearest Labeled of that name. A continue goes to the
/// nearest loop, with a label to the one that the nearest Labeled so named holds, only Labeled between.
fn has_target(t: &Tables, n: usize) -> bool {
    let mut inside = t.ancestors(n).take_while(|&a| !is_unit_kind(t.kind(a)));
    let Some(label) = t.label(n) else {
        return inside.any(|a| t.is_loop(a) || (t.kind(a) == SWITCH && t.kind(n) == BREAK));
    };
    let named = inside.find(|&a| t.kind(a) == LABELED && t.label(a).is_some_and(|l| t.name(l) == t.name(label)));
    if t.kind(n) == BREAK {
        return named.is_some();
    }
    let mut target = named;
    while let Some(labeled) = target.filter(|&s| t.kind(s) == LABELED) {
        target = t.part(labeled, BODY);
    }
    target.is_some_and(|s| t.is_loop(s))
}
