//! What stored units hold, so that a part of the language that none of them has is told.

use std::collections::BTreeMap;
use std::fmt;

use plain::Tables;
use plain::tables::*;

use super::{Run, Unit};

/// Statements by kind; those without code of their own too.
const STATEMENTS: [(u32, &str); 20] = [
    (BLOCK, "Block"),
    (LABELED, "Labeled"),
    (FOR, "For"),
    (FOR_IN, "ForIn"),
    (FOR_OF, "ForOf"),
    (WHILE, "While"),
    (DO_WHILE, "DoWhile"),
    (IF, "If"),
    (WITH, "With"),
    (SWITCH, "Switch"),
    (BREAK, "Break"),
    (CONTINUE, "Continue"),
    (RETURN, "Return"),
    (THROW, "Throw"),
    (OTHER_STATEMENT, "other statement"),
    (FUNCTION, "Function as statement"),
    (VARIABLE_DECLARATION, "VariableDeclaration"),
    (CLASS, "Class as statement"),
    (EXPORT_DEFAULT, "ExportDefault"),
    (EXPORT_NAMED, "ExportNamed"),
];

const UNITS: [&str; 4] = ["unit Program", "unit Function", "unit Arrow", "unit StaticBlock"];

const FORMS: [&str; 8] = [
    "unit without body",
    "alternate first",
    "label behind the body",
    "For without test",
    "default in the middle",
    "labelled break",
    "labelled continue",
    "a try in another unit",
];

const ENDS: [&str; 4] = ["fell through", "returned", "thrown", "answers spent"];

const ANSWERS: [&str; 4] = ["no answers", "zeros alone", "a number above 65,535", "more than 20 answers"];

#[derive(Default)]
pub struct Seen {
    pub units: usize,
    pub routes: usize,
    counts: BTreeMap<&'static str, usize>,
}

fn all() -> impl Iterator<Item = &'static str> {
    let statements = STATEMENTS.iter().map(|s| s.1);
    UNITS.into_iter().chain(FORMS).chain(statements).chain(ENDS).chain(ANSWERS)
}

impl Seen {
    pub fn missing(&self) -> Vec<&'static str> {
        all().filter(|what| !self.counts.contains_key(what)).collect()
    }

    fn note(&mut self, what: &'static str, is: bool) {
        if is {
            *self.counts.entry(what).or_default() += 1;
        }
    }

    pub fn unit(&mut self, t: &Tables, unit: &Unit) {
        let number = unit.number as usize;
        self.units += 1;
        self.note(UNITS[t.kind(number) as usize], true);
        let bodiless = matches!(t.kind(number), FUNCTION | ARROW) && t.part_of_kind(number, FUNCTION_BODY).is_none();
        self.note("unit without body", bodiless);
        self.note("a try in another unit", (0..t.node_count()).any(|n| t.kind(n) == TRY));
        for n in number + 1..t.node_count() {
            // Statements that run with this unit, whether or not one of the stored routes comes to them.
            let home = t.ancestors(n).find(|&a| is_unit_kind(t.kind(a)));
            if home == Some(number) && matches!(t.role(n), BODY | ALTERNATE) {
                self.statement(t, n);
            }
        }
        unit.runs.iter().for_each(|run| self.run(run));
    }

    fn statement(&mut self, t: &Tables, n: usize) {
        if let Some((_, name)) = STATEMENTS.iter().find(|s| s.0 == t.kind(n)) {
            self.note(name, true);
        }
        let before = |a: Option<usize>, b: Option<usize>| a.is_some() && a < b;
        self.note("alternate first", t.kind(n) == IF && before(t.part(n, ALTERNATE), t.part(n, BODY)));
        self.note("label behind the body", t.kind(n) == LABELED && before(t.part(n, BODY), t.label(n)));
        self.note("For without test", t.kind(n) == FOR && !t.has(n, HAS_INITIALISER));
        let cases: Vec<usize> = t.children(n).filter(|&c| t.kind(c) == SWITCH_CASE).collect();
        let middle = cases.iter().position(|&c| t.has(c, IS_DEFAULT)).is_some_and(|i| 0 < i && i + 1 < cases.len());
        self.note("default in the middle", t.kind(n) == SWITCH && middle);
        self.note("labelled break", t.kind(n) == BREAK && t.label(n).is_some());
        self.note("labelled continue", t.kind(n) == CONTINUE && t.label(n).is_some());
    }

    fn run(&mut self, run: &Run) {
        self.routes += 1;
        self.note(ENDS[run.end as usize], true);
        self.note("no answers", run.answers.is_empty());
        self.note("zeros alone", !run.answers.is_empty() && run.answers.iter().all(|&a| a == 0));
        self.note("a number above 65,535", run.answers.iter().any(|&a| a > 65_535));
        self.note("more than 20 answers", run.answers.len() > 20);
    }
}

impl fmt::Display for Seen {
    fn fmt(&self, f: &mut fmt::Formatter<'_>) -> fmt::Result {
        for what in all() {
            writeln!(f, "{what:24}{:8}", self.counts.get(what).copied().unwrap_or(0))?;
        }
        Ok(())
    }
}
