//! A flat code of a unit, by docs/CODE.md, so that what runs over code can be compared without the proved library. The
//! code is free: a Try's parts are laid out by role here, all others in node order.

use plain::Tables;
use plain::machine::{Instruction, Jump};
use plain::tables::*;

use Instruction::*;

/// The code of a unit that has a route.
pub fn code(t: &Tables, unit: usize) -> Vec<u32> {
    let holder = match t.kind(unit) {
        FUNCTION | ARROW => t.part_of_kind(unit, FUNCTION_BODY),
        _ => Some(unit),
    };
    let statements = holder.map_or(Vec::new(), |h| held(t, h));
    // The four ends stand behind the statements.
    let ends = statements.iter().map(|&s| size(t, s)).sum::<u32>();
    let end = |number: u32| Jump { to: ends + 2 * number, depth: 0 };
    let way = Way { on: end(0), returns: end(1), throws: end(2), depth: 0, targets: Vec::new() };
    let mut maker = Maker { t, made: Vec::new() };
    maker.row(&statements, &way);
    [0, 1, 2, 5].into_iter().for_each(|number| maker.put(End(number)));
    maker.made
}

/// The statements, or cases, of a holder.
fn held(t: &Tables, n: usize) -> Vec<usize> {
    t.children(n).filter(|&c| t.role(c) == BODY).collect()
}

/// What stands in a statement, in the order of its code.
fn parts(t: &Tables, n: usize) -> Vec<usize> {
    match t.kind(n) {
        TRY => [BODY, ALTERNATE, FINALLY].into_iter().filter_map(|role| t.part(n, role)).collect(),
        IF => [BODY, ALTERNATE].into_iter().filter_map(|role| t.part(n, role)).collect(),
        CLASS | EXPORT_DEFAULT | EXPORT_NAMED => plain::routes::entered_blocks(t, n),
        BLOCK..=CATCH_CLAUSE | STATIC_BLOCK => held(t, n),
        _ => Vec::new(),
    }
}

/// How many numbers a statement takes with what stands in it.
fn size(t: &Tables, n: usize) -> u32 {
    let own = match t.kind(n) {
        TRY if t.part(n, FINALLY).is_some() => 2,
        TRY | CATCH_CLAUSE | LABELED => 0,
        BLOCK | STATIC_BLOCK => 3,
        FOR..=DO_WHILE => 10,
        IF | SWITCH => 7,
        SWITCH_CASE => 4,
        WITH => 2,
        _ => 5,
    };
    own + parts(t, n).into_iter().map(|part| size(t, part)).sum::<u32>()
}

/// Where a statement goes: on, by a return, by a throw, and by jumps to statements around; and how many ends are pending.
#[derive(Clone)]
struct Way {
    on: Jump,
    returns: Jump,
    throws: Jump,
    depth: u32,
    /// A loop, Switch or Labeled around, where a break goes and where a continue does.
    targets: Vec<(usize, Jump, Jump)>,
}

impl Way {
    fn here(&self, place: u32) -> Jump {
        Jump { to: place, depth: self.depth }
    }

    fn on_to(&self, on: Jump) -> Way {
        Way { on, ..self.clone() }
    }

    fn around(&self, n: usize, again: Jump) -> Way {
        let mut way = self.clone();
        way.targets.push((n, self.on, again));
        way
    }
}

struct Maker<'t, 'a> {
    t: &'t Tables<'a>,
    made: Vec<u32>,
}

impl Maker<'_, '_> {
    fn here(&self) -> u32 {
        self.made.len() as u32
    }

    fn put(&mut self, instruction: Instruction) {
        self.made.extend(instruction.numbers());
    }

    /// Statements one after the other; the last goes on as the way says.
    fn row(&mut self, statements: &[usize], way: &Way) {
        for (i, &n) in statements.iter().enumerate() {
            let behind = way.here(self.here() + size(self.t, n));
            let on = if i + 1 < statements.len() { behind } else { way.on };
            self.statement(n, &way.on_to(on));
        }
    }

    fn statement(&mut self, n: usize, way: &Way) {
        let (t, at) = (self.t, self.here());
        let (node, parts) = (n as u32, parts(t, n));
        match t.kind(n) {
            BLOCK | STATIC_BLOCK => {
                self.put(Leave(if parts.is_empty() { way.on } else { way.here(at + 3) }));
                self.row(&parts, way);
            }
            LABELED => self.statement(parts[0], &way.around(n, way.on)),
            FOR..=DO_WHILE => {
                let ask = way.here(at + 3);
                let endless = t.kind(n) == FOR && !t.has(n, HAS_INITIALISER);
                self.put(Leave(if t.kind(n) == DO_WHILE { way.here(at + 10) } else { ask }));
                self.put(Ask { node, yes: at + 10, no: if endless { at + 10 } else { at + 7 } });
                self.put(Leave(way.on));
                self.statement(parts[0], &way.around(n, ask).on_to(ask));
            }
            IF => {
                let other = if parts.len() > 1 { at + 7 + size(t, parts[0]) } else { at + 4 };
                self.put(Ask { node, yes: at + 7, no: other });
                self.put(Leave(way.on));
                parts.iter().for_each(|&part| self.statement(part, way));
            }
            WITH => {
                self.put(List(node));
                self.statement(parts[0], way);
            }
            SWITCH => self.switch(n, &parts, way),
            TRY => self.try_statement(n, way),
            _ => {
                self.put(List(node));
                self.put(Leave(self.goal(n, &parts, at, way)));
                self.row(&parts, way);
            }
        }
    }

    /// Where a simple statement goes.
    fn goal(&self, n: usize, parts: &[usize], at: u32, way: &Way) -> Jump {
        let t = self.t;
        let name_of = |n: usize| t.label(n).map(|l| t.name(l));
        let kind = t.kind(n);
        let fits = |a: usize| match name_of(n) {
            None => t.is_loop(a) || (t.kind(a) == SWITCH && kind == BREAK),
            name => t.kind(a) == LABELED && name_of(a) == name,
        };
        let target = || way.targets.iter().rposition(|&(a, _, _)| fits(a)).expect("refusal 9");
        match kind {
            BREAK => way.targets[target()].1,
            // Behind a Labeled stands what it holds, down to the loop.
            CONTINUE => way.targets[target()..].iter().find(|&&(a, _, _)| t.is_loop(a)).expect("refusal 9").2,
            RETURN => way.returns,
            THROW => way.throws,
            _ if !parts.is_empty() => way.here(at + 5),
            _ => way.on,
        }
    }

    fn switch(&mut self, n: usize, cases: &[usize], way: &Way) {
        let (t, at) = (self.t, self.here());
        let places: Vec<u32> = cases
            .iter()
            .scan(at + 7, |next, &case| {
                let place = *next;
                *next += size(t, case);
                Some(place)
            })
            .collect();
        let default = cases.iter().position(|&c| t.has(c, IS_DEFAULT)).map_or(at + 4, |i| places[i]);
        self.put(Select { node: n as u32, case: places.first().copied().unwrap_or(0), other: default });
        self.put(Leave(way.on));
        let inside = way.around(n, way.on);
        for (i, &case) in cases.iter().enumerate() {
            let statements = parts(t, case);
            let next = places.get(i + 1).copied();
            let on = next.map_or(way.on, |place| way.here(place));
            let first = if statements.is_empty() { on } else { way.here(places[i] + 4) };
            self.put(Case(next.unwrap_or(0), first));
            self.row(&statements, &inside.on_to(on));
        }
    }

    fn try_statement(&mut self, n: usize, way: &Way) {
        let t = self.t;
        let block = t.part(n, BODY).expect("refusal 14");
        let catch = t.part(n, ALTERNATE).and_then(|clause| t.part(clause, BODY));
        let last = t.part(n, FINALLY);
        // Within a Try that has a finally one more end is pending, and while that runs too.
        let mut inside = way.clone();
        inside.depth += u32::from(last.is_some());
        let opens = 2 * u32::from(last.is_some());
        let behind_block = self.here() + opens + size(t, block);
        let behind_catch = behind_block + catch.map_or(0, |b| size(t, b));
        if last.is_some() {
            self.put(Open(behind_catch));
        }
        let throws = if catch.is_some() { inside.here(behind_block) } else { way.throws };
        self.statement(block, &Way { throws, ..inside.clone() });
        catch.into_iter().for_each(|b| self.statement(b, &inside));
        // The place 0 is what waits for the finally's end.
        last.into_iter().for_each(|b| self.statement(b, &inside.on_to(inside.here(0))));
    }
}
