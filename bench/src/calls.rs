//! Who is timed in each call: the proved library, the plain version, and for `check` the crate's text. That one gives no
//! refusals and writes to no slice, and makes its tree of the tables first. The plain version makes no code: of the code
//! call it has the refusals alone, and its route is its walk. What it makes shorter and runs is the proved library's code.

use std::hint::black_box;

use plain::reader::OwnedTables;
use velkunshe::{CODE, Rule};

pub struct Input {
    tables: OwnedTables,
    /// For the route of the program.
    answers: Vec<u32>,
    /// The code of the program, and its shorter one; none where it is refused.
    code: Vec<u32>,
    shorter: Vec<u32>,
}

impl Input {
    pub fn new(tables: OwnedTables, answers: Vec<u32>) -> Input {
        let mut input = Input { tables, answers, code: Vec::new(), shorter: Vec::new() };
        input.code = velkunshe::code_of(&input.rule(), 0).unwrap_or_default();
        input.shorter = velkunshe::shortened(input.code.clone()).unwrap_or_default();
        input
    }

    pub fn nodes(&self) -> usize {
        self.tables.nodes.len() / 10
    }

    pub fn answers(&self) -> &[u32] {
        &self.answers
    }

    pub fn rule(&self) -> Rule<'_> {
        let t = &self.tables;
        Rule {
            source_type: t.source_type,
            async_bodies: false,
            nodes: &t.nodes,
            scopes: &t.scopes,
            source: &t.source,
            names: &t.names,
        }
    }
}

/// Slices with room for any of the rules.
pub struct Slices {
    findings: Vec<u32>,
    code: Vec<u32>,
    route: Vec<u32>,
}

impl Slices {
    pub fn for_all(rules: &[Input]) -> Slices {
        let most = |f: fn(&Input) -> usize| vec![0; rules.iter().map(f).max().unwrap_or(0)];
        Slices { findings: most(room_for_findings), code: most(|r| CODE * r.nodes()), route: most(room_for_route) }
    }

    pub fn code(&mut self) -> &mut [u32] {
        &mut self.code
    }
}

fn room_for_findings(rule: &Input) -> usize {
    7 * plain::findings(&rule.tables.lend()).len()
}

/// No entry comes twice without an answer between.
fn room_for_route(rule: &Input) -> usize {
    rule.nodes() + 8 * rule.answers.len()
}

pub type Contender = fn(&Input, &mut Slices);

pub struct Call {
    pub name: &'static str,
    pub contenders: &'static [Contender],
    /// That the proved answer is the plain one; gives how much was written.
    pub compare: fn(&Input) -> usize,
}

pub const CALLS: [Call; 7] = [
    Call { name: "check", contenders: &[check, plain_check, crate_check], compare: compare_check },
    Call { name: "code", contenders: &[code, plain_code_refusal], compare: compare_code },
    Call { name: "route", contenders: &[route, plain_route], compare: compare_route },
    Call { name: "walk", contenders: &[walk, plain_walk], compare: compare_walk },
    Call { name: "shorten", contenders: &[shorten, plain_shorten], compare: compare_shorten },
    Call { name: "run", contenders: &[run, plain_run], compare: compare_run },
    Call {
        name: "run of the shorter code",
        contenders: &[run_shorter, plain_run_shorter],
        compare: compare_run_shorter,
    },
];

fn check(rule: &Input, slices: &mut Slices) {
    let _ = black_box(velkunshe::check(&rule.rule(), &mut slices.findings));
}

fn plain_check(rule: &Input, slices: &mut Slices) {
    let _ = black_box(plain::check(&rule.tables.lend(), &mut slices.findings));
}

fn crate_check(rule: &Input, _: &mut Slices) {
    let t = &rule.tables;
    black_box(judge::judge(t.source_type, &t.nodes, &t.scopes, &t.source, &t.names));
}

fn code(rule: &Input, slices: &mut Slices) {
    let _ = black_box(velkunshe::code(&rule.rule(), 0, &mut slices.code));
}

fn plain_code_refusal(rule: &Input, slices: &mut Slices) {
    let _ = black_box(plain::code_refusal(&rule.tables.lend(), 0, slices.code.len()));
}

fn route(rule: &Input, slices: &mut Slices) {
    let _ = black_box(velkunshe::route(&rule.rule(), 0, &rule.answers, &mut slices.code, &mut slices.route));
}

fn plain_route(rule: &Input, slices: &mut Slices) {
    let length = slices.code.len();
    let _ = black_box(plain::route(&rule.tables.lend(), 0, &rule.answers, length, &mut slices.route));
}

fn walk(rule: &Input, slices: &mut Slices) {
    let _ = black_box(velkunshe::walk(&rule.rule(), 0, &rule.answers, &mut slices.route));
}

fn plain_walk(rule: &Input, slices: &mut Slices) {
    let _ = black_box(plain::walk(&rule.tables.lend(), 0, &rule.answers, &mut slices.route));
}

/// The copy of the code is timed too, and so it is of the plain version.
fn shorten(rule: &Input, slices: &mut Slices) {
    let _ = black_box(velkunshe::shorten(copied(&rule.code, slices)));
}

fn plain_shorten(rule: &Input, slices: &mut Slices) {
    let _ = black_box(plain::shorten(copied(&rule.code, slices)));
}

fn copied<'s>(code: &[u32], slices: &'s mut Slices) -> &'s mut [u32] {
    let copy = &mut slices.code[..code.len()];
    copy.copy_from_slice(code);
    copy
}

fn run(rule: &Input, slices: &mut Slices) {
    let _ = black_box(velkunshe::run(&rule.code, &rule.answers, &mut slices.route));
}

fn plain_run(rule: &Input, slices: &mut Slices) {
    let _ = black_box(plain::run(&rule.code, &rule.answers, &mut slices.route));
}

fn run_shorter(rule: &Input, slices: &mut Slices) {
    let _ = black_box(velkunshe::run(&rule.shorter, &rule.answers, &mut slices.route));
}

fn plain_run_shorter(rule: &Input, slices: &mut Slices) {
    let _ = black_box(plain::run(&rule.shorter, &rule.answers, &mut slices.route));
}

fn compare_check(rule: &Input) -> usize {
    let mut expected = vec![0; room_for_findings(rule)];
    let mut found = expected.clone();
    let plain = plain::check(&rule.tables.lend(), &mut expected).expect("well-formed tables");
    assert_eq!(velkunshe::check(&rule.rule(), &mut found), Ok(plain));
    assert_eq!(found, expected);
    plain
}

fn compare_code(rule: &Input) -> usize {
    velkunshe::code(&rule.rule(), 0, &mut vec![0; CODE * rule.nodes()]).expect("no findings")
}

fn compare_route(rule: &Input) -> usize {
    let (mut code, mut expected) = (vec![0; CODE * rule.nodes()], vec![0; room_for_route(rule)]);
    let mut listed = expected.clone();
    let plain = plain::route(&rule.tables.lend(), 0, &rule.answers, code.len(), &mut expected).expect("no findings");
    let shown = velkunshe::route(&rule.rule(), 0, &rule.answers, &mut code, &mut listed).expect("no findings");
    assert_eq!((shown.entries, shown.taken), (plain.entries, plain.answers_taken as u64));
    assert_eq!(listed, expected);
    plain.entries
}

fn compare_walk(rule: &Input) -> usize {
    let mut expected = vec![0; room_for_route(rule)];
    let mut listed = expected.clone();
    let plain = plain::walk(&rule.tables.lend(), 0, &rule.answers, &mut expected).expect("no findings");
    let shown = velkunshe::walk(&rule.rule(), 0, &rule.answers, &mut listed).expect("no findings");
    assert_eq!((shown.entries, shown.taken), (plain.entries, plain.answers_taken as u64));
    assert_eq!(listed, expected);
    plain.entries
}

fn compare_shorten(rule: &Input) -> usize {
    let (mut expected, mut left) = (rule.code.clone(), rule.code.clone());
    let plain = plain::shorten(&mut expected).expect("a unit's code");
    let shorter = velkunshe::shorten(&mut left).expect("a unit's code");
    assert_eq!((shorter.length, shorter.freed), (plain, rule.code.len() - plain));
    assert_eq!(left, expected);
    plain
}

fn compare_run(rule: &Input) -> usize {
    same_run(rule, &rule.code)
}

fn compare_run_shorter(rule: &Input) -> usize {
    same_run(rule, &rule.shorter)
}

/// The run is the plain one, and the route of the tree.
fn same_run(rule: &Input, code: &[u32]) -> usize {
    let mut expected = vec![0; room_for_route(rule)];
    let (mut listed, mut walked) = (expected.clone(), expected.clone());
    let plain = plain::run(code, &rule.answers, &mut expected).expect("a unit's code");
    let shown = velkunshe::run(code, &rule.answers, &mut listed).expect("a unit's code");
    assert_eq!((shown.entries, shown.taken), (plain.entries, plain.answers_taken as u64));
    assert_eq!(plain::walk(&rule.tables.lend(), 0, &rule.answers, &mut walked), Ok(plain));
    assert_eq!((&listed, &listed), (&expected, &walked));
    plain.entries
}
