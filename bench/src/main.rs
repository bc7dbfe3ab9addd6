//! The calls of the proved library beside the plain Rust version and the crate's own text over its stand-in, in one run.
//!
//!     bench [typical | shapes | stack]      the first two by default

mod calls;
mod clock;
mod shapes;
mod stack;

use calls::{CALLS, Call, Contender, Input, Slices};
use cases::grammar;
use cases::rng::Rng;
use plain::reader::OwnedTables;
use shapes::{SHAPES, Shape};

fn main() {
    let which = std::env::args().nth(1);
    if which.as_deref() == Some("stack") {
        return stack::print();
    }
    if which.as_deref() != Some("shapes") {
        CALLS.iter().for_each(typical);
    }
    if which.as_deref() != Some("typical") {
        CALLS.iter().for_each(worst);
    }
}

/// A ratio of two contenders, or a stroke where there is no second.
fn ratio(times: &[f64], i: usize) -> String {
    times.get(i).map_or("-".into(), |t| format!("{:.2}", times[0] / t))
}

fn number(times: &[f64], i: usize, scale: f64) -> String {
    times.get(i).map_or("-".into(), |t| format!("{:.2}", t * scale))
}

/// Rules of 20 to 1,000 nodes, as a parser makes them; those for code and routes have no findings.
fn typical(call: &Call) {
    println!("{}: typical rules, 40 of each size; microseconds for one rule", call.name);
    println!(
        "{:>6} {:>9} {:>9} {:>9} {:>9} {:>7} {:>7}",
        "nodes", "written", "proved", "plain", "crate", "/plain", "/crate"
    );
    let mut largest: f64 = 0.0;
    for calm in if call.name == "check" { vec![true, false] } else { vec![true] } {
        for size in [20, 50, 100, 200, 500, 1_000] {
            let mut rng = Rng::new(size as u64);
            let rules: Vec<Input> = (0..40).map(|_| well_formed(&mut rng, size, calm, call)).collect();
            let each = 1.0 / rules.len() as f64;
            let (written, times) = time(call, &rules);
            let nodes: usize = rules.iter().map(Input::nodes).sum();
            largest = largest.max(times[0] / times[1]);
            println!(
                "{:6.0} {:9.1} {:>9} {:>9} {:>9} {:>7} {:>7}",
                nodes as f64 * each,
                written as f64 * each,
                number(&times, 0, 1e6 * each),
                number(&times, 1, 1e6 * each),
                number(&times, 2, 1e6 * each),
                ratio(&times, 1),
                ratio(&times, 2)
            );
        }
    }
    println!("largest ratio to the plain version: {largest:.2} (aim: 1.5)\n");
}

fn well_formed(rng: &mut Rng, size: usize, calm: bool, call: &Call) -> Input {
    loop {
        let tables = grammar::tables(rng, size, calm);
        let answers = (0..64).map(|_| rng.number(3)).collect();
        let taken = if call.name == "check" {
            plain::input_refusal(&tables.lend()).is_none()
        } else {
            plain::code_refusal(&tables.lend(), 0, usize::MAX).is_ok()
        };
        if taken {
            return Input::new(tables, answers);
        }
    }
}

/// The worst shapes at two sizes, and the power of the size by which the time grows between them.
fn worst(call: &Call) {
    println!(
        "{}: worst shapes; nanoseconds for one node, and the power of the size by which the time grows",
        call.name
    );
    println!(
        "{:52} {:>6} {:>6} {:>9} {:>10} {:>10} {:>10} {:>7} {:>7}   growth: proved, plain, crate",
        "shape", "size", "nodes", "written", "proved", "plain", "crate", "/plain", "/crate"
    );
    for shape in SHAPES.iter().filter(|s| call.name == "check" || s.routes) {
        let [small, large] = shape.sizes.map(|size| sized(call, shape, size));
        let power = |i: usize| (large.times[i] / small.times[i]).ln() / (large.size / small.size).ln();
        let powers: String = (0..large.times.len()).map(|i| format!(" {:.2}", power(i))).collect();
        small.print(shape.name, "");
        large.print("", &format!("  {powers}"));
    }
    println!();
}

struct Timed {
    size: f64,
    nodes: f64,
    written: usize,
    times: Vec<f64>,
}

fn sized(call: &Call, shape: &Shape, size: usize) -> Timed {
    let tables: OwnedTables = (shape.make)(size);
    let rules = [Input::new(tables, shapes::answers(size))];
    let (written, times) = time(call, &rules);
    Timed { size: size as f64, nodes: rules[0].nodes() as f64, written, times }
}

impl Timed {
    fn print(&self, name: &str, growth: &str) {
        let each = |i: usize| number(&self.times, i, 1e9 / self.nodes);
        println!(
            "{name:52} {:6} {:6} {:9} {:>10} {:>10} {:>10} {:>7} {:>7}{growth}",
            self.size,
            self.nodes,
            self.written,
            each(0),
            each(1),
            each(2),
            ratio(&self.times, 1),
            ratio(&self.times, 2)
        );
    }
}

/// How much is written (findings, numbers of code, entries), and the least seconds that each contender takes for all
/// rules. They take turns; what is quick is run more often. The proved answer must be the plain one.
fn time(call: &Call, rules: &[Input]) -> (usize, Vec<f64>) {
    let mut slices = Slices::for_all(rules);
    let written = rules.iter().map(|rule| (call.compare)(rule)).sum();
    let mut least = vec![f64::INFINITY; call.contenders.len()];
    for _ in 0..9 {
        for (contender, least) in call.contenders.iter().zip(&mut least) {
            if *least < 0.3 || least.is_infinite() {
                *least = least.min(batch(rules, &mut slices, *contender));
            }
        }
    }
    (written, least)
}

/// The seconds of one pass over the rules, from as many passes as fill some milliseconds.
fn batch(rules: &[Input], slices: &mut Slices, contender: Contender) -> f64 {
    let start = clock::seconds();
    let mut passes = 0;
    while passes == 0 || clock::seconds() - start < 0.01 {
        rules.iter().for_each(|rule| contender(rule, slices));
        passes += 1;
    }
    (clock::seconds() - start) / f64::from(passes)
}
