//! The walk up the ancestors on a tree of depth 512: one walk of 512 steps without a division, as in the library, and with
//! one in each step (crates/bench_walk, for this benchmark alone); and the calls whose walks are long, by the library that is
//! linked. `VELKUNSHE_LIB` names another archive, as that of an earlier state.

#[path = "../clock.rs"]
mod clock;
#[path = "../shapes.rs"]
#[allow(dead_code)]
mod shapes;

use plain::reader::OwnedTables;
use shapes::SHAPES;
use velkunshe::{CODE, Rule};

#[link(name = "bench_walk", kind = "static")]
unsafe extern "C" {
    fn bench_walks(
        source_type: u32,
        nodes: *const u32,
        nodes_length: usize,
        scopes: *const u32,
        scopes_length: usize,
        source: *const u8,
        source_length: usize,
        names: *const u8,
        names_length: usize,
        walks: u32,
        divided: u32,
    ) -> u32;

    fn bench_refusal(
        source_type: u32,
        nodes: *const u32,
        nodes_length: usize,
        scopes: *const u32,
        scopes_length: usize,
        source: *const u8,
        source_length: usize,
        names: *const u8,
        names_length: usize,
    ) -> u32;
}

const DEPTH: u32 = 512;
const PROGRAM: u32 = 0;
const BLOCK: u32 = 5;
const STATEMENT: u32 = 22;
/// So many walks are timed at once, so that the test of the tables before them counts for little.
const WALKS: u32 = 20_000;
const BATCHES: usize = 15;

fn main() {
    let once = match std::env::args().nth(1).as_deref() {
        None => false,
        Some("--once") => true,
        Some(other) => panic!("{other}: --once or nothing"),
    };
    let batches = if once { 1 } else { BATCHES };
    let tables = chain();
    // They take turns.
    let [mut plain, mut divided] = [f64::INFINITY; 2];
    for _ in 0..batches {
        plain = plain.min(timed(|| walks(&tables, 0)));
        divided = divided.min(timed(|| walks(&tables, 1)));
    }
    let each = 1e9 / f64::from(WALKS);
    println!("one walk of {DEPTH} steps; nanoseconds");
    println!("without a division {:8.1}", plain * each);
    println!("with a division    {:8.1}   ({:.2})\n", divided * each, divided / plain);
    println!("calls on trees of depth {DEPTH}; nanoseconds for one node");
    for shape in SHAPES.iter().filter(|s| ["depth 512", "breaks deep down"].contains(&s.name)) {
        let tables = (shape.make)(shape.sizes[0]);
        let nodes = tables.nodes.len() / 10;
        let mut slice = vec![0; CODE * nodes];
        let [mut checked, mut coded] = [f64::INFINITY; 2];
        for _ in 0..batches {
            checked = checked.min(timed(|| check(&tables, &mut slice)));
            coded = coded.min(timed(|| code(&tables, &mut slice)));
        }
        let each = 1e9 / nodes as f64;
        println!("{:18} {nodes:6} nodes: check {:8.1}, code {:8.1}", shape.name, checked * each, coded * each);
    }
}

/// A program, blocks in one another, and a statement: the last node is at the depth limit.
fn chain() -> OwnedTables {
    let mut tables = OwnedTables { scopes: vec![0, 2, 0], ..OwnedTables::default() };
    for n in 0..=DEPTH {
        let (kind, role) = match n {
            0 => (PROGRAM, 0),
            DEPTH => (STATEMENT, 3),
            _ => (BLOCK, 3),
        };
        tables.nodes.extend([kind, n.saturating_sub(1), role, 0, 0, 0, 0, 0, 0, 0]);
    }
    assert!(plain::input_refusal(&tables.lend()).is_none(), "well-formed tables");
    assert_eq!(refusal(&tables), 0, "the archive of the benchmark takes them too");
    tables
}

/// What the archive of the benchmark says of the tables.
fn refusal(t: &OwnedTables) -> u32 {
    let (nodes, scopes, source, names) = (&t.nodes, &t.scopes, &t.source, &t.names);
    // SAFETY: each pointer and length is a slice's; the call only reads.
    unsafe {
        bench_refusal(
            t.source_type,
            nodes.as_ptr(),
            nodes.len(),
            scopes.as_ptr(),
            scopes.len(),
            source.as_ptr(),
            source.len(),
            names.as_ptr(),
            names.len(),
        )
    }
}

fn walks(t: &OwnedTables, divided: u32) {
    let (nodes, scopes, source, names) = (&t.nodes, &t.scopes, &t.source, &t.names);
    // SAFETY: each pointer and length is a slice's; the call only reads.
    let done = unsafe {
        bench_walks(
            t.source_type,
            nodes.as_ptr(),
            nodes.len(),
            scopes.as_ptr(),
            scopes.len(),
            source.as_ptr(),
            source.len(),
            names.as_ptr(),
            names.len(),
            WALKS,
            divided,
        )
    };
    assert_eq!(done, WALKS, "no ancestor has such a kind");
}

fn rule(t: &OwnedTables) -> Rule<'_> {
    Rule {
        source_type: t.source_type,
        async_bodies: false,
        nodes: &t.nodes,
        scopes: &t.scopes,
        source: &t.source,
        names: &t.names,
    }
}

fn check(t: &OwnedTables, slice: &mut [u32]) {
    velkunshe::check(&rule(t), slice).expect("well-formed tables");
}

fn code(t: &OwnedTables, slice: &mut [u32]) {
    velkunshe::code(&rule(t), 0, slice).expect("no findings");
}

/// The seconds of one pass.
fn timed(pass: impl FnOnce()) -> f64 {
    let start = clock::seconds();
    pass();
    clock::seconds() - start
}
