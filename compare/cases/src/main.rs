//! Seeded tables, on which the judges are compared.
//!
//!     compare run CASES SEED        compare, and print the counts
//!     compare show SEED INDEX       the lines of one case
//!     compare vectors DIR CASES SEED   write NAME.in and NAME.out for rulecheck and ruleroute
//!     compare stored FILE           the codes and routes of the file, as the plain version and the library give them now
//!     compare store FILE TREES SEED    write such a file, by the proved library alone

mod clashes;
mod counts;
mod flat;
mod lent;
mod over_code;
#[cfg(feature = "proved")]
mod proved;
mod second;
mod stored;

use std::panic;

use cases::rng::Rng;
use cases::{edits, grammar};
use judge::{Verdict, judge};
use plain::reader::{OwnedTables, rulecheck, ruleroute};
use plain::{Refusal, Tables};

use counts::Counts;

/// The most numbers of code for a node, by the table of docs/CODE.md; the unit's own has 8.
const MOST_CODE: usize = 10;

fn main() {
    let args: Vec<String> = std::env::args().skip(1).collect();
    let number = |i: usize| args.get(i).and_then(|a| a.parse().ok()).unwrap_or_else(usage);
    quiet();
    match args.first().map(String::as_str) {
        Some("run") => run(number(1), number(2)),
        Some("show") => show(number(1), number(2)),
        Some("vectors") => vectors(args.get(1).unwrap_or_else(usage), number(2), number(3)),
        Some("stored") => stored::check(args.get(1).unwrap_or_else(usage)),
        #[cfg(feature = "proved")]
        Some("store") => stored::write(args.get(1).unwrap_or_else(usage), number(2), number(3)),
        _ => usage(),
    }
}

/// The crate's text may panic at a Super; that is an answer. Other panics are told.
fn quiet() {
    let tell = panic::take_hook();
    panic::set_hook(Box::new(move |info| {
        if !info.location().is_some_and(|l| l.file().contains("vendor")) {
            tell(info);
        }
    }));
}

fn usage<T>() -> T {
    eprintln!("compare run CASES SEED | show SEED INDEX | vectors DIR CASES SEED | stored FILE");
    eprintln!("with the feature proved also: compare store FILE TREES SEED");
    std::process::exit(2)
}

/// What a case is made from.
#[derive(Clone, Copy, PartialEq, Eq)]
pub enum Sort {
    /// As a parser would make it.
    Source,
    /// The same without findings, for routes.
    Calm,
    /// Changed so that no source text yields it.
    Wild,
    Damaged,
    Huge,
}

/// The tables of a case and the numbers that its routes are made with.
fn case(seed: u64, index: u64) -> (Sort, OwnedTables, Rng) {
    let mut rng = Rng::new(seed.wrapping_mul(0x2545_f491_4f6c_dd1d) ^ index);
    let size = rng.pick(&[4, 8, 16, 24, 40, 80]);
    if index % 5_000 == 4_999 {
        return (Sort::Huge, edits::huge(&mut rng), rng);
    }
    let (sort, calm) = match rng.below(11) {
        0..=2 => (Sort::Source, false),
        3 | 4 => (Sort::Calm, true),
        5..=8 => (Sort::Wild, rng.once_in(6)),
        _ => (Sort::Damaged, rng.once_in(3)),
    };
    let make = if index % 4 == 2 { grammar::typescript } else { grammar::tables };
    let mut tables = make(&mut rng, size, calm);
    if sort == Sort::Wild || sort == Sort::Damaged {
        if sort == Sort::Wild && calm {
            edits::reorder(&mut rng, &mut tables);
        }
        if rng.once_in(3) {
            edits::rescope(&mut rng, &mut tables);
        }
        if rng.once_in(3) {
            edits::tangle(&mut rng, &mut tables);
        }
        for _ in 0..1 + rng.below(8) {
            edits::gentle(&mut rng, &mut tables);
        }
    }
    if sort == Sort::Damaged {
        for _ in 0..1 + rng.below(2) {
            edits::rough(&mut rng, &mut tables);
        }
    }
    (sort, tables, rng)
}

/// Answers for a route: few, most of them small.
fn answers(rng: &mut Rng) -> Vec<u32> {
    let length = rng.pick(&[0, 1, 2, 3, 5, 8, 20, 50]);
    (0..length).map(|_| rng.pick(&[0, 0, 1, 1, 1, 2, 3, 7, 4_294_967_295])).collect()
}

fn run(cases: u64, seed: u64) {
    let counts = compare_all(cases, seed);
    print!("{counts}");
    if counts.differences > 0 {
        std::process::exit(1);
    }
}

/// Stops at the tenth difference.
fn compare_all(cases: u64, seed: u64) -> Counts {
    let mut counts = Counts::new();
    #[cfg(feature = "proved")]
    if let Err(what) = proved::at_limits(&mut counts) {
        counts.differences += 1;
        println!("difference at a limit: {what}");
    }
    for index in 0..cases {
        let (sort, tables, mut rng) = case(seed, index);
        counts.case(sort, tables.source_type);
        if let Err(what) = compare(&tables.lend(), sort, &mut rng, &mut counts) {
            counts.differences += 1;
            println!("difference in case {index} of seed {seed}: {what}");
            if counts.differences == 10 {
                break;
            }
        }
    }
    counts
}

/// All that can be compared of one case.
fn compare(t: &Tables, sort: Sort, rng: &mut Rng, counts: &mut Counts) -> Result<(), String> {
    let refusal = plain::input_refusal(t).map(|r| (r.number, r.place));
    counts.refusal(sort, refusal.map_or(0, |r| r.0));
    if let Some((13, child)) = refusal
        && let Some(parent) = plain::refusals::wrong_count(t)
    {
        counts.both += 1;
        counts.lower += u64::from(parent < child);
    }
    // The plain version says of itself where Super's walks begin to matter.
    let before_walks = plain::refusals::refusal_before_walks(t).map(|r| (r.number, r.place));
    // It goes over all nodes for each node.
    if t.node_count() < 2000 {
        let second = second::refusal(t);
        same("refusal, plain and second reading", &before_walks, &second)?;
    }
    if before_walks.is_none() {
        let verdict = judge(t.source_type, t.nodes, t.scopes, t.source, t.names);
        let plain = match refusal {
            Some((6, place)) => Verdict::Stuck(place as u32),
            // 15 is no matter of the crate's text.
            _ => Verdict::Findings(plain::findings(t).iter().map(|f| as_the_crate(t, f)).collect()),
        };
        same("findings, plain and the crate's text", &plain, &verdict)?;
        if let Verdict::Findings(found) = &verdict {
            class_elements(t, found, counts)?;
            counts.findings(sort, found);
            same("refusal 15, plain and second reading", &refusal, &second::static_return(t))?;
        } else {
            counts.stuck += 1;
        }
    }
    calls(t, refusal)?;
    if refusal.is_none() && t.node_count() < 2000 {
        routes(t, rng, counts)?;
    }
    #[cfg(feature = "proved")]
    proved::compare(t, rng, counts)?;
    lent_code(rng, counts)
}

/// A lent code slice, of no tree.
fn lent_code(rng: &mut Rng, counts: &mut Counts) -> Result<(), String> {
    let (code, answers) = (lent::code(rng), answers(rng));
    counts.lent_code(&code);
    lent::compare(&code, &answers)?;
    #[cfg(feature = "proved")]
    proved::lent_code(&code, &answers, counts)?;
    Ok(())
}

/// The findings at two class elements, which alone have code 1 or 35 at node 0.
fn class_elements(t: &Tables, found: &[[u32; 7]], counts: &mut Counts) -> Result<(), String> {
    if t.node_count() >= 2000 {
        return Ok(());
    }
    let clashes = clashes::of(t);
    counts.typescript(t, &clashes, found);
    let second: Vec<[u32; 7]> = clashes.into_iter().map(|clash| clash.1).collect();
    let found: Vec<[u32; 7]> = found.iter().copied().filter(|f| f[1] == 0 && matches!(f[0], 1 | 35)).collect();
    same("clashes of class elements, plain and second reading", &found, &second)
}

/// The crate's text gives no second span for an escape of a string (codes 9 and 11), so that one is not compared with it.
fn as_the_crate(t: &Tables, f: &plain::Finding) -> [u32; 7] {
    let mut numbers = f.numbers();
    if matches!(f.code, 9 | 11) && t.kind(f.node as usize) == plain::tables::STRING_LITERAL {
        numbers[4..6].fill(0);
    }
    numbers
}

fn same<T: PartialEq + std::fmt::Debug>(what: &str, a: &T, b: &T) -> Result<(), String> {
    if a == b { Ok(()) } else { Err(format!("{what}\n  {a:?}\n  {b:?}")) }
}

/// The check call of the plain version with a slice too short, exact and too long.
fn calls(t: &Tables, refusal: Option<(u32, usize)>) -> Result<(), String> {
    let found = if refusal.is_none() { plain::findings(t) } else { Vec::new() };
    let needed = 7 * found.len();
    for length in [needed.saturating_sub(1), needed, needed + 3] {
        let mut out = vec![77; length];
        let answer = plain::check(t, &mut out);
        let expected = match refusal {
            Some((number, place)) => Err(Refusal { number, place, needed: None }),
            None if length < needed => Err(Refusal { number: 10, place: 0, needed: Some(needed as u64) }),
            None => Ok(found.len()),
        };
        same("the check call", &answer, &expected)?;
        let mut written: Vec<u32> =
            if answer.is_ok() { found.iter().flat_map(plain::Finding::numbers).collect() } else { Vec::new() };
        written.resize(length, 77);
        same("the findings slice", &out, &written)?;
    }
    Ok(())
}

/// Each unit with some answers, and numbers that are no unit.
fn routes(t: &Tables, rng: &mut Rng, counts: &mut Counts) -> Result<(), String> {
    let no_unit = rng.below(t.node_count() + 2);
    let units = (0..t.node_count()).filter(|&n| t.kind(n) <= 3).chain([no_unit]);
    for unit in units {
        let answers = answers(rng);
        let mut out = vec![77; 1 + (answers.len() + 1) * t.node_count()];
        let answer = plain::route(t, unit as u32, &answers, MOST_CODE * t.node_count(), &mut out);
        counts.route(&answer);
        let Ok(route) = answer else { continue };
        counts.unit(t, unit);
        let length = plain::code_length(t, unit);
        same(&format!("code's length of {unit}, plain and second reading"), &length, &second::code_length(t, unit))?;
        let needed = Err(Refusal { number: 11, place: 0, needed: Some(length as u64) });
        same("a code slice one too short", &plain::route(t, unit as u32, &answers, length - 1, &mut out), &needed)?;
        same("a code slice of the code's length", &plain::code_refusal(t, unit as u32, length), &Ok(length))?;
        counts.codes(over_code::compare(t, unit, &answers, rng)?);
        let second = second::route(t, unit, &answers);
        let plain = (out[..route.entries].to_vec(), route.end, route.answers_taken);
        same(&format!("route of {unit} with {answers:?}, plain and second reading"), &plain, &second)?;
        counts.entries += route.entries as u64;
    }
    Ok(())
}

/// Tables as rulecheck's lines, where they can be written so.
fn lines(tables: &OwnedTables) -> Option<Vec<u8>> {
    let t = tables.lend();
    let whole = t.nodes.len().is_multiple_of(10) && t.scopes.len().is_multiple_of(3);
    let small = t.node_count() <= 1024 && t.scope_count() <= 1024;
    let named = |n: usize| {
        let end = u64::from(t.name_start(n)) + u64::from(t.name_length(n));
        end <= t.names.len() as u64 && !t.name(n).contains(&b'\n')
    };
    (whole && small && (0..t.node_count()).all(named)).then(|| tables.lines())
}

fn show(seed: u64, index: u64) {
    use std::io::Write;
    let (_, tables, _) = case(seed, index);
    match lines(&tables) {
        Some(lines) => std::io::stdout().write_all(&lines).expect("standard output"),
        None => println!("{tables:?}"),
    }
}

/// Files for replaying; what is not well-formed is kept seldom.
fn vectors(dir: &str, cases: u64, seed: u64) {
    std::fs::create_dir_all(dir).expect("the folder");
    let (mut index, mut written) = (0, 0);
    while written < cases {
        let (sort, tables, mut rng) = case(seed, index);
        index += 1;
        let Some(mut lines) = lines(&tables).filter(|_| sort != Sort::Huge) else { continue };
        let out = rulecheck(&lines);
        if out.starts_with('R') && !rng.once_in(4) {
            continue;
        }
        let write = |name: String, bytes: &[u8]| std::fs::write(format!("{dir}/{name}"), bytes).expect("a file");
        write(format!("{written:05}.check.in"), &lines);
        write(format!("{written:05}.check.out"), out.as_bytes());
        let units: Vec<usize> = (0..tables.lend().node_count()).filter(|&n| tables.lend().kind(n) <= 3).collect();
        let unit = if units.is_empty() || rng.once_in(20) { rng.below(50) } else { rng.pick(&units) };
        let answers: String = answers(&mut rng).iter().map(|a| format!(",{a}")).collect();
        lines.extend(format!("U,{unit}\nA{answers}\n").bytes());
        write(format!("{written:05}.route.in"), &lines);
        write(format!("{written:05}.route.out"), ruleroute(&lines).as_bytes());
        written += 1;
    }
}

#[test]
fn judges_agree_and_everything_is_seen() {
    quiet();
    let counts = compare_all(20_000, 1);
    assert_eq!(counts.differences, 0);
    assert_eq!(counts.unseen(), (Vec::new(), Vec::new()));
}
