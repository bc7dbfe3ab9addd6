//! Codes and routes of units without `try`, kept in a file with all that they were made from, so that later versions can
//! be compared with it whatever the generator has become.
//!
//! A line is a letter and numbers with commas. `T` a tree: the source type. `S` its scopes and `N` its nodes, each record
//! behind a semicolon: parent, flags, node; kind, parent, role, scope, flags, extra, name. There an empty number is 0, and
//! zeros at a record's end are left out. Spans are 0,0 and the source is empty: neither code nor route reads them. `U` a
//! unit of the tree, `C` its code. Then for each list of answers `A` the answers, `L` the nodes listed, `Z` end and answers
//! taken.

mod seen;
#[cfg(feature = "proved")]
mod write;

use std::fmt::{self, Write};

use cases::rng::Rng;
use plain::Tables;
use plain::reader::OwnedTables;
use plain::tables::*;

use crate::{over_code, same};
use seen::Seen;
#[cfg(feature = "proved")]
pub use write::write;

/// No more differences than these are told.
const MOST_DIFFERENCES: usize = 10;

/// List, end and answers taken.
pub type RouteAnswer = Result<(Vec<u32>, u32, usize), plain::Refusal>;

pub struct Tree {
    pub tables: OwnedTables,
    pub units: Vec<Unit>,
}

pub struct Unit {
    /// Where it stands in the file, from 1.
    line: usize,
    pub number: u32,
    pub code: Vec<u32>,
    pub runs: Vec<Run>,
}

#[derive(Clone, Debug, Default, PartialEq, Eq)]
pub struct Run {
    pub answers: Vec<u32>,
    pub list: Vec<u32>,
    pub end: u32,
    pub taken: u32,
}

impl fmt::Display for Tree {
    fn fmt(&self, f: &mut fmt::Formatter<'_>) -> fmt::Result {
        let t = self.tables.lend();
        write!(f, "T,{}\nS", t.source_type)?;
        t.scopes.chunks(SCOPE).try_for_each(|s| write!(f, ";{}", record(s, "")))?;
        f.write_str("\nN")?;
        for n in 0..t.node_count() {
            let name = String::from_utf8_lossy(t.name(n));
            let numbers = [t.kind(n), t.parent(n) as u32, t.role(n), t.scope(n) as u32, t.flags(n), t.extra(n)];
            write!(f, ";{}", record(&numbers, &name))?;
        }
        f.write_char('\n')?;
        self.units.iter().try_for_each(|unit| write!(f, "{unit}"))
    }
}

impl fmt::Display for Unit {
    fn fmt(&self, f: &mut fmt::Formatter<'_>) -> fmt::Result {
        write!(f, "U,{}\nC{}\n", self.number, numbers(&self.code))?;
        self.runs
            .iter()
            .try_for_each(|r| write!(f, "A{}\nL{}\nZ,{},{}\n", numbers(&r.answers), numbers(&r.list), r.end, r.taken))
    }
}

fn numbers(list: &[u32]) -> String {
    list.iter().map(|n| format!(",{n}")).collect()
}

/// The first number is always written, then as much as is not 0 or empty.
fn record(numbers: &[u32], name: &str) -> String {
    let digits = |&n: &u32| if n == 0 { String::new() } else { n.to_string() };
    let mut text = numbers[0].to_string();
    numbers[1..].iter().map(digits).chain([name.to_string()]).for_each(|field| text += &format!(",{field}"));
    text.truncate(text.trim_end_matches(',').len());
    text
}

/// All trees of a file, or the line that can't be read.
fn read(text: &str) -> Result<Vec<Tree>, usize> {
    let mut trees: Vec<Tree> = Vec::new();
    for (at, line) in text.lines().enumerate() {
        read_line(&mut trees, at + 1, line).ok_or(at + 1)?;
    }
    Ok(trees)
}

fn read_line(trees: &mut Vec<Tree>, at: usize, line: &str) -> Option<()> {
    let (letter, rest) = line.split_at_checked(1)?;
    if letter == "T" {
        let tables = OwnedTables { source_type: only(rest)?, ..OwnedTables::default() };
        trees.push(Tree { tables, units: Vec::new() });
        return Some(());
    }
    let tree = trees.last_mut()?;
    match letter {
        "S" => rest.split(';').skip(1).try_for_each(|text| scope(&mut tree.tables, text))?,
        "N" => rest.split(';').skip(1).try_for_each(|text| node(&mut tree.tables, text))?,
        "U" => tree.units.push(Unit { line: at, number: only(rest)?, code: Vec::new(), runs: Vec::new() }),
        "C" => tree.units.last_mut()?.code = list(rest)?,
        "A" => tree.units.last_mut()?.runs.push(Run { answers: list(rest)?, ..Run::default() }),
        "L" => tree.units.last_mut()?.runs.last_mut()?.list = list(rest)?,
        "Z" => {
            let run = tree.units.last_mut()?.runs.last_mut()?;
            [run.end, run.taken] = list(rest)?.try_into().ok()?;
        }
        _ => return None,
    }
    Some(())
}

/// `,1,2`, or nothing.
fn list(text: &str) -> Option<Vec<u32>> {
    text.split(',').skip(1).map(|n| n.parse().ok()).collect()
}

fn only(text: &str) -> Option<u32> {
    list(text)?.try_into().ok().map(|[n]: [u32; 1]| n)
}

/// So many numbers, and the rest as name.
fn fields<const N: usize>(text: &str) -> Option<([u32; N], &str)> {
    let mut parts = text.splitn(N + 1, ',');
    let mut numbers = [0; N];
    for number in &mut numbers {
        let digits = parts.next().unwrap_or("");
        *number = if digits.is_empty() { 0 } else { digits.parse().ok()? };
    }
    Some((numbers, parts.next().unwrap_or("")))
}

fn scope(t: &mut OwnedTables, text: &str) -> Option<()> {
    let (numbers, _) = fields::<SCOPE>(text)?;
    t.scopes.extend(numbers);
    Some(())
}

fn node(t: &mut OwnedTables, text: &str) -> Option<()> {
    let ([kind, parent, role, scope, flags, extra], name) = fields(text)?;
    let (start, length) = (t.names.len() as u32, name.len() as u32);
    t.nodes.extend([kind, parent, role, 0, 0, scope, flags, extra, start, length]);
    t.names.extend(name.bytes());
    Some(())
}

/// Says what differs and what was seen; a difference, or a part of the language that is missing, is a failure.
pub fn check(path: &str) {
    let text = std::fs::read_to_string(path).expect("the file");
    let trees = read(&text).unwrap_or_else(|line| panic!("line {line} of {path} can't be read"));
    let again: String = trees.iter().map(Tree::to_string).collect();
    assert!(again == text, "{path} holds something else than its trees");
    let mut differences = 0;
    let mut seen = Seen::default();
    let units = trees.iter().flat_map(|tree| tree.units.iter().map(|unit| (tree.tables.lend(), unit)));
    for (t, unit) in units {
        seen.unit(&t, unit);
        for what in differs(&t, unit).into_iter().take(MOST_DIFFERENCES.saturating_sub(differences)) {
            differences += 1;
            println!("difference at line {} of {path}, unit {}: {what}", unit.line, unit.number);
        }
    }
    print!("{seen}");
    let whom = if cfg!(feature = "proved") { "plain and proved" } else { "plain" };
    println!("{} trees, {} units, {} routes, {whom}: {differences} differences", trees.len(), seen.units, seen.routes);
    if differences > 0 || !seen.missing().is_empty() {
        std::process::exit(1);
    }
}

/// In each difference the stored answer comes first.
fn differs(t: &Tables, unit: &Unit) -> Vec<String> {
    let mut found = Vec::new();
    let length = plain::code_length(t, unit.number as usize);
    found.extend(same("the code's length, stored and as a sum over the unit's nodes", &unit.code.len(), &length).err());
    #[cfg(feature = "proved")]
    found
        .extend(same("code, stored and proved", &Ok(unit.code.clone()), &crate::proved::code_of(t, unit.number)).err());
    for run in &unit.runs {
        let stored: RouteAnswer = Ok((run.list.clone(), run.end, run.taken as usize));
        let mut compare = |whom: &str, now: RouteAnswer| {
            found.extend(same(&format!("route with {:?}, stored and {whom}", run.answers), &stored, &now).err());
        };
        compare("plain", plain_route(t, unit.number, &run.answers));
        #[cfg(feature = "proved")]
        compare("proved", crate::proved::route_of(t, unit.number, &run.answers));
        let mut rng = Rng::new(unit.line as u64);
        found.extend(over_code::over(t, unit.number as usize, &unit.code, &run.answers, &mut rng).err());
    }
    found
}

fn plain_route(t: &Tables, unit: u32, answers: &[u32]) -> RouteAnswer {
    plain::needed_code(t, unit)?;
    let run = plain::routes::run(t, unit as usize, answers);
    Ok((run.list, run.end, run.answers_taken))
}
