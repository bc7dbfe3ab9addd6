//! Calls of the proved library over lines as rulecheck and ruleroute read and print them, with the library's limits in
//! place of theirs: 65,535 nodes and scopes, 1,048,576 bytes of source and of names, and routes of any length.
//!
//!     rulecalls check     as rulecheck: F with seven numbers for each finding, then E with the count
//!     rulecalls route     as ruleroute: L,node for each entry, then Z,end,entries,answers taken
//!     rulecalls walk      as route, by the second engine
//!     rulecalls shared    behind the rule's lines U, A with answers and A with others: prints B,entries shared
//!     rulecalls rename    the rule's lines alone: prints them with its labels renamed
//!     rulecalls marks     behind the rule's lines U, then a line for each call over eight marks that are clear at first:
//!                         T,mark,stop,answers.. from the start, stopped; C,mark,answers.. taken up; D,from,to,stop,answers..
//!                         taken up and stopped again: prints what walk prints for each, end 4 where it was stopped
//!     rulecalls stopped   as walk, by a route that is stopped behind each answer and taken up again
//!     rulecalls shorter   as walk, by a run of the unit's code that was made shorter
//!     rulecalls codes     behind the rule's lines U: prints K with the unit's code, K with the shorter one, F,numbers freed
//!     rulecalls run       K with any numbers, A with answers, and no rule: prints what walk prints
//!
//! A refusal is printed as R,number,place, and R,0,line where a line can't be read or is missing. What is read and
//! printed is not proved; what the calls answer is.

use std::io::{Read, Write};
use std::process::ExitCode;

use plain::reader::{BadLine, Limits, OwnedTables, Reader};
use velkunshe::{End, Error, Finding, Marks, Refusal, Route, Rule, Stop};

type Call = fn(&mut Reader) -> Result<Vec<u8>, Refused>;

const CALLS: [(&str, Call); 10] = [
    ("check", check),
    ("route", route),
    ("walk", walk),
    ("shared", shared),
    ("rename", rename),
    ("marks", marks),
    ("stopped", stopped),
    ("shorter", shorter),
    ("codes", codes),
    ("run", run),
];

/// A wrong call, or an input or output that is lost.
const FAILED: u8 = 2;

enum Refused {
    Line(BadLine),
    Call(Error),
}

impl From<BadLine> for Refused {
    fn from(line: BadLine) -> Refused {
        Refused::Line(line)
    }
}

impl From<Error> for Refused {
    fn from(error: Error) -> Refused {
        Refused::Call(error)
    }
}

impl From<Refusal> for Refused {
    fn from(refusal: Refusal) -> Refused {
        Refused::Call(refusal.into())
    }
}

impl Refused {
    /// The line that tells a refusal; what is no refusal is told as a failure.
    fn line(&self) -> std::io::Result<Vec<u8>> {
        match self {
            Refused::Line(BadLine(line)) => Ok(format!("R,0,{line}\n").into_bytes()),
            Refused::Call(Error::Refused(refusal)) => Ok(refusal_line(*refusal)),
            Refused::Call(error) => Err(std::io::Error::other(*error)),
        }
    }
}

fn main() -> ExitCode {
    let args: Vec<String> = std::env::args().skip(1).collect();
    let named = CALLS.iter().find(|call| args == [call.0]);
    let Some((_, call)) = named else {
        eprintln!("usage: rulecalls {}    (reads standard input)", CALLS.map(|call| call.0).join("|"));
        return ExitCode::from(FAILED);
    };
    match answer(*call) {
        Ok(()) => ExitCode::SUCCESS,
        Err(error) => {
            eprintln!("rulecalls: {error}");
            ExitCode::from(FAILED)
        }
    }
}

fn answer(call: Call) -> std::io::Result<()> {
    let mut input = Vec::new();
    std::io::stdin().read_to_end(&mut input)?;
    let lines = call(&mut Reader::within(Limits::LIBRARY, &input)).or_else(|refused| refused.line())?;
    std::io::stdout().write_all(&lines)
}

/// With the option on async bodies off, as in rulecheck and ruleroute.
fn rule(t: &OwnedTables) -> Rule<'_> {
    Rule {
        source_type: t.source_type,
        async_bodies: false,
        nodes: &t.nodes,
        scopes: &t.scopes,
        source: &t.source,
        names: &t.names,
    }
}

fn check(reader: &mut Reader) -> Result<Vec<u8>, Refused> {
    let tables = reader.tables()?;
    let found = velkunshe::findings(&rule(&tables))?;
    let listed: String = found.iter().map(finding_line).collect();
    Ok(format!("{listed}E,{}\n", found.len()).into_bytes())
}

fn finding_line(f: &Finding) -> String {
    let ((start, end), (start_2, end_2)) = (f.first, f.second);
    format!("F,{},{},{start},{end},{start_2},{end_2},{}\n", f.code.number(), f.node, f.context.number())
}

fn route(reader: &mut Reader) -> Result<Vec<u8>, Refused> {
    let tables = reader.tables()?;
    let (unit, answers) = reader.unit_and_answers()?;
    Ok(route_lines(&velkunshe::route_within(&rule(&tables), unit, &answers, usize::MAX)?))
}

fn shared(reader: &mut Reader) -> Result<Vec<u8>, Refused> {
    let tables = reader.tables()?;
    let (unit, first) = reader.unit_and_answers()?;
    let second = reader.numbers(b'A')?;
    let entries = velkunshe::shared_of(&rule(&tables), unit, &first, &second)?;
    Ok(format!("B,{entries}\n").into_bytes())
}

fn walk(reader: &mut Reader) -> Result<Vec<u8>, Refused> {
    let tables = reader.tables()?;
    let (unit, answers) = reader.unit_and_answers()?;
    Ok(route_lines(&velkunshe::walk_within(&rule(&tables), unit, &answers, usize::MAX)?))
}

fn rename(reader: &mut Reader) -> Result<Vec<u8>, Refused> {
    let tables = reader.tables()?;
    let renamed = velkunshe::renamed(&rule(&tables))?;
    Ok(OwnedTables { nodes: renamed.nodes, names: renamed.names, ..tables }.lines())
}

fn marks(reader: &mut Reader) -> Result<Vec<u8>, Refused> {
    let tables = reader.tables()?;
    let [unit] = reader.exactly(b'U')?;
    let (rule, mut marks, mut out) = (rule(&tables), Marks::new(), Vec::new());
    while let Some((letter, numbers)) = reader.letter_and_numbers()? {
        let answer = one_call(&rule, unit, &mut marks, letter, &numbers).ok_or(reader.bad())?;
        match answer {
            Ok(route) => out.extend(route_lines(&route)),
            Err(Error::Refused(refusal)) => out.extend(refusal_line(refusal)),
            Err(error) => return Err(error.into()),
        }
    }
    Ok(out)
}

/// What a line calls for; none where it is no such line.
fn one_call(rule: &Rule, unit: u32, marks: &mut Marks, letter: u8, numbers: &[u32]) -> Option<Result<Route, Error>> {
    let stop = |mark, answers: u32| Stop { mark, answers: answers.into() };
    match (letter, numbers) {
        (b'T', &[mark, behind, ref answers @ ..]) => Some(marks.route_stop_of(rule, unit, answers, stop(mark, behind))),
        (b'C', &[mark, ref answers @ ..]) => Some(marks.route_resume_of(rule, unit, mark, answers)),
        (b'D', &[from, to, behind, ref answers @ ..]) => {
            Some(marks.route_resume_stop_of(rule, unit, from, answers, stop(to, behind)))
        }
        _ => None,
    }
}

/// Behind each answer the route is stopped under the next of the eight marks.
fn stopped(reader: &mut Reader) -> Result<Vec<u8>, Refused> {
    let tables = reader.tables()?;
    let (unit, answers) = reader.unit_and_answers()?;
    let (rule, mut marks) = (rule(&tables), Marks::new());
    let mut route = marks.route_stop_of(&rule, unit, &answers, Stop { mark: 0, answers: 0 })?;
    for step in 0.. {
        if route.end != End::Stopped {
            break;
        }
        let (from, stop) = (step % 8, Stop { mark: (step + 1) % 8, answers: 1 });
        let next = marks.route_resume_stop_of(&rule, unit, from, &answers[route.taken as usize..], stop)?;
        route.nodes.extend(next.nodes);
        (route.end, route.taken) = (next.end, route.taken + next.taken);
    }
    Ok(route_lines(&route))
}

fn shorter(reader: &mut Reader) -> Result<Vec<u8>, Refused> {
    let tables = reader.tables()?;
    let (unit, answers) = reader.unit_and_answers()?;
    let code = velkunshe::shortened(velkunshe::code_of(&rule(&tables), unit)?)?;
    Ok(route_lines(&velkunshe::run_within(&code, &answers, usize::MAX)?))
}

fn codes(reader: &mut Reader) -> Result<Vec<u8>, Refused> {
    let tables = reader.tables()?;
    let [unit] = reader.exactly(b'U')?;
    let made = velkunshe::code_of(&rule(&tables), unit)?;
    let mut code = made.clone();
    let shorter = velkunshe::shorten(&mut code)?;
    let [before, after] = [&made[..], &code[..shorter.length]].map(code_line);
    Ok(format!("{before}{after}F,{}\n", shorter.freed).into_bytes())
}

fn code_line(code: &[u32]) -> String {
    let numbers: String = code.iter().map(|n| format!(",{n}")).collect();
    format!("K{numbers}\n")
}

fn run(reader: &mut Reader) -> Result<Vec<u8>, Refused> {
    let (code, answers) = (reader.numbers(b'K')?, reader.numbers(b'A')?);
    Ok(route_lines(&velkunshe::run_within(&code, &answers, usize::MAX)?))
}

fn refusal_line(refusal: Refusal) -> Vec<u8> {
    format!("R,{},{}\n", refusal.number(), refusal.place).into_bytes()
}

fn route_lines(route: &Route) -> Vec<u8> {
    let listed: String = route.nodes.iter().map(|node| format!("L,{node}\n")).collect();
    format!("{listed}Z,{},{},{}\n", route.end.number(), route.nodes.len(), route.taken).into_bytes()
}
