//! What was seen.

use std::collections::BTreeMap;
use std::fmt;

use plain::tables::*;
use plain::{Refusal, Route, Tables};

use crate::Sort;
use crate::clashes::Clash;

/// One more than the highest number of a refusal.
const NUMBERS: usize = 21;

/// The refusals of the input, in the order in which they are looked for.
const OF_INPUT: [usize; 9] = [1, 2, 3, 4, 5, 13, 14, 6, 15];

/// One more than the highest code. 34 is no code of the crate's text.
const CODES: usize = 36;
const ASYNC_BODY: usize = 34;

/// What only a TypeScript module has.
#[derive(Default)]
struct TypeScript {
    public_clashes: u64,
    private_clashes: u64,
    static_and_instance: u64,
    sloppy_withs: u64,
    no_fixed_name: u64,
    empty_names: u64,
    references_as_keys: u64,
}

pub struct Counts {
    pub differences: usize,
    /// Super's walks at which the crate's text ends in a panic: refusal 6.
    pub stuck: u64,
    /// Trees with a misplaced child that have a wrong count too, and those of them where it is at a lower node.
    pub both: u64,
    pub lower: u64,
    /// Entries of all routes.
    pub entries: u64,
    /// Routed units that hold a Try of their own, those whose finally or catch comes before their Block, and those that
    /// enter a static block.
    tries: u64,
    turned: u64,
    entering: u64,
    cases: [u64; 5],
    refusals: [[u64; 5]; NUMBERS],
    clean: u64,
    codes: [[u64; 5]; CODES],
    contexts: [u64; 5],
    /// Cases of source types 0, 1, 2 and others.
    source_types: [u64; 4],
    typescript: TypeScript,
    ends: [u64; 4],
    route_refusals: [u64; NUMBERS],
    /// Numbers of the codes of routed units, and of the shorter ones.
    numbers: [u64; 2],
    /// Lent code slices, those that 18 refuses, and those that become shorter.
    lent: [u64; 3],
    /// Calls of the proved library by their name and refusal; 0 is success.
    proved: BTreeMap<&'static str, [u64; NUMBERS]>,
}

impl Counts {
    pub fn new() -> Counts {
        Counts {
            differences: 0,
            stuck: 0,
            both: 0,
            lower: 0,
            entries: 0,
            tries: 0,
            turned: 0,
            entering: 0,
            cases: [0; 5],
            refusals: [[0; 5]; NUMBERS],
            clean: 0,
            codes: [[0; 5]; CODES],
            contexts: [0; 5],
            source_types: [0; 4],
            typescript: TypeScript::default(),
            ends: [0; 4],
            route_refusals: [0; NUMBERS],
            numbers: [0; 2],
            lent: [0; 3],
            proved: BTreeMap::new(),
        }
    }

    pub fn case(&mut self, sort: Sort, source_type: u32) {
        self.cases[sort as usize] += 1;
        self.source_types[source_type.min(3) as usize] += 1;
    }

    /// The clashes of a well-formed rule, and what else only a TypeScript module has.
    pub fn typescript(&mut self, t: &plain::Tables, clashes: &[Clash], found: &[[u32; 7]]) {
        if !t.is_typescript() {
            return;
        }
        use plain::tables::{ACCESSOR_PROPERTY, IDENTIFIER_REFERENCE, KEY, METHOD_DEFINITION, NO_FIXED_NAME, WITH};
        let seen = &mut self.typescript;
        let count = |fits: &dyn Fn(&Clash) -> bool| clashes.iter().filter(|&clash| fits(clash)).count() as u64;
        seen.public_clashes += count(&|clash| !clash.0);
        seen.private_clashes += count(&|clash| clash.0 && clash.1[0] == 1);
        seen.static_and_instance += count(&|clash| clash.1[0] == 35);
        let withs = found.iter().filter(|f| t.kind(f[1] as usize) == WITH && f[0] == 17);
        seen.sloppy_withs += withs.filter(|f| !t.strict(f[1] as usize)).count() as u64;
        for e in (0..t.node_count()).filter(|&n| (METHOD_DEFINITION..=ACCESSOR_PROPERTY).contains(&t.kind(n))) {
            let key = t.part(e, KEY).expect("a key");
            let fixed = !t.has(e, NO_FIXED_NAME);
            seen.no_fixed_name += u64::from(!fixed);
            seen.empty_names += u64::from(fixed && t.name_length(key) == 0);
            seen.references_as_keys += u64::from(fixed && t.kind(key) == IDENTIFIER_REFERENCE);
        }
    }

    pub fn refusal(&mut self, sort: Sort, number: u32) {
        self.refusals[number as usize][sort as usize] += 1;
    }

    pub fn findings(&mut self, sort: Sort, found: &[[u32; 7]]) {
        self.clean += u64::from(found.is_empty());
        for finding in found {
            self.codes[finding[0] as usize][sort as usize] += 1;
            self.contexts[finding[6] as usize] += 1;
        }
    }

    /// Codes and input refusals that no case gave.
    pub fn unseen(&self) -> (Vec<usize>, Vec<usize>) {
        let none = |row: &[u64; 5]| row.iter().sum::<u64>() == 0;
        let codes = listed_codes().filter(|&code| none(&self.codes[code])).collect();
        (codes, OF_INPUT.into_iter().filter(|&number| none(&self.refusals[number])).collect())
    }

    pub fn route(&mut self, answer: &Result<Route, Refusal>) {
        match answer {
            Ok(route) => self.ends[route.end as usize] += 1,
            Err(refusal) => self.route_refusals[refusal.number as usize] += 1,
        }
    }

    pub fn codes(&mut self, lengths: [usize; 2]) {
        self.numbers.iter_mut().zip(lengths).for_each(|(sum, length)| *sum += length as u64);
    }

    pub fn lent_code(&mut self, code: &[u32]) {
        let shorter = plain::shorten(&mut code.to_vec());
        let seen = [true, shorter.is_err(), shorter.is_ok_and(|length| length < code.len())];
        self.lent.iter_mut().zip(seen).for_each(|(count, seen)| *count += u64::from(seen));
    }

    /// A unit that has a route.
    pub fn unit(&mut self, t: &Tables, unit: usize) {
        let below = (unit + 1..t.node_count()).take_while(|&n| t.parent(n) >= unit);
        let own: Vec<usize> = below.filter(|&n| is_own(t, unit, n)).collect();
        let any = |fits: &dyn Fn(usize) -> bool| u64::from(own.iter().any(|&n| fits(n)));
        self.tries += any(&|n| t.kind(n) == TRY);
        let other_first = |n: usize| t.part(n, BODY) > t.part(n, ALTERNATE).or(t.part(n, FINALLY));
        self.turned += any(&|n| t.kind(n) == TRY && other_first(n));
        self.entering += any(&|n| t.kind(n) == STATIC_BLOCK);
    }

    #[cfg(feature = "proved")]
    pub fn proved_call<T>(&mut self, name: &'static str, answer: &Result<T, Refusal>) {
        self.proved.entry(name).or_default()[number(answer)] += 1;
    }
}

/// The codes that the crate's text gives.
fn listed_codes() -> impl Iterator<Item = usize> {
    (1..CODES).filter(|&code| code != ASYNC_BODY)
}

/// The refusal's number, or 0.
#[cfg(feature = "proved")]
fn number<T>(answer: &Result<T, Refusal>) -> usize {
    answer.as_ref().err().map_or(0, |refusal| refusal.number as usize)
}

impl fmt::Display for Counts {
    fn fmt(&self, f: &mut fmt::Formatter<'_>) -> fmt::Result {
        let row = |f: &mut fmt::Formatter<'_>, what: &str, numbers: &[u64; 5]| {
            write!(f, "{what:24}{:10}", numbers.iter().sum::<u64>())?;
            numbers.iter().try_for_each(|n| write!(f, "{n:10}"))?;
            writeln!(f)
        };
        writeln!(
            f,
            "{:24}{:>10}{:>10}{:>10}{:>10}{:>10}{:>10}",
            "", "all", "source", "calm", "wild", "damaged", "huge"
        )?;
        row(f, "cases", &self.cases)?;
        row(f, "well-formed", &self.refusals[0])?;
        for number in OF_INPUT {
            row(f, &format!("refusal {number}"), &self.refusals[number])?;
        }
        for code in listed_codes() {
            row(f, &format!("code {code}"), &self.codes[code])?;
        }
        writeln!(
            f,
            "well-formed without findings {}; panics of the crate's text, at a Super, {}",
            self.clean, self.stuck
        )?;
        writeln!(f, "of refusal 13 with a wrong count beside it {}, at a lower node {}", self.both, self.lower)?;
        writeln!(f, "contexts 0 to 4: {:?}", self.contexts)?;
        writeln!(f, "cases of source type 0, 1, 2, others: {:?}", self.source_types)?;
        let ts = &self.typescript;
        writeln!(
            f,
            "of type 2, well-formed: clashes of public names {}, of private ones with 1 {}, with 35 {}; `with` in sloppy code {}",
            ts.public_clashes, ts.private_clashes, ts.static_and_instance, ts.sloppy_withs
        )?;
        writeln!(
            f,
            "elements of type 2 without a fixed name {}, with the empty name {}, named by an IdentifierReference {}",
            ts.no_fixed_name, ts.empty_names, ts.references_as_keys
        )?;
        writeln!(f, "routes by end 0 to 3: {:?}, entries {}", self.ends, self.entries)?;
        writeln!(f, "routes refused by 7: {}, by 9: {}", self.route_refusals[7], self.route_refusals[9])?;
        writeln!(
            f,
            "routed units with a try {}, one with its block behind {}, with an entered static block {}",
            self.tries, self.turned, self.entering
        )?;
        let [made, left] = self.numbers;
        writeln!(f, "numbers of the units' codes {made}, of the shorter ones {left}")?;
        let [lent, refused, shorter] = self.lent;
        writeln!(f, "lent codes {lent}, refused by 18 {refused}, made shorter {shorter}")?;
        for (name, calls) in &self.proved {
            writeln!(f, "{name} calls of the proved library by refusal 0 to 20: {calls:?}")?;
        }
        let (codes, refusals) = self.unseen();
        writeln!(f, "not seen: codes {codes:?}, refusals {refusals:?}")?;
        writeln!(f, "{} cases, {} differences", self.cases.iter().sum::<u64>(), self.differences)
    }
}

/// No function and no arrow stands between, and no class but one that is entered.
fn is_own(t: &Tables, unit: usize, n: usize) -> bool {
    t.ancestors(n).take_while(|&a| a != unit).all(|a| match t.kind(a) {
        FUNCTION | ARROW => false,
        CLASS => plain::code_length::is_entered(t, a),
        _ => true,
    })
}
