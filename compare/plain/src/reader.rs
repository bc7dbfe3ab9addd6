//! Document 01, "The reader program": comma-parted lines to tables.
//!
//! Readings: the lines come in the order J, S, N, X, exactly as many as J says. A number is one or more decimal
//! digits, leading zeros allowed, at most 4294967295. No spaces, no CR. A line is at most 2,100 bytes without its
//! newline. More than 1,024 nodes or scopes make the J line unreadable, a name with which the names pass 1,024 bytes
//! its N line, more than 1,024 bytes of source the X line. Hexadecimal digits of either case, an even number of
//! them. The last line may lack its newline. A name is the rest of its line, commas and all; a node's name starts
//! where the names so far end.

use crate::refusals::{MOST_BYTES, MOST_RECORDS};
use crate::tables::Tables;

/// How much a reader takes.
#[derive(Clone, Copy, Debug)]
pub struct Limits {
    /// Nodes, and scopes.
    pub records: u32,
    /// Bytes of source, and bytes of names.
    pub bytes: usize,
    /// Bytes of a line without its newline.
    pub line: usize,
}

impl Limits {
    /// Those of `rulecheck` and `ruleroute`.
    pub const PROGRAMS: Limits = Limits { records: 1_024, bytes: 1_024, line: 2_100 };

    /// Those of the library (refusal 1): the longest line is X with all bytes of source in hexadecimal.
    pub const LIBRARY: Limits =
        Limits { records: MOST_RECORDS as u32, bytes: MOST_BYTES, line: "X,".len() + 2 * MOST_BYTES };
}

#[derive(Clone, Debug, Default, PartialEq, Eq)]
pub struct OwnedTables {
    pub source_type: u32,
    pub nodes: Vec<u32>,
    pub scopes: Vec<u32>,
    pub source: Vec<u8>,
    pub names: Vec<u8>,
}

impl OwnedTables {
    /// The tables, with the option on async bodies off.
    pub fn lend(&self) -> Tables<'_> {
        Tables {
            source_type: self.source_type,
            async_bodies: false,
            nodes: &self.nodes,
            scopes: &self.scopes,
            source: &self.source,
            names: &self.names,
        }
    }

    /// The lines that read as these tables, where their names stand one after the other.
    pub fn lines(&self) -> Vec<u8> {
        let mut out =
            format!("J,{},{},{}\n", self.source_type, self.nodes.len() / 10, self.scopes.len() / 3).into_bytes();
        for s in self.scopes.chunks(3) {
            out.extend(format!("S,{},{},{}\n", s[0], s[1], s[2]).bytes());
        }
        for n in self.nodes.chunks(10) {
            out.extend(b"N");
            for number in &n[..8] {
                out.extend(format!(",{number}").bytes());
            }
            out.extend(b",");
            out.extend(&self.names[n[8] as usize..(n[8] + n[9]) as usize]);
            out.extend(b"\n");
        }
        out.extend(b"X,");
        for byte in &self.source {
            out.extend(format!("{byte:02x}").bytes());
        }
        out.extend(b"\n");
        out
    }
}

/// The number, from 1, of the line that can't be read or is missing.
#[derive(Clone, Copy, Debug, PartialEq, Eq)]
pub struct BadLine(pub usize);

/// Holds the bytes and how far it has come.
pub struct Reader<'a> {
    rest: &'a [u8],
    limits: Limits,
    /// The number of the line read last.
    line: usize,
}

impl<'a> Reader<'a> {
    /// With the limits of `rulecheck` and `ruleroute`.
    pub fn new(input: &'a [u8]) -> Reader<'a> {
        Reader::within(Limits::PROGRAMS, input)
    }

    pub fn within(limits: Limits, input: &'a [u8]) -> Reader<'a> {
        Reader { rest: input, limits, line: 0 }
    }

    /// The line read last, where it is none that could stand there.
    pub fn bad(&self) -> BadLine {
        BadLine(self.line)
    }

    /// The next line without its newline.
    fn next_line(&mut self) -> Result<&'a [u8], BadLine> {
        self.line += 1;
        if self.rest.is_empty() {
            return Err(self.bad());
        }
        let length = self.rest.iter().position(|&b| b == b'\n').unwrap_or(self.rest.len());
        let line = &self.rest[..length];
        self.rest = self.rest.get(length + 1..).unwrap_or(&[]);
        if length > self.limits.line {
            Err(self.bad())
        } else {
            Ok(line)
        }
    }

    /// A line that is its letter and any number of numbers.
    pub fn numbers(&mut self, letter: u8) -> Result<Vec<u32>, BadLine> {
        let line = self.next_line()?;
        let mut parts = line.split(|&b| b == b',');
        let read = (parts.next() == Some(&[letter])).then(|| parts.map(number).collect::<Option<Vec<u32>>>()).flatten();
        read.ok_or(self.bad())
    }

    /// Any line of that sort, or none where the input ends.
    pub fn letter_and_numbers(&mut self) -> Result<Option<(u8, Vec<u32>)>, BadLine> {
        if self.rest.is_empty() {
            return Ok(None);
        }
        let mut parts = self.next_line()?.split(|&b| b == b',');
        let letter = parts.next().and_then(|part| <[u8; 1]>::try_from(part).ok());
        let numbers = parts.map(number).collect::<Option<Vec<u32>>>();
        let read = letter.zip(numbers).map(|([letter], numbers)| (letter, numbers));
        read.ok_or(self.bad()).map(Some)
    }

    /// The same with exactly so many numbers.
    pub fn exactly<const N: usize>(&mut self, letter: u8) -> Result<[u32; N], BadLine> {
        let numbers = self.numbers(letter)?;
        numbers.try_into().map_err(|_| self.bad())
    }

    /// All lines up to X.
    pub fn tables(&mut self) -> Result<OwnedTables, BadLine> {
        let [source_type, nodes, scopes] = self.exactly(b'J')?;
        if nodes > self.limits.records || scopes > self.limits.records {
            return Err(self.bad());
        }
        let mut t = OwnedTables { source_type, ..OwnedTables::default() };
        for _ in 0..scopes {
            t.scopes.extend(self.exactly::<3>(b'S')?);
        }
        for _ in 0..nodes {
            self.node(&mut t)?;
        }
        let line = self.next_line()?;
        t.source = line
            .strip_prefix(b"X,")
            .and_then(hexadecimal)
            .filter(|s| s.len() <= self.limits.bytes)
            .ok_or(self.bad())?;
        Ok(t)
    }

    /// Eight numbers, then the rest as name.
    fn node(&mut self, t: &mut OwnedTables) -> Result<(), BadLine> {
        let line = self.next_line()?;
        let mut parts = line.splitn(10, |&b| b == b',');
        if parts.next() != Some(b"N") {
            return Err(self.bad());
        }
        for _ in 0..8 {
            t.nodes.push(parts.next().and_then(number).ok_or(self.bad())?);
        }
        let name = parts.next().ok_or(self.bad())?;
        t.nodes.extend([t.names.len() as u32, name.len() as u32]);
        t.names.extend(name);
        if t.names.len() > self.limits.bytes {
            Err(self.bad())
        } else {
            Ok(())
        }
    }

    /// For routes: `U,unit`, then `A` with the answers.
    pub fn unit_and_answers(&mut self) -> Result<(u32, Vec<u32>), BadLine> {
        let [unit] = self.exactly(b'U')?;
        Ok((unit, self.numbers(b'A')?))
    }
}

fn number(digits: &[u8]) -> Option<u32> {
    if digits.is_empty() {
        return None;
    }
    digits.iter().try_fold(0u32, |n, &d| {
        if d.is_ascii_digit() {
            n.checked_mul(10)?.checked_add(u32::from(d - b'0'))
        } else {
            None
        }
    })
}

fn hexadecimal(digits: &[u8]) -> Option<Vec<u8>> {
    let digit = |d: u8| (d as char).to_digit(16).map(|v| v as u8);
    if !digits.len().is_multiple_of(2) {
        return None;
    }
    digits.chunks(2).map(|pair| Some(16 * digit(pair[0])? + digit(pair[1])?)).collect()
}

/// What `rulecheck` prints for an input: the option on async bodies is off.
pub fn rulecheck(input: &[u8]) -> String {
    rulecheck_with(input, false)
}

/// The same with the option as given.
pub fn rulecheck_with(input: &[u8], async_bodies: bool) -> String {
    let tables = match Reader::new(input).tables() {
        Ok(tables) => tables,
        Err(BadLine(line)) => return format!("R,0,{line}\n"),
    };
    let t = Tables { async_bodies, ..tables.lend() };
    if let Some(r) = crate::input_refusal(&t) {
        return format!("R,{},{}\n", r.number, r.place);
    }
    let found = crate::findings(&t);
    let mut out = String::new();
    for finding in &found {
        let numbers: Vec<String> = finding.numbers().iter().map(u32::to_string).collect();
        out += &format!("F,{}\n", numbers.join(","));
    }
    out + &format!("E,{}\n", found.len())
}

/// What `ruleroute` prints: L for each entry, then Z with end, entries and answers taken; or only R.
pub fn ruleroute(input: &[u8]) -> String {
    let mut reader = Reader::new(input);
    let read = reader.tables().and_then(|tables| Ok((tables, reader.unit_and_answers()?)));
    let (tables, (unit, answers)) = match read {
        Ok(read) => read,
        Err(BadLine(line)) => return format!("R,0,{line}\n"),
    };
    let t = tables.lend();
    match crate::needed_code(&t, unit) {
        Err(r) => format!("R,{},{}\n", r.number, r.place),
        Ok(_) => {
            let run = crate::routes::run(&t, unit as usize, &answers);
            let list: String = run.list.iter().map(|n| format!("L,{n}\n")).collect();
            list + &format!("Z,{},{},{}\n", run.end, run.list.len(), run.answers_taken)
        }
    }
}
