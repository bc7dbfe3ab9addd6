//! Request 7: routes stopped under a mark and taken up again, beside the plain version, over marks of any numbers.

use cases::rng::Rng;
use plain::marks::{Code, MARK_COUNT, MARKS, route_resume, route_resume_stop, route_stop};
use plain::{Refusal, Route, Tables};
use velkunshe::{Marks, Slices, Stop};

use super::{around, code_of, lent, refusal, rule, shown};
use crate::counts::Counts;
use crate::{answers, same};

/// Numbers of one mark: pending ends + 1, the place, and a pair for each pending end.
const MARK: usize = MARKS / MARK_COUNT;
/// The lowest first number above 0 of a mark that is not set: more than 512 pending ends and 1.
const NOT_SET: u32 = 514;

#[derive(Clone, Copy, Debug)]
enum Sort {
    Stop,
    Resume,
    ResumeStop,
}

const SORTS: [Sort; 3] = [Sort::Stop, Sort::Resume, Sort::ResumeStop];

/// One of the three calls, with all that it takes but the slices.
#[derive(Debug)]
struct Call {
    sort: Sort,
    from: u32,
    answers: Vec<u32>,
    to: u32,
    stop: u64,
}

impl Call {
    fn new(sorts: &[Sort], rng: &mut Rng) -> Call {
        let mark = |rng: &mut Rng| rng.pick(&[0, 0, 0, 0, 0, 0, 1, 1, 7, 8, u32::MAX]);
        Call {
            sort: rng.pick(sorts),
            from: mark(rng),
            answers: answers(rng),
            to: mark(rng),
            stop: rng.pick(&[0, 1, 1, 2, 3, 5, u64::MAX]),
        }
    }

    fn plain(
        &self,
        at: (&Tables, u32),
        marks: &mut [u32; MARKS],
        code: Code,
        out: &mut [u32],
    ) -> Result<Route, Refusal> {
        let stop = (self.to, self.stop);
        match self.sort {
            Sort::Stop => route_stop(at, &self.answers, stop, marks, code, out),
            Sort::Resume => route_resume(at, self.from, &self.answers, marks, code, out),
            Sort::ResumeStop => route_resume_stop(at, self.from, &self.answers, stop, marks, code, out),
        }
    }

    fn proved(&self, (t, unit): (&Tables, u32), marks: &mut Marks, slices: Slices) -> Result<Route, Refusal> {
        let (rule, stop) = (rule(t), Stop { mark: self.to, answers: self.stop });
        let answer = match self.sort {
            Sort::Stop => marks.route_stop(&rule, unit, &self.answers, stop, slices),
            Sort::Resume => marks.route_resume(&rule, unit, self.from, &self.answers, slices),
            Sort::ResumeStop => marks.route_resume_stop(&rule, unit, self.from, &self.answers, stop, slices),
        };
        answer.map(shown).map_err(refusal)
    }

    fn name(&self) -> &'static str {
        match self.sort {
            Sort::Stop => "route_stop",
            Sort::Resume => "route_resume",
            Sort::ResumeStop => "route_resume_stop",
        }
    }
}

/// Calls on a unit, or on a number that is none.
pub fn compare(t: &Tables, unit: u32, rng: &mut Rng, counts: &mut Counts) -> Result<(), String> {
    let Ok(made) = code_of(t, unit) else {
        let code = Code { made: &[], room: 3 };
        return lengths((t, unit), &Call::new(&SORTS, rng), &Marks::new(), code, 3, counts).map(|_| ());
    };
    let mut marks = any_marks(&made, rng);
    // Of clear marks none can be taken up.
    let first: &[Sort] = if marks == Marks::new() { &[Sort::Stop] } else { &SORTS };
    for sorts in [first, &SORTS, &SORTS] {
        marks = step((t, unit), &Call::new(sorts, rng), &marks, &made, counts)?;
    }
    Ok(())
}

/// Both slices at every length, one at a time; gives the marks as the call leaves them.
fn step(at: (&Tables, u32), call: &Call, marks: &Marks, made: &[u32], counts: &mut Counts) -> Result<Marks, String> {
    let exact = Code { made, room: made.len() };
    let listed = match call.plain(at, &mut marks.numbers().clone(), exact, &mut []) {
        Err(Refusal { number: 12, needed: Some(needed), .. }) => needed as usize,
        // 16 is so whatever the slices are.
        Err(Refusal { number: 16, .. }) => return lengths(at, call, marks, Code { made, room: 0 }, 0, counts),
        _ => 0,
    };
    for room in around(made.len()) {
        lengths(at, call, marks, Code { made, room }, listed, counts)?;
    }
    for length in around(listed).into_iter().filter(|&length| length != listed) {
        lengths(at, call, marks, exact, length, counts)?;
    }
    lengths(at, call, marks, exact, listed, counts)
}

/// The call with slices of these lengths: its answer, both slices, and every number of the marks.
fn lengths(
    (t, unit): (&Tables, u32),
    call: &Call,
    before: &Marks,
    code: Code,
    length: usize,
    counts: &mut Counts,
) -> Result<Marks, String> {
    let what = format!("{call:?} of {unit} into {length}, code into {}, plain and proved", code.room);
    let (mut expected, part) = lent(length);
    let (mut out, (mut made, code_part)) = (expected.clone(), lent(code.room));
    let (mut numbers, mut marks) = (*before.numbers(), before.clone());
    let plain = call.plain((t, unit), &mut numbers, code, &mut expected[part.clone()]);
    let slices = Slices { code: &mut made[code_part.clone()], route: &mut out[part] };
    let proved = call.proved((t, unit), &mut marks, slices);
    counts.proved_call(call.name(), &proved);
    same(&what, &plain, &proved)?;
    same(&format!("{what}: route slice"), &expected, &out)?;
    same(
        &format!("{what}: first number of the marks that differs"),
        &first_difference(&numbers, marks.numbers()),
        &None,
    )?;
    // After 12 and 17, as after success, the code slice holds the code; else it is unchanged.
    let (mut alone, _) = lent(code.room);
    if proved.is_ok() || proved.is_err_and(|r| matches!(r.number, 12 | 17)) {
        alone[code_part][..code.made.len()].copy_from_slice(code.made);
    }
    same(&format!("{what}: code slice"), &alone, &made).map(|()| marks)
}

fn first_difference(a: &[u32; MARKS], b: &[u32; MARKS]) -> Option<usize> {
    a.iter().zip(b).position(|(a, b)| a != b)
}

/// Marks that are clear, or of any numbers: most of them near what a call could have set.
fn any_marks(made: &[u32], rng: &mut Rng) -> Marks {
    let mut marks = Marks::new();
    if rng.once_in(2) {
        return marks;
    }
    for part in marks.numbers_mut().chunks_exact_mut(MARK) {
        let place = |rng: &mut Rng| if rng.once_in(8) { u32::MAX } else { rng.number(made.len() as u32 + 2) };
        part[0] = rng.pick(&[0, 1, 1, 2, 2, 3, 4, NOT_SET - 1, NOT_SET, u32::MAX]);
        part[1] = if rng.once_in(2) { begins(made, rng) } else { place(rng) };
        for pair in part[2..].chunks_exact_mut(2).take(4) {
            pair.copy_from_slice(&[place(rng), rng.pick(&[0, 0, 1, 2, 3, NOT_SET, u32::MAX])]);
        }
    }
    marks
}

/// A place where an instruction of the code begins.
fn begins(made: &[u32], rng: &mut Rng) -> u32 {
    let places: Vec<u32> = (0..made.len() as u32).filter(|&at| plain::shorten::begins(made, at)).collect();
    rng.pick(&places)
}
