//! Document 02, request 7: routes that are stopped under a mark and taken up again. A mark holds a place in the code,
//! so these take the unit's code, which document 01 leaves free, as it was made.

use crate::calls::{needed_code, Refusal, Route};
use crate::machine::{run_from, Jump, Pending, Position, MOST_PENDING, STOPPED};
use crate::shorten::begins;
use crate::tables::Tables;

pub const MARK_COUNT: usize = 8;
/// Of one mark: pending ends + 1, the place, and a pair for each pending end.
const MARK: usize = 2 + 2 * MOST_PENDING;
/// Numbers of the array of marks.
pub const MARKS: usize = MARK_COUNT * MARK;

/// The code of a unit, and how long the code slice is that it should go to.
#[derive(Clone, Copy)]
pub struct Code<'c> {
    pub made: &'c [u32],
    pub room: usize,
}

/// A route from the start, stopped under `mark` behind `stop` answers.
pub fn route_stop(
    (t, unit): (&Tables, u32),
    answers: &[u32],
    (mark, stop): (u32, u64),
    marks: &mut [u32; MARKS],
    code: Code,
    out: &mut [u32],
) -> Result<Route, Refusal> {
    needed_code(t, unit)?;
    is_mark(mark)?;
    has_room(code)?;
    stopped(code.made, Position::default(), answers, Some((mark, stop)), marks, out)
}

/// A route taken up at `mark`, to its end.
pub fn route_resume(
    (t, unit): (&Tables, u32),
    mark: u32,
    answers: &[u32],
    marks: &mut [u32; MARKS],
    code: Code,
    out: &mut [u32],
) -> Result<Route, Refusal> {
    needed_code(t, unit)?;
    let from = marked(marks, mark)?;
    has_room(code)?;
    begins_at(code.made, mark, &from)?;
    stopped(code.made, from, answers, None, marks, out)
}

/// A route taken up at `from`, stopped again under `to` behind `stop` further answers.
pub fn route_resume_stop(
    (t, unit): (&Tables, u32),
    from: u32,
    answers: &[u32],
    (to, stop): (u32, u64),
    marks: &mut [u32; MARKS],
    code: Code,
    out: &mut [u32],
) -> Result<Route, Refusal> {
    needed_code(t, unit)?;
    let position = marked(marks, from)?;
    is_mark(to)?;
    has_room(code)?;
    begins_at(code.made, from, &position)?;
    stopped(code.made, position, answers, Some((to, stop)), marks, out)
}

/// 16 (mark above 7), place the mark as given.
fn is_mark(mark: u32) -> Result<(), Refusal> {
    if (mark as usize) < MARK_COUNT {
        return Ok(());
    }
    Err(Refusal { number: 16, place: mark as usize, needed: None })
}

/// 11.
fn has_room(code: Code) -> Result<(), Refusal> {
    if code.room >= code.made.len() {
        return Ok(());
    }
    Err(Refusal { number: 11, place: 0, needed: Some(code.made.len() as u64) })
}

/// 17 (a mark that holds a place where no instruction of the unit's code begins), place the mark.
fn begins_at(made: &[u32], mark: u32, position: &Position) -> Result<(), Refusal> {
    if begins(made, position.place) {
        return Ok(());
    }
    Err(Refusal { number: 17, place: mark as usize, needed: None })
}

/// What a mark that is taken up holds, or 16 (mark above 7, or not set).
fn marked(marks: &[u32; MARKS], mark: u32) -> Result<Position, Refusal> {
    is_mark(mark)?;
    let part = &marks[MARK * mark as usize..][..MARK];
    let pending = (part[0] as usize).checked_sub(1).filter(|&n| n <= MOST_PENDING);
    let Some(pending) = pending else { return Err(Refusal { number: 16, place: mark as usize, needed: None }) };
    let pairs = part[2..].chunks_exact(2).take(pending);
    let pending = pairs.map(|pair| match pair[1] {
        0 => Pending::Open(pair[0]),
        above => Pending::Waits(Jump { to: pair[0], depth: above - 1 }),
    });
    Ok(Position { place: part[1], pending: pending.collect() })
}

/// Runs, writes the route, and sets the mark where it was stopped. A refusal sets none.
fn stopped(
    made: &[u32],
    from: Position,
    answers: &[u32],
    stop: Option<(u32, u64)>,
    marks: &mut [u32; MARKS],
    out: &mut [u32],
) -> Result<Route, Refusal> {
    let ran = run_from(made, from, answers, stop.map(|(_, stop)| stop));
    let route = Route::write(&ran.list, ran.end, ran.taken, out)?;
    if let (STOPPED, Some((mark, _))) = (ran.end, stop) {
        set(&mut marks[MARK * mark as usize..][..MARK], &ran.at);
    }
    Ok(route)
}

/// "The unused rest of a mark's part stays as it was."
fn set(part: &mut [u32], position: &Position) {
    part[0] = position.pending.len() as u32 + 1;
    part[1] = position.place;
    for (pair, end) in part[2..].chunks_exact_mut(2).zip(&position.pending) {
        let numbers = match *end {
            Pending::Open(block) => [block, 0],
            Pending::Waits(jump) => [jump.to, jump.depth + 1],
        };
        pair.copy_from_slice(&numbers);
    }
}
