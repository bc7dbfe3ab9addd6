//! Routes that are stopped under a mark and taken up again.

use std::fmt;

use crate::route::{listed, shown};
use crate::{code_of, Error, Refusal, Route, Rule, Shown, ROUTE_LIMIT};

/// How many numbers the marks take.
pub const MARKS: usize = 8208;

/// Eight marks, 0 to 7, under which routes are stopped and taken up again.
///
/// They are 8,208 numbers by value, about 32 KiB: put them in a box where they are kept long or handed on often.
///
/// A mark is good for the tables and the unit on which it was set. Taken up on others, or made of any numbers by
/// [`numbers_mut`](Marks::numbers_mut), it gives no route that means something, but the call ends and does no harm.
///
/// `while (t) { if (s) break; x; }`, stopped behind one answer and then taken up twice:
///
/// ```
/// use velkunshe::{End, Marks, Rule, Stop};
///
/// let rule = Rule {
///     source_type: 0,
///     async_bodies: false,
///     nodes: &[
///         0, 0, 0, 0, 30, 0, 0, 0, 0, 0, // 0 Program
///         10, 0, 3, 0, 30, 0, 0, 0, 0, 0, // 1 While
///         32, 1, 0, 7, 8, 0, 0, 0, 0, 1, // 2 t
///         5, 1, 3, 10, 30, 1, 0, 0, 0, 0, // 3 Block
///         12, 3, 3, 12, 25, 1, 0, 0, 0, 0, // 4 If
///         32, 4, 0, 16, 17, 1, 0, 0, 1, 1, // 5 s
///         18, 4, 3, 19, 25, 1, 0, 0, 0, 0, // 6 Break
///         22, 3, 3, 26, 28, 1, 0, 0, 0, 0, // 7 x;
///     ],
///     scopes: &[0, 2, 0, 0, 0, 3],
///     source: b"while (t) { if (s) break; x; }",
///     names: b"ts",
/// };
/// let mut marks = Marks::new();
/// let begun = marks.route_stop_of(&rule, 0, &[1], Stop { mark: 3, answers: 1 }).unwrap();
/// assert_eq!((&begun.nodes[..], begun.end), (&[1][..], End::Stopped));
/// assert_eq!(marks.route_resume_of(&rule, 0, 3, &[1]).unwrap().nodes, [4, 6]);
/// assert_eq!(marks.route_resume_of(&rule, 0, 3, &[0, 0]).unwrap().nodes, [4, 7, 1]);
/// ```
#[derive(Clone, PartialEq, Eq)]
pub struct Marks([u32; MARKS]);

/// Where a route is stopped.
#[derive(Clone, Copy, Debug, PartialEq, Eq)]
pub struct Stop {
    /// The mark that is set there.
    pub mark: u32,
    /// Right after the entry that takes the last of so many answers, counted from where the route began or was taken up; for 0, there.
    pub answers: u64,
}

/// Slices that a call writes to.
#[derive(Debug)]
pub struct Slices<'a> {
    /// For the unit's flat code.
    pub code: &'a mut [u32],
    /// For the nodes that are listed.
    pub route: &'a mut [u32],
}

impl Marks {
    /// No mark is set.
    pub const fn new() -> Marks {
        Marks([0; MARKS])
    }

    /// The numbers, to be kept elsewhere: 1,026 a mark.
    pub const fn numbers(&self) -> &[u32; MARKS] {
        &self.0
    }

    /// The numbers, to be set as they were kept. Any numbers will do.
    pub fn numbers_mut(&mut self) -> &mut [u32; MARKS] {
        &mut self.0
    }

    /// A route from the start, as [`route`](crate::route) gives it, but stopped as `stop` says, with [`End::Stopped`](crate::End::Stopped)
    /// and the mark set. One that ends before sets none.
    ///
    /// # Errors
    ///
    /// Refusals 1 to 7, 9 and 13 to 15; 16 where the mark is above 7; 11 and 12 with the length needed. None sets a mark.
    pub fn route_stop(
        &mut self,
        rule: &Rule,
        unit: u32,
        answers: &[u32],
        stop: Stop,
        slices: Slices,
    ) -> Result<Shown, Refusal> {
        let Slices { code, route } = slices;
        // SAFETY: pointers and lengths of live slices, and an array of the marks' length; all that is written is borrowed alone.
        let answer = unsafe {
            on_rule!(
                velkunshe_route_stop,
                rule,
                unit,
                answers.as_ptr(),
                answers.len(),
                stop.mark,
                stop.answers,
                self.0.as_mut_ptr(),
                code.as_mut_ptr(),
                code.len(),
                route.as_mut_ptr(),
                route.len(),
            )
        };
        shown(answer)
    }

    /// A route taken up at a mark, to its end. No mark is changed.
    ///
    /// # Errors
    ///
    /// Refusals 1 to 7, 9 and 13 to 15; 16 where the mark is above 7 or not set; 11 with the length needed; 17 where it holds a place at
    /// which no instruction of the unit's code begins; 12 with the length needed.
    pub fn route_resume(
        &mut self,
        rule: &Rule,
        unit: u32,
        mark: u32,
        answers: &[u32],
        slices: Slices,
    ) -> Result<Shown, Refusal> {
        let Slices { code, route } = slices;
        // SAFETY: as above.
        let answer = unsafe {
            on_rule!(
                velkunshe_route_resume,
                rule,
                unit,
                mark,
                answers.as_ptr(),
                answers.len(),
                self.0.as_mut_ptr(),
                code.as_mut_ptr(),
                code.len(),
                route.as_mut_ptr(),
                route.len(),
            )
        };
        shown(answer)
    }

    /// A route taken up at a mark and stopped again, under the same or another one.
    ///
    /// # Errors
    ///
    /// Those of [`route_resume`](Marks::route_resume); 16 for the mark taken up goes before 16 for the other.
    pub fn route_resume_stop(
        &mut self,
        rule: &Rule,
        unit: u32,
        from: u32,
        answers: &[u32],
        stop: Stop,
        slices: Slices,
    ) -> Result<Shown, Refusal> {
        let Slices { code, route } = slices;
        // SAFETY: as above.
        let answer = unsafe {
            on_rule!(
                velkunshe_route_resume_stop,
                rule,
                unit,
                from,
                answers.as_ptr(),
                answers.len(),
                stop.mark,
                stop.answers,
                self.0.as_mut_ptr(),
                code.as_mut_ptr(),
                code.len(),
                route.as_mut_ptr(),
                route.len(),
            )
        };
        shown(answer)
    }

    /// [`route_stop`](Marks::route_stop) in a vector as long as it needs, with at most [`ROUTE_LIMIT`] entries.
    ///
    /// # Errors
    ///
    /// Refusals 1 to 7, 9, 13 to 15 and 16; [`Error::TooLong`] where the route is longer than that, [`Error::NoMemory`]
    /// where there is none for the code or the route.
    pub fn route_stop_of(&mut self, rule: &Rule, unit: u32, answers: &[u32], stop: Stop) -> Result<Route, Error> {
        let mut code = code_of(rule, unit)?;
        listed(ROUTE_LIMIT, |route| self.route_stop(rule, unit, answers, stop, Slices { code: &mut code, route }))
    }

    /// [`route_resume`](Marks::route_resume) in a vector as long as it needs, with at most [`ROUTE_LIMIT`] entries.
    ///
    /// # Errors
    ///
    /// Refusals 1 to 7, 9 and 13 to 17; [`Error::TooLong`] where the route is longer than that, [`Error::NoMemory`]
    /// where there is none for the code or the route.
    pub fn route_resume_of(&mut self, rule: &Rule, unit: u32, mark: u32, answers: &[u32]) -> Result<Route, Error> {
        let mut code = code_of(rule, unit)?;
        listed(ROUTE_LIMIT, |route| self.route_resume(rule, unit, mark, answers, Slices { code: &mut code, route }))
    }

    /// [`route_resume_stop`](Marks::route_resume_stop) in a vector as long as it needs, with at most [`ROUTE_LIMIT`] entries.
    ///
    /// # Errors
    ///
    /// Refusals 1 to 7, 9 and 13 to 17; [`Error::TooLong`] where the route is longer than that, [`Error::NoMemory`]
    /// where there is none for the code or the route.
    pub fn route_resume_stop_of(
        &mut self,
        rule: &Rule,
        unit: u32,
        from: u32,
        answers: &[u32],
        stop: Stop,
    ) -> Result<Route, Error> {
        let mut code = code_of(rule, unit)?;
        listed(ROUTE_LIMIT, |route| {
            self.route_resume_stop(rule, unit, from, answers, stop, Slices { code: &mut code, route })
        })
    }
}

impl Default for Marks {
    fn default() -> Marks {
        Marks::new()
    }
}

impl fmt::Debug for Marks {
    fn fmt(&self, f: &mut fmt::Formatter<'_>) -> fmt::Result {
        f.debug_struct("Marks").finish_non_exhaustive()
    }
}
