//! The flat code's machine, from docs/CODE.md and document 02, request 10: it runs any list of numbers as code.

/// How many ends may be pending.
pub const MOST_PENDING: usize = 512;

// Ends that no unit's code comes to by itself.
pub const ANSWERS_SPENT: u32 = 3;
pub const STOPPED: u32 = 4;
pub const NO_OTHER_END: u32 = 5;

/// An instruction with its operands. The first operand of `Case` is the next case of its chain.
#[derive(Clone, Copy, Debug, PartialEq, Eq)]
pub enum Instruction {
    List(u32),
    Leave(Jump),
    Ask { node: u32, yes: u32, no: u32 },
    Select { node: u32, case: u32, other: u32 },
    Open(u32),
    End(u32),
    Case(u32, Jump),
}

/// To a place where so many ends are pending; the place 0 is what waits.
#[derive(Clone, Copy, Debug, PartialEq, Eq)]
pub struct Jump {
    pub to: u32,
    pub depth: u32,
}

use Instruction::*;

impl Instruction {
    /// The instruction at a place, if these numbers are one; past the code's end 0 is read.
    pub fn read(code: &[u32], at: usize) -> Option<Instruction> {
        let number = |i: usize| at.checked_add(i).and_then(|place| code.get(place)).copied().unwrap_or(0);
        let (a, b, c) = (number(1), number(2), number(3));
        Some(match number(0) {
            1 => List(a),
            2 => Leave(Jump { to: a, depth: b }),
            3 => Ask { node: a, yes: b, no: c },
            4 => Select { node: a, case: b, other: c },
            5 => Open(a),
            6 => End(a),
            7 => Case(a, Jump { to: b, depth: c }),
            _ => return None,
        })
    }

    pub fn numbers(self) -> Vec<u32> {
        match self {
            List(node) => vec![1, node],
            Leave(Jump { to, depth }) => vec![2, to, depth],
            Ask { node, yes, no } => vec![3, node, yes, no],
            Select { node, case, other } => vec![4, node, case, other],
            Open(block) => vec![5, block],
            End(end) => vec![6, end],
            Case(next, Jump { to, depth }) => vec![7, next, to, depth],
        }
    }

    pub fn length(self) -> usize {
        self.numbers().len()
    }
}

/// A pending end.
#[derive(Clone, Copy, Debug, PartialEq, Eq)]
pub enum Pending {
    /// The finally block at this place is open.
    Open(u32),
    /// A finally block runs, and this jump waits for its end.
    Waits(Jump),
}

/// Where a run is: the next instruction's place, and the pending ends, the last on top.
#[derive(Clone, Debug, Default, PartialEq, Eq)]
pub struct Position {
    pub place: u32,
    pub pending: Vec<Pending>,
}

#[derive(Clone, Debug, PartialEq, Eq)]
pub struct Ran {
    pub list: Vec<u32>,
    pub end: u32,
    pub taken: usize,
    /// Where it was when it ended; where it goes on, if it was stopped.
    pub at: Position,
}

/// Runs code from a position, to its end or until so many answers are taken.
pub fn run_from(code: &[u32], from: Position, answers: &[u32], stop: Option<u64>) -> Ran {
    let mut machine = Machine { code, answers, at: from, list: Vec::new(), taken: 0, passed: 0 };
    let end = loop {
        if stop == Some(machine.taken as u64) {
            break STOPPED;
        }
        if let Some(end) = machine.until_answer() {
            break end;
        }
    };
    Ran { list: machine.list, end, taken: machine.taken, at: machine.at }
}

/// Runs code from its beginning.
pub fn run_whole(code: &[u32], answers: &[u32]) -> Ran {
    run_from(code, Position::default(), answers, None)
}

struct Machine<'c> {
    code: &'c [u32],
    answers: &'c [u32],
    at: Position,
    list: Vec<u32>,
    taken: usize,
    /// Instructions since the last answer.
    passed: usize,
}

impl Machine<'_> {
    /// Runs until an answer is taken, or gives the end.
    fn until_answer(&mut self) -> Option<u32> {
        loop {
            let here = self.at.place as usize;
            let Some(instruction) = Instruction::read(self.code, here) else { return Some(NO_OTHER_END) };
            match instruction {
                End(end) => return Some(if end < ANSWERS_SPENT { end } else { NO_OTHER_END }),
                Ask { node, yes, no } => {
                    let Some(answer) = self.answer(node) else { return Some(ANSWERS_SPENT) };
                    self.at.place = if answer == 0 { no } else { yes };
                    return None;
                }
                Select { node, case, other } => {
                    let Some(answer) = self.answer(node) else { return Some(ANSWERS_SPENT) };
                    self.at.place = self.nth_case(here, case, answer).unwrap_or(other);
                    return None;
                }
                _ if self.passed == self.code.len() => return Some(NO_OTHER_END),
                List(node) => {
                    self.list.push(node);
                    self.at.place += 2;
                }
                Open(_) if self.at.pending.len() == MOST_PENDING => return Some(NO_OTHER_END),
                Open(block) => {
                    self.at.pending.push(Pending::Open(block));
                    self.at.place += 2;
                }
                Leave(jump) | Case(_, jump) => {
                    self.at.place = self.leave(jump);
                    if self.at.place == 0 {
                        return Some(NO_OTHER_END);
                    }
                }
            }
            self.passed += 1;
        }
    }

    fn answer(&mut self, node: u32) -> Option<u32> {
        let answer = *self.answers.get(self.taken)?;
        self.taken += 1;
        self.passed = 0;
        self.list.push(node);
        Some(answer)
    }

    /// Where a jump goes next; 0 where it is for what waits and nothing does.
    fn leave(&mut self, mut jump: Jump) -> u32 {
        let pending = &mut self.at.pending;
        while let Some(&top) = pending.last() {
            let stays = pending.len() as u64 <= u64::from(jump.depth);
            match top {
                Pending::Waits(next) if stays && jump.to == 0 => jump = next,
                _ if stays => break,
                Pending::Open(block) => {
                    pending.pop();
                    pending.push(Pending::Waits(jump));
                    return block;
                }
                Pending::Waits(_) => {}
            }
            pending.pop();
        }
        jump.to
    }

    /// The case of that number, from 0, of a chain that goes forward only.
    fn nth_case(&self, mut named_at: usize, mut case: u32, number: u32) -> Option<u32> {
        for left in (0..=number).rev() {
            let Some(Case(next, _)) = Instruction::read(self.code, case as usize) else { return None };
            if case as usize <= named_at {
                return None;
            }
            if left == 0 {
                return Some(case);
            }
            (named_at, case) = (case as usize, next);
        }
        None
    }
}
