//! How much stack each call of the proved library takes: the deepest byte of a painted stack that it changed.

use std::hint::black_box;
use std::thread;

use plain::reader::OwnedTables;
use velkunshe::{Marks, Rule, Stop};

use crate::calls::{CALLS, Input, Slices};
use crate::shapes::{self, SHAPES};

/// More than any call takes.
const PAINTED: usize = 4 << 20;

/// What lies between the measure's own frame and the paint: its own calls, which paint and look.
const OWN: usize = 16 << 10;

/// A byte that cleared arrays don't leave.
const PAINT: u8 = 0xA5;

/// Up to so many nodes a rule is a small one.
const SMALL: usize = 1_024;

type Measured = (&'static str, fn(&Input, &mut Slices));

/// The calls that are not timed; each may be refused.
const OTHERS: [Measured; 3] =
    [("shared", shared), ("rename", rename), ("route_stop, route_resume_stop, route_resume", marks)];

fn shared(input: &Input, slices: &mut Slices) {
    let (first, second) = (input.answers(), &input.answers()[1..]);
    let _ = black_box(velkunshe::shared(&input.rule(), 0, first, second, slices.code()));
}

fn rename(input: &Input, _: &mut Slices) {
    let _ = black_box(velkunshe::renamed(&input.rule()));
}

fn marks(input: &Input, _: &mut Slices) {
    let rule: Rule = input.rule();
    let mut marks = Box::new(Marks::new());
    let (some, rest) = input.answers().split_at(input.answers().len() / 3);
    let _ = black_box(marks.route_stop_of(&rule, 0, some, Stop { mark: 0, answers: some.len() as u64 }));
    let _ = black_box(marks.route_resume_stop_of(&rule, 0, 0, rest, Stop { mark: 1, answers: some.len() as u64 }));
    let _ = black_box(marks.route_resume_of(&rule, 0, 1, rest));
}

/// For each call the most that it takes on small rules, and on the largest and deepest ones.
pub fn print() {
    let small =
        || SHAPES.iter().flat_map(|s| [250, SMALL].map(|size| (s.make)(size))).filter(|t| t.nodes.len() / 10 <= SMALL);
    let large = || SHAPES.iter().map(|s| (s.make)(s.sizes[1]));
    // the answers of the shapes, and as many yes as let a route into the innermost of all loops
    let inputs = |tables: &dyn Fn() -> Vec<OwnedTables>| -> Vec<Input> {
        [shapes::answers(SMALL), vec![1; SMALL]]
            .into_iter()
            .flat_map(|answers| tables().into_iter().map(move |t| Input::new(t, answers.clone())))
            .collect()
    };
    let (small, large) = (inputs(&|| small().collect()), inputs(&|| large().collect()));
    let (mut narrow, mut wide) = (Slices::for_all(&small), Slices::for_all(&large));
    println!("stack: the most bytes that a call takes on the shapes, up to {SMALL} nodes and up to 65,535");
    println!("{:44} {:>10} {:>10}", "call", "small", "large");
    let timed = CALLS.iter().map(|call| (call.name, call.contenders[0]));
    for (name, call) in timed.chain(OTHERS) {
        println!("{name:44} {:10} {:10}", most(call, &small, &mut narrow), most(call, &large, &mut wide));
    }
}

fn most(call: fn(&Input, &mut Slices), inputs: &[Input], slices: &mut Slices) -> usize {
    inputs.iter().map(|input| used(|| call(input, slices))).max().unwrap_or(0)
}

/// The bytes of stack that a call takes.
fn used(mut call: impl FnMut() + Send) -> usize {
    let measured = move || deepest(&mut call);
    thread::scope(|s| thread::Builder::new().stack_size(2 * PAINTED).spawn_scoped(s, measured).unwrap().join().unwrap())
}

/// How far below this function's frame the call changes the paint.
#[inline(never)]
fn deepest(call: &mut dyn FnMut()) -> usize {
    let here = black_box(0_u8);
    let top = &raw const here as usize;
    let painted = top - PAINTED..top - OWN;
    // SAFETY: these bytes are of this thread's own stack, which is twice as large, and nothing lives below the frame but calls that have ended.
    painted.clone().for_each(|at| unsafe { (at as *mut u8).write_volatile(PAINT) });
    call();
    // SAFETY: as above.
    let first = painted.clone().find(|&at| unsafe { (at as *const u8).read_volatile() } != PAINT);
    top - first.unwrap_or(painted.end)
}
