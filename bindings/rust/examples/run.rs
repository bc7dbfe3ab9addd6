//! A code, whoever wrote it, over lists of answers. `run_of` makes the vector itself.

mod rules;

use rules::{loop_rule, print_route, Done};
use velkunshe::{code_of, run};

fn main() -> Done {
    let rule = loop_rule()?;
    let show = |code: &[u32], answers: &[u32], room: usize| {
        let mut listed = vec![0; room];
        print_route(run(code, answers, &mut listed), &listed);
    };
    show(&code_of(&rule.rule()?, 0)?, &[1, 0, 0], 8);
    // 1, 4: lists 4; 6, 2: ends with 2, thrown.
    let by_hand = [1, 4, 1, 5, 6, 2];
    show(&by_hand, &[], 8);
    show(&by_hand, &[], 1);
    // Without its end the last instruction runs on.
    show(&by_hand[..4], &[], 8);
    Ok(())
}
