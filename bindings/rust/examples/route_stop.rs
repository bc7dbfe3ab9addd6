//! A route that is stopped under a mark behind some answers.

mod rules;

use rules::{loop_rule, print_route, Done};
use velkunshe::{code_of, Marks, Slices, Stop};

fn main() -> Done {
    let rule = loop_rule()?;
    let rule = rule.rule()?;
    let (mut marks, mut code, mut listed) = (Marks::new(), code_of(&rule, 0)?, [0; 8]);
    let mut stop = |mark, answers| {
        let slices = Slices { code: &mut code, route: &mut listed };
        print_route(marks.route_stop(&rule, 0, &[1, 0, 0], Stop { mark, answers }, slices), &listed);
    };
    stop(3, 2);
    stop(3, 0);
    // It ends before.
    stop(3, 4);
    // There are eight marks.
    stop(8, 2);
    Ok(())
}
