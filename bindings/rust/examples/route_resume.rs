//! A route that was stopped behind two answers is taken up there with different further ones.

mod rules;

use rules::{loop_rule, print_route, Done};
use velkunshe::{code_of, Marks, Slices, Stop};

fn main() -> Done {
    let rule = loop_rule()?;
    let rule = rule.rule()?;
    let (mut marks, mut code, mut listed) = (Marks::new(), code_of(&rule, 0)?, [0; 8]);
    marks.route_stop_of(&rule, 0, &[1, 0], Stop { mark: 3, answers: 2 })?;
    let mut resume = |mark, further| {
        let slices = Slices { code: &mut code, route: &mut listed };
        print_route(marks.route_resume(&rule, 0, mark, &[further], slices), &listed);
    };
    resume(3, 0);
    resume(3, 1);
    // Nothing was stopped under this one.
    resume(5, 0);
    Ok(())
}
