//! The route on 1, 5, 0 in three parts, each of which takes one answer.

mod rules;

use rules::{loop_rule, print_route, Done};
use velkunshe::{code_of, Marks, Slices, Stop};

fn main() -> Done {
    let rule = loop_rule()?;
    let rule = rule.rule()?;
    let (mut marks, mut code, mut listed) = (Marks::new(), code_of(&rule, 0)?, [0; 8]);
    let stop = |mark| Stop { mark, answers: 1 };
    let slices = Slices { code: &mut code, route: &mut listed };
    print_route(marks.route_stop(&rule, 0, &[1], stop(3), slices), &listed);
    let slices = Slices { code: &mut code, route: &mut listed };
    print_route(marks.route_resume_stop(&rule, 0, 3, &[5], stop(6), slices), &listed);
    let slices = Slices { code: &mut code, route: &mut listed };
    print_route(marks.route_resume(&rule, 0, 6, &[0], slices), &listed);
    // Nothing was stopped under this one.
    let slices = Slices { code: &mut code, route: &mut listed };
    print_route(marks.route_resume_stop(&rule, 0, 5, &[0], stop(6), slices), &listed);
    Ok(())
}
