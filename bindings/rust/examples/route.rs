//! What `a: while(t){ switch(s){ case c: continue a; } x; }` comes to on lists of answers. `route_of` makes the vectors itself.

mod rules;

use rules::{loop_rule, print_route, Done};
use velkunshe::{code_of, route};

fn main() -> Done {
    let rule = loop_rule()?;
    let rule = rule.rule()?;
    let mut code = code_of(&rule, 0)?;
    let mut show = |answers: &[u32], room: usize| {
        let mut listed = vec![0; room];
        print_route(route(&rule, 0, answers, &mut code, &mut listed), &listed);
    };
    show(&[1, 0, 0], 8);
    show(&[1, 5, 0], 4);
    // No answer for the switch.
    show(&[1], 8);
    // One entry too short.
    show(&[1, 0, 0], 3);
    Ok(())
}
