//! The routes by the second engine, which needs no code slice. `walk_of` makes the vector itself.

mod rules;

use rules::{loop_rule, print_route, Done};
use velkunshe::walk;

fn main() -> Done {
    let rule = loop_rule()?;
    for room in [8, 3] {
        let mut listed = vec![0; room];
        print_route(walk(&rule.rule()?, 0, &[1, 0, 0], &mut listed), &listed);
    }
    Ok(())
}
