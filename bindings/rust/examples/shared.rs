//! How many entries the routes for two lists of answers have in common from their start on.

mod rules;

use rules::{loop_rule, print_refusal, Done};
use velkunshe::{shared, shared_of};

fn main() -> Done {
    let rule = loop_rule()?;
    let rule = rule.rule()?;
    println!("shared {}", shared_of(&rule, 0, &[1, 0, 0], &[1, 5, 0])?);
    println!("shared {}", shared_of(&rule, 0, &[1, 0, 0], &[1])?);
    shared(&rule, 0, &[1, 0, 0], &[1, 5, 0], &mut []).err().into_iter().for_each(print_refusal);
    Ok(())
}
