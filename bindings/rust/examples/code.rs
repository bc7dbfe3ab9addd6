//! The flat code of `a: while(t){ switch(s){ case c: continue a; } x; }`.

mod rules;

use rules::{loop_rule, print_refusal, Done};
use velkunshe::{code, code_of};

fn main() -> Done {
    let rule = loop_rule()?;
    // Node 1 is no unit.
    code(&rule.tables(), 1, &mut []).err().into_iter().for_each(print_refusal);
    code(&rule.tables(), 0, &mut []).err().into_iter().for_each(print_refusal);
    let made: Vec<String> = code_of(&rule.rule()?, 0)?.iter().map(u32::to_string).collect();
    println!("{}", made.join(" "));
    Ok(())
}
