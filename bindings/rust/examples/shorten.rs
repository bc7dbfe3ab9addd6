//! The code of `a: while(t){ switch(s){ case c: continue a; } x; }` without what no path reaches.

mod rules;

use rules::{loop_rule, Done};
use velkunshe::{code_of, shorten};

fn main() -> Done {
    let rule = loop_rule()?;
    let made = code_of(&rule.rule()?, 0)?;
    // The second is a jump into itself.
    for mut code in [made, vec![2, 1, 0]] {
        match shorten(&mut code) {
            Ok(shorter) => println!("length {}, freed {}", shorter.length, shorter.freed),
            Err(refusal) => println!("refusal {} at {}: {}", refusal.number(), refusal.place, refusal.reason),
        }
    }
    Ok(())
}
