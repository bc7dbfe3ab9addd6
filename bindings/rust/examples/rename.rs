//! `long: { continue long; }`: both labels become a.

mod rules;

use rules::{label_rule, print_refusal, Done};
use velkunshe::{rename, renamed};

fn main() -> Done {
    let rule = label_rule("long")?;
    let rule = rule.rule()?;
    println!("names {}", String::from_utf8(renamed(&rule)?.names)?);
    let mut nodes = vec![0; rule.nodes.len()];
    rename(&rule, &mut nodes, &mut [0; 1]).err().into_iter().for_each(print_refusal);
    Ok(())
}
