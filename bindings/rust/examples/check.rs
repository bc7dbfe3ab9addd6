//! What is wrong in `a: { continue a; }`.

mod rules;

use rules::{label_rule, print_refusal, Done};
use velkunshe::{check, Finding, Rule, FINDING};

fn print(rule: &Rule, findings: &mut [u32]) {
    match check(rule, findings) {
        Ok(count) => findings.chunks_exact(FINDING).take(count).for_each(|numbers| {
            let numbers = numbers.try_into().expect("a chunk of that length");
            let Finding { code, node, first, second, context } = Finding::from_numbers(numbers);
            let spans = format!("bytes {} to {} and {} to {}", first.0, first.1, second.0, second.1);
            println!("code {} at node {node}, {spans}, {context}: {code}", code.number());
        }),
        Err(refusal) => print_refusal(refusal),
    }
}

fn main() -> Done {
    let rule = label_rule("a")?;
    let mut findings = [0; FINDING + 1];
    findings[FINDING] = 77;
    // An empty slice: nothing is written, and the answer says how long it must be. `findings` makes a vector of that length.
    print(&rule.tables(), &mut []);
    print(&rule.tables(), &mut findings[..FINDING]);
    println!("behind the finding {}", findings[FINDING]);
    // No table at all.
    print(&Rule { nodes: &[], ..rule.tables() }, &mut findings);
    Ok(())
}
