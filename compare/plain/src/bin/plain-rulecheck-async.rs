//! plain-rulecheck with the option on async and generator bodies on.

use std::io::{Read, Write};

fn main() -> std::io::Result<()> {
    let mut input = Vec::new();
    std::io::stdin().read_to_end(&mut input)?;
    std::io::stdout().write_all(plain::reader::rulecheck_with(&input, true).as_bytes())
}
