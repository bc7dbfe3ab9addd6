//! A route that is longer than the limit, and then than the memory: prints what is told and ends as usual. tests/bindings.sh runs it with
//! little memory.

use velkunshe::{route_of, route_within, Error, Route, Rule, NODE};

const STATEMENTS: usize = 2_000;
const TURNS: usize = 20_000;

fn print(answer: Result<Route, Error>) {
    match answer {
        Ok(route) => println!("{} entries", route.nodes.len()),
        Err(error) => println!("{error}"),
    }
}

fn main() {
    // while (t) { x; x; .. }
    let mut nodes = vec![0; NODE];
    nodes.extend([10, 0, 3, 0, 0, 0, 0, 0, 0, 0]);
    nodes.extend([32, 1, 0, 0, 0, 0, 0, 0, 0, 0]);
    nodes.extend([5, 1, 3, 0, 0, 1, 0, 0, 0, 0]);
    nodes.extend([22, 3, 3, 0, 0, 1, 0, 0, 0, 0].repeat(STATEMENTS));
    let scopes = [0, 2, 0, 0, 0, 3];
    let rule = Rule { source_type: 0, async_bodies: false, nodes: &nodes, scopes: &scopes, source: b"", names: b"" };
    print(route_of(&rule, 0, &[1; TURNS]));
    print(route_within(&rule, 0, &[1; TURNS], usize::MAX));
}
