//! Document 01's example and rows, and one table for each sentence of the refusals.

use plain::reader::{rulecheck, ruleroute};

fn hex(source: &str) -> String {
    source.bytes().map(|b| format!("{b:02x}")).collect()
}

/// Scopes "parent,flags,node" and nodes "kind,parent,role,start,end,scope,flags,extra,name" to lines.
fn lines(source_type: u32, scopes: &[&str], nodes: &[&str], source: &str) -> String {
    let mut out = format!("J,{source_type},{},{}\n", nodes.len(), scopes.len());
    scopes.iter().for_each(|s| out += &format!("S,{s}\n"));
    nodes.iter().for_each(|n| out += &format!("N,{n}\n"));
    out + &format!("X,{}\n", hex(source))
}

fn check(source_type: u32, scopes: &[&str], nodes: &[&str], source: &str) -> String {
    rulecheck(lines(source_type, scopes, nodes, source).as_bytes())
}

const EXAMPLE: &str = "J,0,6,2
S,0,2,0
S,0,0,3
N,0,0,0,0,18,0,0,0,
N,6,0,3,0,18,0,0,0,
N,33,1,6,0,1,0,0,0,a
N,5,1,3,3,18,0,0,0,
N,19,3,3,5,16,1,0,0,
N,33,4,6,14,15,1,0,0,a
X,613a207b20636f6e74696e756520613b207d
";

#[test]
fn the_example() {
    assert_eq!(rulecheck(EXAMPLE.as_bytes()), "F,22,4,0,1,14,15,0\nE,1\n");
    // The last line may lack its newline, and later lines aren't read.
    assert_eq!(rulecheck(EXAMPLE.trim_end().as_bytes()), "F,22,4,0,1,14,15,0\nE,1\n");
    assert_eq!(rulecheck(format!("{EXAMPLE}junk\n").as_bytes()), "F,22,4,0,1,14,15,0\nE,1\n");
}

#[test]
fn unreadable_lines() {
    assert_eq!(rulecheck(b""), "R,0,1\n");
    assert_eq!(rulecheck(b"J,0,1,1\n"), "R,0,2\n");
    assert_eq!(rulecheck(b"J,0,1025,1\n"), "R,0,1\n");
    assert_eq!(rulecheck(b"J,0,0,0\nX,\n"), "R,1,0\n");
    assert_eq!(rulecheck(b"J,0,0,0\nX,0\n"), "R,0,2\n");
    assert_eq!(rulecheck(b"J,0,0,0\nX,0g\n"), "R,0,2\n");
    assert_eq!(rulecheck(b"J,0,0,0\n\n"), "R,0,2\n");
    assert_eq!(rulecheck(b"J,0,0,0\nX\n"), "R,0,2\n");
    assert_eq!(rulecheck(b"J,0,0,0\nX,\r\n"), "R,0,2\n");
    assert_eq!(rulecheck(b"J,0,0,4294967296\nX,\n"), "R,0,1\n");
    assert_eq!(rulecheck(b"J,00,00001,01\nS,0,2,0\nN,0,0,0,0,0,0,0,0\nX,\n"), "R,0,3\n");
    assert_eq!(rulecheck(b"J,00,00001,01\nS,0,2,0\nN,0,0,0,0,0,0,0,0,\nX,\n"), "E,0\n");
    assert_eq!(rulecheck(b"J,4294967295,1,1\nS,0,2,0\nN,0,0,0,0,0,0,0,0,\nX,\n"), "R,1,0\n");
    for (length, out) in [(1024, "E,0\n"), (1025, "R,0,3\n")] {
        let name = "n".repeat(length);
        assert_eq!(rulecheck(format!("J,0,1,1\nS,0,2,0\nN,0,0,0,0,0,0,0,0,{name}\nX,\n").as_bytes()), out);
        let source = "20".repeat(length);
        let out = out.replace('3', "4");
        assert_eq!(rulecheck(format!("J,0,1,1\nS,0,2,0\nN,0,0,0,0,0,0,0,0,\nX,{source}\n").as_bytes()), out);
    }
    for (length, out) in [(2088, "E,0\n"), (2089, "R,0,1\n")] {
        let zeros = "0".repeat(length - 1);
        assert_eq!(rulecheck(format!("J,{zeros}0,0001,0001\nS,0,2,0\nN,0,0,0,0,0,0,0,0,\nX,\n").as_bytes()), out);
    }
}

/// One strict literal at the top: `kind,..,flags,extra`.
fn literal(kind: u32, extra: usize, raw: &str) -> String {
    let end = raw.len();
    let nodes =
        [format!("0,0,0,0,{end},0,0,0,"), format!("22,0,3,0,{end},0,0,0,"), format!("{kind},1,1,0,{end},0,0,{extra},")];
    let nodes: Vec<&str> = nodes.iter().map(String::as_str).collect();
    check(0, &["0,3,0"], &nodes, raw)
}

#[test]
fn literals() {
    let found = |code: u32, raw: &str| format!("F,{code},2,0,{},0,0,0\nE,1\n", raw.len());
    let escape = |code: u32, raw: &str, i: usize| format!("F,{code},2,0,{},{i},{},0\nE,1\n", raw.len(), i + 2);
    assert_eq!(literal(36, 1, r"'\0'"), "E,0\n");
    assert_eq!(literal(36, 2, r"'\08'"), escape(9, r"'\08'", 1));
    assert_eq!(literal(36, 1, r"'\8'"), escape(11, r"'\8'", 1));
    assert_eq!(literal(36, 2, r"'\\1'"), "E,0\n");
    assert_eq!(literal(35, 3, "07"), found(9, "07"));
    assert_eq!(literal(35, 0, "08"), found(10, "08"));
    assert_eq!(literal(35, 1, "0.5"), "E,0\n");
    // The Rust scans nothing where raw length is value length plus 2.
    assert_eq!(literal(36, 2, r"'\8'"), "E,0\n");
    assert_eq!(literal(36, 1, r"'0123456789abcdef\9'"), escape(11, r"'0123456789abcdef\9'", 17));
    // The first of several, and none behind an escaped backslash.
    assert_eq!(literal(36, 9, r"'\x41\\9\123\8'"), escape(9, r"'\x41\\9\123\8'", 8));
}

/// `class C { get #x() {} static set #x(v) {} }`, the setter static or not.
fn accessors(setter_flags: u32) -> String {
    let setter = format!("28,3,0,24,43,1,{setter_flags},3,");
    let nodes = [
        "0,0,0,0,45,0,0,0,",
        "26,0,3,0,45,0,32,1,",
        "31,1,0,6,7,1,0,0,C",
        "27,1,0,8,45,1,0,0,",
        "28,3,0,10,22,1,4,2,",
        "34,4,2,14,16,1,0,0,x",
        "1,4,1,16,22,1,1024,0,",
        "4,6,3,19,21,2,0,0,",
        &setter,
        "34,8,2,35,37,1,0,0,x",
        "1,8,1,37,43,1,1024,0,",
        "4,10,3,41,43,3,0,0,",
    ];
    check(0, &["0,2,0", "0,1,1", "1,5,6", "1,5,10"], &nodes, &" ".repeat(45))
}

#[test]
fn private_accessors() {
    assert_eq!(accessors(4), "E,0\n");
    assert_eq!(accessors(6), "F,1,0,14,16,35,37,0\nE,1\n");
}

#[test]
fn continue_in_a_switch() {
    let nodes =
        ["0,0,0,0,30,0,0,0,", "14,0,3,0,30,0,0,0,", "32,1,1,7,8,0,0,0,s", "15,1,3,10,28,1,0,0,", "19,3,3,18,27,1,0,0,"];
    assert_eq!(check(0, &["0,2,0", "0,0,1"], &nodes, &" ".repeat(30)), "F,21,4,18,27,0,0,0\nE,1\n");
}

/// `a: while(t){ switch(s){ case c: continue a; } x; }`
fn route(unit: &str, answers: &str) -> String {
    let nodes = [
        "0,0,0,0,50,0,0,0,",
        "6,0,3,0,50,0,0,0,",
        "33,1,6,0,1,0,0,0,a",
        "10,1,3,3,50,0,0,0,",
        "32,3,1,9,10,0,0,0,t",
        "5,3,3,11,50,0,0,0,",
        "14,5,3,13,45,1,0,0,",
        "32,6,1,20,21,1,0,0,s",
        "15,6,3,24,43,2,0,0,",
        "32,8,1,29,30,2,0,0,c",
        "19,8,3,32,43,2,0,0,",
        "33,10,6,41,42,2,0,0,a",
        "22,5,3,46,48,1,0,0,",
        "32,12,1,46,47,1,0,0,x",
    ];
    let tables = lines(0, &["0,2,0", "0,0,5", "1,0,6"], &nodes, "a: while(t){ switch(s){ case c: continue a; } x; }");
    ruleroute(format!("{tables}U,{unit}\nA{answers}\n").as_bytes())
}

#[test]
fn routes() {
    assert_eq!(route("0", ",1,0,0"), "L,3\nL,6\nL,10\nL,3\nZ,0,4,3\n");
    assert_eq!(route("0", ",1,5,0"), "L,3\nL,6\nL,12\nL,3\nZ,0,4,3\n");
    assert_eq!(route("0", ",1"), "L,3\nZ,3,1,1\n");
    assert_eq!(route("0", ""), "Z,3,0,0\n");
    assert_eq!(route("1", ""), "R,7,1\n");
    assert_eq!(route("14", ""), "R,7,14\n");
    assert_eq!(route("", ""), "R,0,20\n");
    assert_eq!(route("0", ","), "R,0,21\n");
}

/// Nodes without spans or names: "kind,parent,role" and more after it; a Program with scope 0 comes first.
fn shape(nodes: &[&str]) -> String {
    let full: Vec<String> = std::iter::once("0,0,0")
        .chain(nodes.iter().copied())
        .map(|n| {
            let mut parts: Vec<&str> = n.split(',').collect();
            let (flags, extra) = (parts.get(3).copied().unwrap_or("0"), parts.get(4).copied().unwrap_or("0"));
            parts.truncate(3);
            format!("{},0,0,0,{flags},{extra},", parts.join(","))
        })
        .collect();
    let full: Vec<&str> = full.iter().map(String::as_str).collect();
    check(0, &["0,2,0"], &full, "")
}

#[test]
fn refusals_2_to_5() {
    assert_eq!(shape(&["56,0,0"]), "R,2,1\n");
    assert_eq!(shape(&["55,0,8"]), "R,2,1\n");
    assert_eq!(shape(&["55,0,0,1"]), "R,2,1\n");
    assert_eq!(shape(&["55,0,0,8190"]), "E,0\n");
    assert_eq!(shape(&["55,0,0,8192"]), "R,2,1\n");
    assert_eq!(shape(&["55,0,0,0,2"]), "R,2,1\n");
    assert_eq!(shape(&["22,0,3", "0,1,0"]), "R,3,2\n");
    assert_eq!(shape(&["55,2,0", "55,0,0"]), "R,3,1\n");
    assert_eq!(shape(&["55,0,0", "55,1,0", "55,0,0", "55,1,0"]), "R,3,4\n");
    for (depth, out) in [(512, "E,0\n"), (513, "R,3,513\n")] {
        let chain: Vec<String> = (0..depth).map(|p| format!("55,{p},0")).collect();
        let chain: Vec<&str> = chain.iter().map(String::as_str).collect();
        assert_eq!(shape(&chain), out);
    }
    assert_eq!(check(0, &["0,2,0"], &["0,0,0,1,0,0,0,0,"], " "), "R,4,0\n");
    assert_eq!(check(0, &["0,2,0"], &["0,0,0,0,2,0,0,0,"], " "), "R,4,0\n");
    assert_eq!(check(0, &["1,2,0"], &["0,0,0,0,0,0,0,0,"], ""), "R,5,0\n");
    assert_eq!(check(0, &["0,32,0"], &["0,0,0,0,0,0,0,0,"], ""), "R,5,0\n");
    assert_eq!(check(0, &["0,2,0", "1,0,0"], &["0,0,0,0,0,2,0,0,"], ""), "R,5,1\n");
    assert_eq!(check(0, &["0,2,0"], &["0,0,0,0,0,0,0,0,", "55,0,0,0,0,1,0,0,"], ""), "R,5,1\n");
    assert_eq!(
        check(0, &["0,2,0", "0,0,1"], &["0,0,0,0,0,0,0,0,", "55,0,0,0,0,1,0,0,", "55,0,0,0,0,1,0,0,"], ""),
        "R,5,2\n"
    );
    assert_eq!(check(0, &["0,2,9"], &["0,0,0,0,0,0,0,0,"], ""), "R,5,0\n");
    assert_eq!(check(0, &["0,2,0", "0,0,9"], &["0,0,0,0,0,0,0,0,"], ""), "E,0\n");
    assert_eq!(shape(&["26,0,3,32,1", "27,1,0"]), "R,5,1\n");
}

/// Request 4 of document 02: 13 at the child, 14 at the parent.
fn refused(number: u32, nodes: &[&str], place: usize) {
    assert_eq!(shape(nodes), format!("R,{number},{place}\n"), "{nodes:?}");
}

fn passes(nodes: &[&str]) {
    assert!(shape(nodes).contains("E,"), "{nodes:?}");
}

#[test]
fn refusal_13() {
    let refused = |nodes: &[&str], place: usize| refused(13, nodes, place);
    // Statements under holders, with roles 3 to 5.
    refused(&["5,0,0"], 1);
    refused(&["55,0,0", "22,1,3"], 2);
    passes(&["5,0,3", "22,1,3"]);
    refused(&["5,0,3", "22,1,4"], 2);
    refused(&["5,0,3", "22,1,5"], 2);
    passes(&["1,0,3"]);
    passes(&["1,0,0"]);
    refused(&["2,0,3"], 1);
    refused(&["23,0,3"], 1);
    passes(&["22,0,3", "55,1,3"]);
    refused(&["22,0,3", "55,1,4"], 2);
    refused(&["10,0,3", "55,1,3"], 2);
    refused(&["12,0,3", "22,1,3", "22,1,5"], 3);
    refused(&["13,0,3", "22,1,3", "22,1,4"], 3);
    // Switch. A case that it doesn't hold is misplaced, and none of its defaults.
    refused(&["14,0,3", "15,1,3,4096", "15,1,0,4096"], 3);
    refused(&["14,0,3", "15,1,0"], 2);
    refused(&["14,0,3", "55,1,3"], 2);
    refused(&["15,0,3"], 1);
    refused(&["15,0,0"], 1);
    // Try.
    refused(&["16,0,3", "22,1,3", "5,1,5"], 2);
    refused(&["16,0,3", "5,1,3", "5,1,4", "5,1,5"], 3);
    refused(&["16,0,3", "5,1,3", "17,1,5", "5,3,3"], 3);
    refused(&["16,0,3", "5,1,3", "17,1,4", "22,3,3"], 4);
    refused(&["17,0,4", "5,1,3"], 1);
    // Functions and classes.
    refused(&["4,0,0"], 1);
    refused(&["27,0,0"], 1);
    passes(&["26,0,3", "27,1,0", "3,2,0", "22,3,3"]);
    refused(&["3,0,0"], 1);
    refused(&["28,0,0", "55,1,2", "1,1,1"], 1);
    refused(&["26,0,3", "27,1,0", "28,2,0", "55,3,2", "55,3,1"], 5);
}

#[test]
fn refusal_14() {
    let refused = |nodes: &[&str], place: usize| refused(14, nodes, place);
    // Exactly one held statement.
    refused(&["10,0,3"], 1);
    refused(&["10,0,3", "22,1,3", "22,1,3"], 1);
    passes(&["10,0,3", "55,1,1", "22,1,3"]);
    refused(&["12,0,3", "22,1,4"], 1);
    passes(&["12,0,3", "22,1,3", "22,1,4"]);
    refused(&["12,0,3", "22,1,3", "22,1,4", "22,1,4"], 1);
    // Switch.
    passes(&["14,0,3"]);
    passes(&["14,0,3", "55,1,1", "15,1,3,4096", "22,3,3", "15,1,3"]);
    refused(&["14,0,3", "15,1,3,4096", "15,1,3,4096"], 1);
    // Try.
    passes(&["16,0,3", "5,1,3", "17,1,4", "5,3,3"]);
    passes(&["16,0,3", "5,1,3", "5,1,5"]);
    passes(&["16,0,3", "5,1,3", "17,1,4", "5,3,3", "5,1,5"]);
    refused(&["16,0,3", "5,1,3"], 1);
    refused(&["16,0,3", "5,1,5"], 1);
    refused(&["16,0,3", "5,1,3", "5,1,3", "5,1,5"], 1);
    refused(&["16,0,3", "5,1,3", "17,1,4"], 3);
    refused(&["16,0,3", "5,1,3", "17,1,4", "5,3,3", "5,3,3"], 3);
    refused(&["16,0,3", "5,1,3", "5,1,5", "5,1,5"], 1);
    // Labels.
    passes(&["6,0,3", "33,1,6", "22,1,3"]);
    refused(&["6,0,3", "22,1,3"], 1);
    refused(&["6,0,3", "33,1,0", "22,1,3"], 1);
    refused(&["6,0,3", "33,1,6", "33,1,6", "22,1,3"], 1);
    passes(&["10,0,3", "18,1,3"]);
    refused(&["10,0,3", "18,1,3", "33,2,6", "33,2,6"], 2);
    passes(&["10,0,3", "18,1,3", "55,2,6"]);
    // Functions and classes.
    refused(&["1,0,3", "4,1,3", "4,1,3"], 1);
    passes(&["1,0,3", "4,1,3"]);
    refused(&["26,0,3"], 1);
    refused(&["26,0,3", "27,1,0", "27,1,0"], 1);
    refused(&["26,0,3", "27,1,0", "28,2,0", "55,3,2"], 3);
    refused(&["26,0,3", "27,1,0", "28,2,0", "1,3,1"], 3);
    passes(&["26,0,3", "27,1,0", "28,2,0", "55,3,2", "1,3,1"]);
    passes(&["26,0,3", "27,1,0", "29,2,0", "55,3,2"]);
    refused(&["26,0,3", "27,1,0", "30,2,0", "55,3,2", "55,3,1", "55,3,1"], 3);
}

/// "13 .., then 14 .., each over the whole tree, after 5 and before 6".
#[test]
fn order_of_13_14_and_6() {
    // A parent with a wrong count, and a misplaced child further down: of it, and of another.
    refused(13, &["16,0,3", "5,1,3", "22,1,3", "5,1,5"], 3);
    refused(13, &["16,0,3", "5,1,3", "17,1,5", "5,3,3", "5,1,5"], 3);
    refused(13, &["10,0,3", "22,1,3", "55,1,3"], 3);
    refused(13, &["10,0,3", "5,0,0"], 2);
    // A scope that is missing comes before both.
    refused(5, &["26,0,3,32,1", "4,1,0", "10,0,3", "5,0,0"], 1);
    // A Super whose walk fails comes behind both: the Program's scope is a function's.
    let at_super = |more: &[&str]| {
        let nodes = ["0,0,0,0,0,0,0,0,", "22,0,3,0,0,0,0,0,", "37,1,0,0,0,0,0,0,"];
        check(0, &["0,4,0"], &[&nodes, more].concat(), "")
    };
    assert_eq!(at_super(&["10,0,3,0,0,0,0,0,"]), "R,14,3\n");
    assert_eq!(at_super(&["10,0,3,0,0,0,0,0,", "5,0,0,0,0,0,0,0,"]), "R,13,4\n");
}

#[test]
fn refusal_6() {
    // A function scope whose node is the Program: nothing is above it.
    let nodes = ["0,0,0,0,0,0,0,0,", "22,0,3,0,0,0,0,0,", "37,1,0,0,0,0,0,0,"];
    assert_eq!(check(0, &["0,4,0"], &nodes, ""), "R,6,2\n");
    assert_eq!(check(0, &["0,2,0"], &nodes, ""), "F,30,2,0,0,0,0,0\nE,1\n");
    // In a static block whose class's scope is the Super's own: no class element is on the way up.
    let nodes = [
        "0,0,0,0,0,0,0,0,",
        "26,0,3,0,0,0,0,0,",
        "27,1,0,0,0,0,0,0,",
        "3,2,0,0,0,0,0,0,",
        "22,3,3,0,0,0,0,0,",
        "37,4,0,0,0,0,0,0,",
    ];
    assert_eq!(check(0, &["0,2,0"], &nodes, ""), "R,6,5\n");
}
