//! Request 13/13 of document 02, sentence by sentence: class elements in source types 1 and 2.

use plain::reader::rulecheck;

const STATIC: u32 = 2;
const PRIVATE: u32 = 4;
const NO_FIXED_NAME: u32 = 16384;

/// Kind and extra of an element.
const CONSTRUCTOR: (u32, u32) = (28, 0);
const METHOD: (u32, u32) = (28, 1);
const GET: (u32, u32) = (28, 2);
const SET: (u32, u32) = (28, 3);
const FIELD: (u32, u32) = (29, 0);
const ACCESSOR: (u32, u32) = (30, 0);

/// An element: kind and extra, flags, kind of the key node, name, whether its function has a body.
type Element<'a> = ((u32, u32), u32, u32, &'a str, bool);

/// Code, and the two elements by their numbers.
type Clash = (u32, usize, usize);

fn element(sort: (u32, u32), flags: u32, name: &str) -> Element<'_> {
    (sort, flags, 55, name, true)
}

/// A class with these elements. The n-th, from 0, spans 10 n + 1 to 10 n + 9, its key 10 n + 2 to 10 n + 3.
fn check(source_type: u32, elements: &[Element]) -> String {
    let mut nodes =
        String::from("N,0,0,0,0,99,0,0,0,\nN,26,0,3,0,99,0,512,1,\nN,31,1,0,0,0,1,0,0,C\nN,27,1,0,0,99,1,0,0,\n");
    let (mut count, mut scopes) = (4, vec![String::from("S,0,3,0\n"), String::from("S,0,1,1\n")]);
    for (i, &((kind, extra), flags, key, name, body)) in elements.iter().enumerate() {
        let (start, at) = (10 * i, count);
        nodes += &format!("N,{kind},3,0,{},{},1,{flags},{extra},\n", start + 1, start + 9);
        nodes += &format!("N,{key},{at},2,{},{},1,0,0,{name}\n", start + 2, start + 3);
        count += 2;
        if kind == 28 {
            nodes += &format!("N,1,{at},1,{},{},1,1024,0,\n", start + 4, start + 8);
            scopes.push(format!("S,1,5,{count}\n"));
            count += 1;
            if body {
                nodes += &format!("N,4,{},3,{},{},{},0,0,\n", count - 1, start + 5, start + 7, scopes.len() - 1);
                count += 1;
            }
        }
    }
    let lines = format!("J,{source_type},{count},{}\n{}{nodes}X,{}\n", scopes.len(), scopes.concat(), "20".repeat(99));
    rulecheck(lines.as_bytes())
}

/// A finding at elements d and e.
fn at(code: u32, d: usize, e: usize) -> String {
    format!("F,{code},0,{},{},{},{},0\n", 10 * d + 2, 10 * d + 3, 10 * e + 2, 10 * e + 3)
}

fn found(source_type: u32, elements: &[Element], findings: &[Clash]) {
    let lines: String = findings.iter().map(|&(code, d, e)| at(code, d, e)).collect();
    assert_eq!(check(source_type, elements), format!("{lines}E,{}\n", findings.len()), "{elements:?}");
}

/// "Errors: 1 now begins at source type 3."
#[test]
fn source_types() {
    assert_eq!(check(2, &[]), "E,0\n");
    assert_eq!(check(3, &[]), "R,1,0\n");
}

/// "named non-private elements are compared too, each with the last such of its name, and clash exactly if both are
/// static or both are not, and they are not a getter and a setter"; "For types 0 and 1 findings are what they were."
#[test]
fn public_names() {
    let compared: [(&[Element], &[Clash]); 9] = [
        (&[element(FIELD, 0, "a"), element(FIELD, 0, "a"), element(FIELD, 0, "a")], &[(1, 0, 1), (1, 1, 2)]),
        (&[element(GET, 0, "a"), element(SET, 0, "a"), element(GET, 0, "a")], &[]),
        (&[element(FIELD, STATIC, "a"), element(FIELD, 0, "a"), element(FIELD, STATIC, "a")], &[]),
        (&[element(FIELD, 0, "a"), element(GET, 0, "a"), element(SET, 0, "a")], &[(1, 0, 1)]),
        (&[element(GET, 0, "a"), element(GET, 0, "a")], &[(1, 0, 1)]),
        (&[element(GET, 0, "a"), element(SET, STATIC, "a")], &[]),
        (&[element(ACCESSOR, 0, "a"), element(GET, 0, "a")], &[(1, 0, 1)]),
        (&[element(METHOD, STATIC, "a"), element(FIELD, STATIC, "a")], &[(1, 0, 1)]),
        (&[element(FIELD, 0, "a"), element(FIELD, 0, "b")], &[]),
    ];
    for (elements, findings) in compared {
        found(2, elements, findings);
        found(1, elements, &[]);
        found(0, elements, &[]);
    }
}

/// "A static and an instance private element of one name that clash give code 35 in place of 1."
#[test]
fn private_names() {
    let clashes: [(&[Element], u32, u32); 6] = [
        (&[element(FIELD, PRIVATE, "a"), element(FIELD, PRIVATE + STATIC, "a")], 1, 35),
        (&[element(GET, PRIVATE, "a"), element(GET, PRIVATE + STATIC, "a")], 1, 35),
        (&[element(GET, PRIVATE, "a"), element(SET, PRIVATE + STATIC, "a")], 1, 35),
        (&[element(FIELD, PRIVATE, "a"), element(METHOD, PRIVATE, "a")], 1, 1),
        (&[element(GET, PRIVATE, "a"), element(SET, PRIVATE, "a")], 0, 0),
        // A public and a private element have no name in common.
        (&[element(FIELD, PRIVATE, "a"), element(FIELD, 0, "a")], 0, 0),
    ];
    for (elements, script, typescript) in clashes {
        for (source_type, code) in [(0, script), (1, script), (2, typescript)] {
            let findings: &[Clash] = if code == 0 { &[] } else { &[(code, 0, 1)] };
            found(source_type, elements, findings);
        }
    }
    // A private getter, setter and getter: the third against the first, its own side.
    let sides = [element(GET, PRIVATE, "a"), element(SET, PRIVATE, "a"), element(GET, PRIVATE, "a")];
    found(2, &sides, &[(1, 0, 2)]);
    // Findings of both kinds of key in the order of the elements.
    let mixed = [
        element(FIELD, PRIVATE, "a"),
        element(FIELD, 0, "a"),
        element(FIELD, 0, "a"),
        element(FIELD, PRIVATE + STATIC, "a"),
    ];
    found(2, &mixed, &[(1, 1, 2), (35, 0, 3)]);
}

/// "Flag 16384 .. marks an element without a fixed name, which is entered nowhere; without it, length 0 is here the
/// empty name."
#[test]
fn names_that_are_not_fixed() {
    let unfixed = element(FIELD, NO_FIXED_NAME, "a");
    found(2, &[element(FIELD, 0, "a"), unfixed, element(FIELD, 0, "a")], &[(1, 0, 2)]);
    found(2, &[unfixed, unfixed], &[]);
    for private in [0, PRIVATE] {
        let empty = element(FIELD, private, "");
        found(2, &[empty, empty], &[(1, 0, 1)]);
        found(1, &[empty, empty], &[]);
        // The key node's kind is not asked: an IdentifierReference gives its name too.
        let reference = (FIELD, private, 32, "a", true);
        found(2, &[reference, element(FIELD, private, "a")], &[(1, 0, 1)]);
        found(1, &[reference, element(FIELD, private, "a")], &[]);
    }
    // "on kinds 28 to 30 in type 2, refused by 2 elsewhere"
    for sort in [METHOD, FIELD, ACCESSOR] {
        assert_eq!(check(2, &[element(sort, NO_FIXED_NAME, "a")]), "E,0\n");
        assert_eq!(check(1, &[element(sort, NO_FIXED_NAME, "a")]), "R,2,4\n");
        assert_eq!(check(2, &[element(sort, NO_FIXED_NAME + 8192, "a")]), "R,2,4\n");
    }
}

/// What the Rust doesn't enter: constructors and functions without a body.
#[test]
fn constructors_and_overloads() {
    let overload = (METHOD, 0, 55, "m", false);
    found(2, &[overload, overload, element(METHOD, 0, "m")], &[]);
    found(2, &[element(CONSTRUCTOR, 0, "constructor"), element(GET, 0, "constructor")], &[]);
    // Code 27: the key's span where the name is fixed, the empty name too, else the constructor's own.
    let second = |flags, name| check(2, &[element(CONSTRUCTOR, 0, "c"), element(CONSTRUCTOR, flags, name)]);
    assert_eq!(second(0, ""), "F,27,1,2,3,12,13,0\nE,1\n");
    assert_eq!(second(NO_FIXED_NAME, "c"), "F,27,1,2,3,11,19,0\nE,1\n");
}

/// "`with` gives code 17 in sloppy code too"; a TypeScript module is a module.
#[test]
fn other_checks() {
    let with = "S,0,2,0\nN,0,0,0,0,9,0,0,0,\nN,13,0,3,0,9,0,0,0,\nN,22,1,3,7,9,0,0,0,\nX,202020202020202020\n";
    let run = |source_type: u32, lines: &str| rulecheck(format!("J,{source_type},3,1\n{lines}").as_bytes());
    assert_eq!(run(0, with), "E,0\n");
    assert_eq!(run(1, with), "E,0\n");
    assert_eq!(run(2, with), "F,17,1,0,4,0,0,0\nE,1\n");
    let using = "S,0,2,0\nN,0,0,0,0,9,0,0,0,\nN,24,0,3,0,9,0,0,3,\nN,31,1,0,1,2,0,0,0,await\nX,202020202020202020\n";
    assert_eq!(run(0, using), "F,13,1,0,9,0,0,0\nE,1\n");
    assert_eq!(run(1, using), "F,2,2,1,2,0,0,4\nE,1\n");
    assert_eq!(run(2, using), "F,2,2,1,2,0,0,4\nE,1\n");
}
