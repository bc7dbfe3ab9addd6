//! The calls on slices of every length: nothing but what is promised is written.

use velkunshe::{
    check, code, code_of, findings, rename, renamed, route, route_of, run, run_of, shared, shared_of, shorten,
    shortened, walk, walk_of, Context, End, Error, Marks, Reason, Refusal, Rule, Shorter, Shown, Slices, Stop, CODE,
    FINDING,
};

fn refusal(number: u32, place: u64, needed: Option<u64>) -> Refusal {
    Refusal { reason: Reason::from_number(number), place, needed }
}

/// What a call that makes vectors answers then.
fn refused<T>(number: u32, place: u64) -> Result<T, Error> {
    Err(refusal(number, place, None).into())
}

/// A script with nothing in it.
const EMPTY: Rule =
    Rule { source_type: 0, async_bodies: false, nodes: &[0; 10], scopes: &[0, 2, 0], source: b"", names: b"" };

/// `with (a) ;` in strict code, twice: two findings of code 17.
const TWO: Rule = Rule {
    source_type: 1,
    async_bodies: false,
    nodes: &[
        0, 0, 0, 0, 20, 0, 0, 0, 0, 0, //
        13, 0, 3, 0, 10, 0, 0, 0, 0, 0, 22, 1, 3, 9, 10, 0, 0, 0, 0, 0, //
        13, 0, 3, 10, 20, 0, 0, 0, 0, 0, 22, 3, 3, 19, 20, 0, 0, 0, 0, 0,
    ],
    scopes: &[0, 3, 0],
    source: b"with (a) ;with (a) ;",
    names: b"",
};

/// `a: while(t){ switch(s){ case c: continue a; } x; }`
const ROUTED: Rule = Rule {
    source_type: 0,
    async_bodies: false,
    nodes: &[
        0, 0, 0, 0, 0, 0, 0, 0, 0, 0, // 0 Program
        6, 0, 3, 0, 0, 0, 0, 0, 0, 0, 33, 1, 6, 0, 0, 0, 0, 0, 0, 1, // 1 Labeled, a
        10, 1, 3, 0, 0, 0, 0, 0, 0, 0, 32, 3, 0, 0, 0, 0, 0, 0, 1, 1, // 3 While, t
        5, 3, 3, 0, 0, 1, 0, 0, 0, 0, // 5 Block
        14, 5, 3, 0, 0, 1, 0, 0, 0, 0, 32, 6, 0, 0, 0, 1, 0, 0, 2, 1, // 6 Switch, s
        15, 6, 3, 0, 0, 2, 0, 0, 0, 0, 32, 8, 0, 0, 0, 2, 0, 0, 3, 1, // 8 SwitchCase, c
        19, 8, 3, 0, 0, 2, 0, 0, 0, 0, 33, 10, 6, 0, 0, 2, 0, 0, 0, 1, // 10 Continue, a
        22, 5, 3, 0, 0, 1, 0, 0, 0, 0, // 12 x;
    ],
    scopes: &[0, 2, 0, 0, 0, 5, 1, 0, 6],
    source: b"",
    names: b"atsc",
};

#[test]
fn nothing_found() {
    assert_eq!(check(&EMPTY, &mut []), Ok(0));
    assert_eq!(findings(&EMPTY), Ok(vec![]));
}

/// `if (t) async function f() {}` in sloppy code: nothing with the option off, 34 at the If with it on, and 9 of the routes.
#[test]
fn async_bodies() {
    let nodes = [
        0,
        0,
        0,
        0,
        29,
        0,
        0,
        0,
        0,
        0, //
        12,
        0,
        3,
        0,
        29,
        0,
        0,
        0,
        0,
        0,
        32,
        1,
        0,
        4,
        5,
        0,
        0,
        0,
        0,
        0, //
        1,
        1,
        3,
        7,
        29,
        0,
        8192 + 32 + 1024,
        0,
        0,
        0,
    ];
    let off = Rule { nodes: &nodes, source: b"if (t) async function f() {}\n", ..EMPTY };
    let on = Rule { async_bodies: true, ..off };
    assert_eq!(findings(&off), Ok(vec![]));
    let found = findings(&on).unwrap();
    assert_eq!(
        found.iter().map(|f| (f.code.number(), f.node, f.first, f.second, f.context)).collect::<Vec<_>>(),
        [(34, 1, (7, 29), (0, 0), Context::None)]
    );
    assert_eq!(route_of(&off, 0, &[1]).map(|r| r.nodes), Ok(vec![1, 3]));
    assert_eq!(route_of(&on, 0, &[1]), refused(9, 1));
    let mut made = vec![77; 64];
    assert_eq!(code(&on, 0, &mut made), Err(refusal(9, 1, None)));
    assert!(made.iter().all(|&n| n == 77));
    // The flag is a Function's alone.
    let mut arrow = nodes;
    arrow[30] = 2;
    assert_eq!(findings(&Rule { nodes: &arrow, ..off }), refused(2, 3));
}

/// `with` is shown by its word, which in tables that no text gives reaches behind the source; there is no such text then.
#[test]
fn a_span_behind_the_source() {
    let nodes = [0, 0, 0, 0, 3, 0, 0, 0, 0, 0, 13, 0, 3, 0, 3, 0, 0, 0, 0, 0, 22, 1, 3, 0, 3, 0, 0, 0, 0, 0];
    let rule = Rule { nodes: &nodes, source: b"wit", ..TWO };
    let found = findings(&rule).unwrap();
    assert_eq!((found[0].first, rule.part(found[0].first), rule.text(1)), ((0, 4), "", "wit"));
    assert_eq!(findings(&TWO).unwrap().iter().map(|f| TWO.part(f.first)).collect::<Vec<_>>(), ["with", "with"]);
    assert_eq!((TWO.part((2, 1)), TWO.part((u32::MAX, u32::MAX)), TWO.text(5)), ("", "", ""));
}

#[test]
fn slices_of_every_length() {
    let found = findings(&TWO).unwrap();
    assert_eq!(found.iter().map(|f| (f.code.number(), f.node)).collect::<Vec<_>>(), [(17, 1), (17, 3)]);
    for length in 0..20 {
        let mut out = vec![77; length];
        let answer = check(&TWO, &mut out);
        if length < 2 * FINDING {
            assert_eq!(answer, Err(refusal(10, 0, Some(14))));
            assert!(out.iter().all(|&n| n == 77));
        } else {
            assert_eq!(answer, Ok(2));
            assert_eq!((out[0], out[7]), (17, 17));
            assert!(out[14..].iter().all(|&n| n == 77));
        }
    }
}

#[test]
fn refusals() {
    let refused = |rule: Rule| {
        let mut out = [77; 7];
        let refusal = check(&rule, &mut out).unwrap_err();
        assert_eq!(out, [77; 7]);
        assert_eq!(refusal.needed, None);
        (refusal.number(), refusal.place)
    };
    assert_eq!(refused(Rule { nodes: &[], ..EMPTY }), (1, 0));
    assert_eq!(refused(Rule { nodes: &[0; 9], ..EMPTY }), (1, 0));
    assert_eq!(refused(Rule { source_type: 3, ..EMPTY }), (1, 0));
    assert_eq!(refused(Rule { nodes: &[56, 0, 0, 0, 0, 0, 0, 0, 0, 0], ..EMPTY }), (2, 0));
    assert_eq!(refused(Rule { nodes: &[5, 0, 0, 0, 0, 0, 0, 0, 0, 0], ..EMPTY }), (3, 0));
    assert_eq!(refused(Rule { nodes: &[0, 0, 0, 0, 1, 0, 0, 0, 0, 0], ..EMPTY }), (4, 0));
    assert_eq!(refused(Rule { scopes: &[1, 2, 0], ..EMPTY }), (5, 0));
    // Two Whiles without a statement, then a Block that isn't held: the Block, though the Whiles are lower; without it the first While.
    let node = |kind, role| [kind, 0, role, 0, 0, 0, 0, 0, 0, 0];
    let nodes = [node(0, 0), node(10, 3), node(10, 3), node(5, 0)].concat();
    assert_eq!(refused(Rule { nodes: &nodes, ..EMPTY }), (13, 3));
    assert_eq!(refused(Rule { nodes: &nodes[..30], ..EMPTY }), (14, 1));
    let text = findings(&Rule { nodes: &[], ..EMPTY }).unwrap_err().to_string();
    assert!(text.starts_with("refusal 1 at 0: "));
}

#[test]
fn routes() {
    let of = |answers: &[u32]| route_of(&ROUTED, 0, answers).map(|r| (r.nodes, r.end, r.taken)).unwrap();
    assert_eq!(of(&[1, 0, 0]), (vec![3, 6, 10, 3], End::FellThrough, 3));
    assert_eq!(of(&[1, 5, 0]), (vec![3, 6, 12, 3], End::FellThrough, 3));
    assert_eq!(of(&[1]), (vec![3], End::AnswersSpent, 1));
    assert_eq!(of(&[]), (vec![], End::AnswersSpent, 0));
}

/// The numbers that docs/CODE.md explains.
#[test]
fn flat_code() {
    let made = code_of(&ROUTED, 0).unwrap();
    let expected = [
        2, 3, 0, 3, 3, 10, 7, 2, 34, 0, // while
        2, 13, 0, // its block
        4, 6, 20, 17, 2, 29, 0, // switch
        7, 0, 24, 0, // case
        1, 10, 2, 3, 0, // continue
        1, 12, 2, 3, 0, // x
        6, 0, 6, 1, 6, 2, 6, 5, // the ends
    ];
    assert_eq!(made, expected);
}

/// A call with an empty slice tells how long the code is; one entry less is refused, more stays as it was.
#[test]
fn code_slices_of_every_length() {
    let made = code_of(&ROUTED, 0).unwrap();
    assert!(made.len() <= CODE * ROUTED.node_count());
    assert_eq!(code(&ROUTED, 0, &mut []), Err(refusal(11, 0, Some(made.len() as u64))));
    for room in [made.len() - 1, made.len(), made.len() + 3] {
        let mut out = vec![77; room];
        let answer = code(&ROUTED, 0, &mut out);
        if room < made.len() {
            assert_eq!(answer, Err(refusal(11, 0, Some(made.len() as u64))));
            assert!(out.iter().all(|&n| n == 77));
        } else {
            assert_eq!(answer, Ok(made.len()));
            assert_eq!(out[..made.len()], made);
            assert!(out[made.len()..].iter().all(|&n| n == 77));
        }
    }
}

#[test]
fn route_slices_of_every_length() {
    let mut expected = code_of(&ROUTED, 0).unwrap();
    expected.extend([77, 77]);
    for room in 0..7 {
        let (mut made, mut out) = (vec![77; expected.len()], vec![77; room]);
        let answer = route(&ROUTED, 0, &[1, 0, 0], &mut made, &mut out);
        assert_eq!(made, expected);
        if room < 4 {
            assert_eq!(answer, Err(refusal(12, 0, Some(4))));
            assert!(out.iter().all(|&n| n == 77));
        } else {
            assert_eq!(answer, Ok(Shown { entries: 4, end: End::FellThrough, taken: 3 }));
            assert_eq!(out[..4], [3, 6, 10, 3]);
            assert!(out[4..].iter().all(|&n| n == 77));
        }
    }
}

/// `try { throw a; } catch { x; } finally { y; }`: neither the try nor the catch is listed.
#[test]
fn a_try() {
    let node = |kind, parent, role| [kind, parent, role, 0, 0, 0, 0, 0, 0, 0];
    let nodes = [
        node(0, 0, 0),
        node(16, 0, 3),
        node(5, 1, 3),
        node(21, 2, 3),
        node(17, 1, 4),
        node(5, 4, 3),
        node(22, 5, 3),
        node(5, 1, 5),
        node(22, 7, 3),
    ]
    .concat();
    let rule = Rule { nodes: &nodes, ..EMPTY };
    let route = route_of(&rule, 0, &[]).unwrap();
    assert_eq!((route.nodes, route.end, route.taken), (vec![3, 6, 8], End::FellThrough, 0));
}

/// `class { static { throw a; } }`: the block runs behind its class; with a return in it the rule is refused by every call.
#[test]
fn a_static_block() {
    let node = |kind, parent, role| [kind, parent, role, 0, 0, 0, 0, 0, 0, 0];
    let with =
        |statement| [node(0, 0, 0), node(26, 0, 3), node(27, 1, 0), node(3, 2, 0), node(statement, 3, 3)].concat();
    let route = route_of(&Rule { nodes: &with(21), ..EMPTY }, 0, &[]).unwrap();
    assert_eq!((route.nodes, route.end, route.taken), (vec![1, 4], End::Thrown, 0));
    let nodes = with(20);
    let rule = Rule { nodes: &nodes, ..EMPTY };
    assert_eq!(findings(&rule), refused(15, 4));
    assert_eq!(code_of(&rule, 0), refused(15, 4));
    assert_eq!(route_of(&rule, 3, &[]), refused(15, 4));
}

#[test]
fn refusals_of_units() {
    let refused = |rule: &Rule, unit: u32, room: usize| {
        let (mut made, mut out) = (vec![77; room], [77; 9]);
        let refusal = route(rule, unit, &[], &mut made, &mut out).unwrap_err();
        assert_eq!(code(rule, unit, &mut made), Err(refusal));
        assert!(made.iter().chain(&out).all(|&n| n == 77));
        (refusal.number(), refusal.place)
    };
    let room = code_of(&ROUTED, 0).unwrap().len();
    assert_eq!(refused(&ROUTED, 1, room), (7, 1));
    assert_eq!(refused(&ROUTED, 4_294_967_295, room), (7, 4_294_967_295));
    assert_eq!(refused(&TWO, 0, room), (9, 1));
    assert_eq!(refused(&ROUTED, 0, room - 1), (11, 0));
    assert_eq!(refused(&ROUTED, 0, 0), (11, 0));
    assert_eq!(refused(&Rule { nodes: &[], ..ROUTED }, 0, room), (1, 0));
}

/// Lists of one length that differ in one answer, a list and a longer one, and lists that have nothing in common.
#[test]
fn shared_beginnings() {
    let of = |first: &[u32], second: &[u32]| shared_of(&ROUTED, 0, first, second).unwrap();
    assert_eq!(of(&[1, 0, 0], &[1, 5, 0]), 2);
    assert_eq!(of(&[1, 0, 0], &[1, 0, 1]), 4);
    assert_eq!(of(&[1, 0, 0], &[1, 0, 0, 1]), 4);
    assert_eq!(of(&[1, 0, 1], &[1]), 1);
    assert_eq!(of(&[1, 7], &[7, 1]), 3);
    assert_eq!(of(&[0], &[]), 0);
    assert_eq!(of(&[], &[]), 0);
}

/// The code alone is written, and the refusals are the code call's.
#[test]
fn shared_with_slices_of_every_length() {
    let made = code_of(&ROUTED, 0).unwrap();
    for room in [0, made.len() - 1, made.len(), made.len() + 3] {
        let (mut alone, mut out) = (vec![77; room], vec![77; room]);
        let expected = code(&ROUTED, 0, &mut alone);
        assert_eq!(shared(&ROUTED, 0, &[1, 0, 0], &[1, 5, 0], &mut out), expected.map(|_| 2));
        assert_eq!(out, alone);
    }
    let mut out = vec![77; made.len()];
    for (rule, unit) in [(&ROUTED, 1), (&ROUTED, u32::MAX), (&TWO, 0), (&Rule { nodes: &[], ..ROUTED }, 0)] {
        let refusal = code(rule, unit, &mut out).unwrap_err();
        assert_eq!(shared(rule, unit, &[1], &[0], &mut out), Err(refusal));
    }
    assert!(out.iter().all(|&n| n == 77));
}

/// The second engine gives the route, with slices of every length, and never 11.
#[test]
fn walks() {
    for answers in [&[1, 0, 0][..], &[1, 5, 0], &[1], &[]] {
        assert_eq!(walk_of(&ROUTED, 0, answers), route_of(&ROUTED, 0, answers));
    }
    for room in 0..7 {
        let mut out = vec![77; room];
        let answer = walk(&ROUTED, 0, &[1, 0, 0], &mut out);
        if room < 4 {
            assert_eq!(answer, Err(refusal(12, 0, Some(4))));
            assert!(out.iter().all(|&n| n == 77));
        } else {
            assert_eq!(answer, Ok(Shown { entries: 4, end: End::FellThrough, taken: 3 }));
            assert_eq!(out[..4], [3, 6, 10, 3]);
            assert!(out[4..].iter().all(|&n| n == 77));
        }
    }
    assert_eq!(walk_of(&ROUTED, 1, &[]), refused(7, 1));
    assert_eq!(walk_of(&TWO, 0, &[]), refused(9, 1));
    assert_eq!(walk_of(&Rule { nodes: &[], ..ROUTED }, 0, &[]), refused(1, 0));
}

/// A label within a label, with jumps to both.
const NAMES: &[u8] = b"outerinner";
fn labelled() -> Vec<u32> {
    let node = |kind, parent, role, name: [u32; 2]| [kind, parent, role, 0, 0, 0, 0, 0, name[0], name[1]];
    [
        node(0, 0, 0, [0, 0]),
        node(6, 0, 3, [0, 0]),
        node(33, 1, 6, [0, 5]),
        node(6, 1, 3, [0, 0]),
        node(33, 3, 6, [5, 5]),
        node(18, 3, 3, [0, 0]),
        node(33, 5, 6, [0, 5]),
    ]
    .concat()
}

#[test]
fn renamed_labels() {
    let nodes = labelled();
    let rule = Rule { nodes: &nodes, names: NAMES, ..EMPTY };
    let once = renamed(&rule).unwrap();
    assert_eq!(once.names, b"aba");
    let starts: Vec<(u32, u32)> = once.nodes.chunks(10).map(|n| (n[8], n[9])).collect();
    assert_eq!(starts, [(0, 0), (0, 0), (0, 1), (1, 0), (1, 1), (2, 0), (2, 1)]);
    assert_eq!(renamed(&once.rule(&rule)), Ok(once.clone()));
    assert_eq!(route_of(&once.rule(&rule), 0, &[]), route_of(&rule, 0, &[]));
    // 19 at the first label of that name, 20 after it.
    let reserved = Rule { names: b"awaityield", ..rule };
    assert_eq!(renamed(&reserved), refused(19, 2));
    assert_eq!(rename(&reserved, &mut [], &mut []), Err(refusal(19, 2, None)));
}

#[test]
fn renamed_into_slices_of_every_length() {
    let table = labelled();
    let rule = Rule { nodes: &table, names: NAMES, ..EMPTY };
    let once = renamed(&rule).unwrap();
    for (node_room, name_room) in [(0, 9), (69, 9), (70, 2), (70, 3), (73, 7)] {
        let (mut nodes, mut names) = (vec![77; node_room], vec![b'-'; name_room]);
        let answer = rename(&rule, &mut nodes, &mut names);
        if node_room < 70 || name_room < 3 {
            assert_eq!(answer, Err(refusal(20, 0, Some(3))));
            assert!(nodes.iter().all(|&n| n == 77) && names.iter().all(|&b| b == b'-'));
        } else {
            assert_eq!(answer, Ok(3));
            assert_eq!((&nodes[..70], &names[..3]), (&once.nodes[..], &once.names[..]));
            assert!(nodes[70..].iter().all(|&n| n == 77) && names[3..].iter().all(|&b| b == b'-'));
        }
    }
}

/// Stopped behind each number of answers and taken up again, the lists joined are the route.
#[test]
fn stopped_and_taken_up() {
    let answers = [1, 5, 1, 0, 0];
    let whole = route_of(&ROUTED, 0, &answers).unwrap();
    for behind in 0..=answers.len() {
        let mut marks = Marks::new();
        let mut so_far = marks.route_stop_of(&ROUTED, 0, &answers, Stop { mark: 7, answers: behind as u64 }).unwrap();
        assert_eq!((so_far.end, so_far.taken), (End::Stopped, behind as u64));
        let rest = marks.route_resume_of(&ROUTED, 0, 7, &answers[behind..]).unwrap();
        so_far.nodes.extend(&rest.nodes);
        assert_eq!((so_far.nodes, rest.end, so_far.taken + rest.taken), (whole.nodes.clone(), whole.end, whole.taken));
    }
    // Ends before the named number: no mark is set.
    let mut marks = Marks::new();
    let early = marks.route_stop_of(&ROUTED, 0, &[0], Stop { mark: 0, answers: 2 }).unwrap();
    assert_eq!((early.end, &marks), (End::FellThrough, &Marks::new()));
    // Twice under one mark, which is read first.
    let begun = marks.route_stop_of(&ROUTED, 0, &answers, Stop { mark: 1, answers: 1 }).unwrap();
    let next = marks.route_resume_stop_of(&ROUTED, 0, 1, &answers[1..], Stop { mark: 1, answers: 2 }).unwrap();
    let last = marks.route_resume_of(&ROUTED, 0, 1, &answers[3..]).unwrap();
    assert_eq!([begun.nodes, next.nodes, last.nodes].concat(), whole.nodes);
}

/// What each refusal leaves: 16, 11, 17, 12 in this order.
#[test]
fn refusals_of_marks() {
    let made = code_of(&ROUTED, 0).unwrap();
    let mut marks = Marks::new();
    let stop = |mark| Stop { mark, answers: 0 };
    let length = made.len() as u64;
    assert_eq!(marks.route_stop_of(&ROUTED, 0, &[], stop(8)), refused(16, 8));
    assert_eq!(marks.route_resume_of(&ROUTED, 0, 7, &[]), refused(16, 7));
    assert_eq!(marks.route_resume_stop_of(&ROUTED, 0, 3, &[], stop(9)), refused(16, 3));
    assert_eq!(marks.route_stop_of(&ROUTED, 1, &[], stop(8)), refused(7, 1));
    // Pending ends and 1, then a place within an instruction.
    marks.numbers_mut()[3 * 1026..][..2].copy_from_slice(&[1, 1]);
    assert_eq!(marks.route_resume_stop_of(&ROUTED, 0, 3, &[], stop(9)), refused(16, 9));
    let before = marks.clone();
    let (mut short, mut code, mut route) = (vec![77; made.len() - 1], vec![77; made.len() + 1], [77; 9]);
    let slices = Slices { code: &mut short, route: &mut route };
    assert_eq!(marks.route_resume(&ROUTED, 0, 3, &[1], slices), Err(refusal(11, 0, Some(length))));
    assert!(short.iter().all(|&n| n == 77));
    let slices = Slices { code: &mut code, route: &mut [] };
    assert_eq!(marks.route_resume(&ROUTED, 0, 3, &[1], slices), Err(refusal(17, 3, None)));
    assert_eq!((&code[..made.len()], code[made.len()]), (&made[..], 77));
    let slices = Slices { code: &mut code, route: &mut [] };
    assert_eq!(marks.route_stop(&ROUTED, 0, &[1], Stop { mark: 0, answers: 1 }, slices), Err(refusal(12, 0, Some(1))));
    assert_eq!((marks, route), (before, [77; 9]));
}

/// The shorter code of ROUTED, by hand: the jumps at 10 (the block), 17 and 7 (behind the switch and the while), each to a LIST or an END, stay
/// as they are; what no path reaches, the ends 1, 2 and 5, goes.
#[test]
fn shorter_code() {
    let made = code_of(&ROUTED, 0).unwrap();
    let expected = [
        2, 3, 0, 3, 3, 10, 7, 2, 34, 0, // while
        2, 13, 0, // its block
        4, 6, 20, 17, 2, 29, 0, // switch
        7, 0, 24, 0, // case
        1, 10, 2, 3, 0, // continue
        1, 12, 2, 3, 0, // x
        6, 0, // the end that is reached
    ];
    let mut code = [&made[..], &[77, 77]].concat();
    let length = expected.len();
    assert_eq!(shorten(&mut code[..made.len()]), Ok(Shorter { length, freed: made.len() - length }));
    assert_eq!(code[..length], expected);
    assert_eq!((&code[length..made.len()], &code[made.len()..]), (&made[length..], &[77, 77][..]));
    // A second pass changes nothing.
    assert_eq!(shortened(code[..length].to_vec()), Ok(expected.to_vec()));
    for answers in [&[1, 0, 0][..], &[1, 5, 0], &[1], &[]] {
        let route = route_of(&ROUTED, 0, answers);
        assert_eq!((run_of(&made, answers), run_of(&expected, answers)), (route.clone(), route));
    }
}

/// A jump over two jumps to the last target, with the least depth on the way; a ring stays; what waits is no target.
#[test]
fn jumps_to_jumps() {
    let of = |code: &[u32]| shortened(code.to_vec()).unwrap();
    assert_eq!(of(&[2, 3, 5, 2, 6, 1, 2, 9, 3, 6, 1]), [2, 3, 1, 6, 1]);
    assert_eq!(of(&[2, 3, 0, 2, 6, 0, 2, 3, 0]), [2, 3, 0, 2, 6, 0, 2, 3, 0]);
    assert_eq!(of(&[5, 2, 2, 5, 0, 2, 0, 1]), [5, 2, 2, 0, 0]);
    // The jumps at 3, 6 and 9 go, through which those at 16, 23 and 26 lead back.
    let ways_back = [
        2, 12, 0, 2, 29, 1, 2, 31, 2, 2, 3, 0, // in front
        3, 5, 16, 19, 2, 9, 7, 3, 6, 23, 26, 2, 6, 1, 2, 3, 9, 1, 7, 6, 0,
    ];
    let shorter = [2, 3, 0, 3, 5, 7, 10, 2, 20, 0, 3, 6, 14, 17, 2, 22, 1, 2, 20, 1, 1, 7, 6, 0];
    assert_eq!(of(&ways_back), shorter);
}

/// 18 first, at its place, with the code and the route as they were; then 12.
#[test]
fn lent_codes() {
    let faults: [(&[u32], u64); 7] = [
        (&[], 0),
        (&[8], 0),
        (&[1, 5, 9], 2),
        (&[6, 0, 2, 1, 0], 2),
        (&[6, 0, 1, 4], 2),
        (&[6, 0, 3, 1, 0], 2),
        (&[2, 3, 0, 3, 1, 0], 0),
    ];
    for (numbers, place) in faults {
        let (mut code, mut out) = (numbers.to_vec(), [77; 3]);
        assert_eq!(shorten(&mut code), Err(refusal(18, place, None)));
        assert_eq!(run(&code, &[1], &mut out), Err(refusal(18, place, None)));
        assert_eq!((&code[..], out), (numbers, [77; 3]));
    }
    let (lists, mut out) = ([1, 4, 1, 5, 1, 6, 6, 2], [77; 4]);
    assert_eq!(run(&lists, &[], &mut out[..2]), Err(refusal(12, 0, Some(3))));
    assert_eq!(out, [77; 4]);
    assert_eq!(run(&lists, &[], &mut out), Ok(Shown { entries: 3, end: End::Thrown, taken: 0 }));
    assert_eq!(out, [4, 5, 6, 77]);
}

/// 5: in a ring, which is run until more instructions have passed than the code has numbers; for what waits where nothing does.
#[test]
fn no_other_end() {
    let ring = run_of(&[2, 3, 0, 1, 9, 2, 3, 0], &[]).unwrap();
    // Eight instructions: four times the jump to the entry, and the entry.
    assert_eq!((&ring.nodes[..], ring.end, ring.taken), (&[9; 4][..], End::NoOtherEnd, 0));
    assert_eq!(run_of(&[2, 0, 0], &[]).map(|r| r.end), Ok(End::NoOtherEnd));
}
