//! The calls that document 02 adds, sentence by sentence: the second engine (6), marks (7), shorter code and its run (10),
//! one answer changed (11), labels renamed (12).

use plain::marks::{route_resume, route_resume_stop, route_stop, Code, MARKS};
use plain::reader::OwnedTables;
use plain::{rename, route, run, shared, shorten, walk, Refusal, Route};

/// Nodes "kind,parent,role,name", the name free; a Program comes first. One scope, which is sloppy.
fn tree(nodes: &[&str]) -> OwnedTables {
    let mut t = OwnedTables { scopes: vec![0, 2, 0], ..OwnedTables::default() };
    for text in ["0,0,0"].iter().chain(nodes) {
        let mut parts = text.splitn(4, ',');
        let numbers: Vec<u32> = parts.by_ref().take(3).map(|n| n.parse().expect("a number")).collect();
        let name = parts.next().unwrap_or("");
        let start = t.names.len() as u32;
        t.nodes.extend([numbers[0], numbers[1], numbers[2], 0, 0, 0, 0, 0, start, name.len() as u32]);
        t.names.extend(name.bytes());
    }
    t
}

/// `a: while(t){ switch(s){ case c: continue a; } x; }`, with its code as docs/CODE.md has it.
const LOOP: [&str; 9] = ["6,0,3", "33,1,6,a", "10,1,3", "5,3,3", "14,4,3", "15,5,3", "19,6,3", "33,7,6,a", "22,4,3"];
const LOOP_CODE: [u32; 42] = [
    2, 3, 0, 3, 3, 10, 7, 2, 34, 0, 2, 13, 0, 4, 5, 20, 17, 2, 29, 0, 7, 0, 24, 0, 1, 7, 2, 3, 0, 1, 9, 2, 3, 0, 6, 0,
    6, 1, 6, 2, 6, 5,
];

/// `try { return; } finally { if (t) x; }`.
const WAITS: [&str; 6] = ["16,0,3", "5,1,3", "20,2,3", "5,1,5", "12,4,3", "22,5,3"];
const WAITS_CODE: [u32; 33] = [
    5, 10, 2, 5, 1, 1, 3, 2, 27, 0, // the try's Block, with the return
    2, 13, 1, 3, 5, 20, 17, 2, 0, 1, 1, 6, 2, 0, 1, // the finally
    6, 0, 6, 1, 6, 2, 6, 5,
];

const fn refusal(number: u32, place: usize, needed: Option<u64>) -> Refusal {
    Refusal { number, place, needed }
}

const fn shown(entries: usize, end: u32, answers_taken: usize) -> Route {
    Route { entries, end, answers_taken }
}

#[test]
fn the_second_engine_needs_no_code() {
    let tables = tree(&LOOP);
    let t = tables.lend();
    let mut out = [0; 4];
    assert_eq!(walk(&t, 0, &[1, 0, 0], &mut out), Ok(shown(4, 0, 3)));
    assert_eq!(out, [3, 5, 7, 3]);
    assert_eq!(route(&t, 0, &[1, 0, 0], 0, &mut out), Err(refusal(11, 0, Some(42))));
    assert_eq!(walk(&t, 0, &[1, 0, 0], &mut out[..3]), Err(refusal(12, 0, Some(4))));
    assert_eq!(walk(&t, 1, &[], &mut []), Err(refusal(7, 1, None)));
}

#[test]
fn stopped_and_taken_up() {
    let tables = tree(&LOOP);
    let (at, code) = ((&tables.lend(), 0), Code { made: &LOOP_CODE, room: 42 });
    let mut marks = [7; MARKS];
    let mut out = [77; 9];
    // Right after the entry that takes the second answer, with end 4.
    assert_eq!(route_stop(at, &[1, 0, 0], (2, 2), &mut marks, code, &mut out), Ok(shown(2, 4, 2)));
    assert_eq!(out, [3, 5, 77, 77, 77, 77, 77, 77, 77]);
    assert_eq!(marks[2 * 1026..][..3], [1, 20, 7]);
    assert!(marks[..2 * 1026].iter().chain(&marks[2 * 1026 + 2..]).all(|&n| n == 7));
    // From there on, with further answers; nothing is set.
    let before = marks;
    assert_eq!(route_resume(at, 2, &[1, 5], &mut marks, code, &mut out), Ok(shown(4, 3, 2)));
    assert_eq!(out[..4], [7, 3, 5, 9]);
    assert_eq!(marks, before);
    // Stopped again under the same mark, which is read first.
    assert_eq!(route_resume_stop(at, 2, &[0], (2, 1), &mut marks, code, &mut out), Ok(shown(2, 4, 1)));
    assert_eq!(marks[2 * 1026..][..3], [1, 7, 7]);
    assert_eq!(route_resume(at, 2, &[], &mut marks, code, &mut []), Ok(shown(0, 0, 0)));
}

#[test]
fn stopped_at_its_start_or_not_at_all() {
    let tables = tree(&LOOP);
    let (at, code) = ((&tables.lend(), 0), Code { made: &LOOP_CODE, room: 42 });
    let mut marks = [0; MARKS];
    // "A route that ends before the named number sets no mark, nor does a refusal."
    assert_eq!(route_stop(at, &[1], (0, 2), &mut marks, code, &mut [0; 9]), Ok(shown(1, 3, 1)));
    assert_eq!(route_stop(at, &[1], (0, 1), &mut marks, code, &mut []), Err(refusal(12, 0, Some(1))));
    assert_eq!(marks, [0; MARKS]);
    assert_eq!(route_stop(at, &[1], (7, 0), &mut marks, code, &mut []), Ok(shown(0, 4, 0)));
    assert_eq!(marks[7 * 1026..][..2], [1, 0]);
}

#[test]
fn pending_ends_in_a_mark() {
    let tables = tree(&WAITS);
    let (at, code) = ((&tables.lend(), 0), Code { made: &WAITS_CODE, room: 33 });
    let (mut marks, mut out) = ([0; MARKS], [0; 9]);
    assert_eq!(route_stop(at, &[1], (1, 1), &mut marks, code, &mut out), Ok(shown(2, 4, 1)));
    assert_eq!(out[..2], [3, 5]);
    // The return waits: to the end at 27, where none is pending.
    assert_eq!(marks[1026..][..4], [2, 20, 27, 1]);
    assert_eq!(route_resume(at, 1, &[], &mut marks, code, &mut out), Ok(shown(1, 1, 0)));
    // Any numbers in it end without harm: an end too few, then a finally that stands nowhere.
    marks[1026] = 1;
    assert_eq!(route_resume(at, 1, &[], &mut marks, code, &mut out), Ok(shown(1, 5, 0)));
    marks[1026..][..4].copy_from_slice(&[2, 2, 4_000_000_000, 0]);
    assert_eq!(route_resume(at, 1, &[], &mut marks, code, &mut out), Ok(shown(1, 5, 0)));
}

#[test]
fn refusals_16_and_17() {
    let tables = tree(&LOOP);
    let at = (&tables.lend(), 0);
    let short = Code { made: &LOOP_CODE, room: 41 };
    let code = Code { made: &LOOP_CODE, room: 42 };
    let mut marks = [0; MARKS];
    // 16 before 11, the one taken up first; 7 and 9 before it.
    assert_eq!(route_stop(at, &[], (8, 0), &mut marks, short, &mut []), Err(refusal(16, 8, None)));
    assert_eq!(route_stop((at.0, 1), &[], (8, 0), &mut marks, short, &mut []), Err(refusal(7, 1, None)));
    assert_eq!(route_resume(at, 3, &[], &mut marks, short, &mut []), Err(refusal(16, 3, None)));
    assert_eq!(route_resume_stop(at, 3, &[], (9, 0), &mut marks, short, &mut []), Err(refusal(16, 3, None)));
    marks[3 * 1026] = 514;
    assert_eq!(route_resume(at, 3, &[], &mut marks, code, &mut []), Err(refusal(16, 3, None)));
    marks[3 * 1026] = 513;
    assert_eq!(route_resume_stop(at, 3, &[], (9, 0), &mut marks, short, &mut []), Err(refusal(16, 9, None)));
    assert_eq!(route_resume(at, 3, &[], &mut marks, short, &mut []), Err(refusal(11, 0, Some(42))));
    // 17 after 11 and before 12.
    for (place, begins) in [(0, true), (1, false), (3, true), (41, false), (42, false), (u32::MAX, false)] {
        marks[3 * 1026..][..2].copy_from_slice(&[1, place]);
        let answer = route_resume(at, 3, &[1], &mut marks, code, &mut []);
        assert_eq!(answer == Err(refusal(17, 3, None)), !begins, "place {place}");
        assert_eq!(answer == Err(refusal(12, 0, Some(1))), begins, "place {place}");
    }
}

#[test]
fn refusal_18() {
    let faults: [(&[u32], Option<usize>); 12] = [
        (&[], Some(0)),
        (&[6, 0], None),
        (&[6, 9], None),
        (&[6], Some(0)),
        (&[0], Some(0)),
        (&[8, 0], Some(0)),
        (&[1, 5, 9], Some(2)),
        (&[1, 5], Some(0)),
        (&[6, 0, 5, 0], Some(2)),
        (&[2, 1, 0], Some(0)),
        (&[2, 3, 0, 9], Some(0)),
        (&[3, 5, 4, 4, 2, 0, 0], None),
    ];
    for (code, place) in faults {
        let mut out = code.to_vec();
        assert_eq!(shorten(&mut out).err(), place.map(|p| refusal(18, p, None)), "{code:?}");
        assert_eq!(run(code, &[], &mut [0; 9]).err(), place.map(|p| refusal(18, p, None)), "{code:?}");
        if place.is_some() {
            assert_eq!(out, code);
        }
    }
}

/// The shorter code.
fn shorter(code: &[u32]) -> Vec<u32> {
    let mut out = code.to_vec();
    let length = shorten(&mut out).expect("no fault");
    assert_eq!(out[length..], code[length..]);
    out.truncate(length);
    out
}

#[test]
fn shorter_code() {
    // A jump to a jump, then nothing comes to the second.
    assert_eq!(shorter(&[2, 3, 0, 2, 6, 0, 1, 7, 6, 0]), [2, 3, 0, 1, 7, 6, 0]);
    // With the least depth on the way.
    assert_eq!(shorter(&[2, 3, 2, 2, 6, 1, 6, 0]), [2, 3, 1, 6, 0]);
    assert_eq!(shorter(&[2, 3, 1, 2, 6, 2, 6, 0]), [2, 3, 1, 6, 0]);
    // What waits is no target; a branch and the link of a case are not sent on.
    assert_eq!(shorter(&[2, 3, 1, 2, 0, 1]), [2, 0, 1]);
    assert_eq!(shorter(&[3, 9, 4, 4, 2, 7, 0, 6, 0]), [3, 9, 4, 4, 2, 7, 0, 6, 0]);
    assert_eq!(shorter(&[4, 9, 4, 8, 7, 8, 12, 0, 7, 0, 12, 0, 6, 0]), [4, 9, 4, 8, 7, 8, 12, 0, 7, 0, 12, 0, 6, 0]);
    // The jumps at 3, 6 and 9 go, through which those at 16, 23 and 26 lead back.
    let ways_back = [
        2, 12, 0, 2, 29, 1, 2, 31, 2, 2, 3, 0, // in front
        3, 5, 16, 19, 2, 9, 7, 3, 6, 23, 26, 2, 6, 1, 2, 3, 9, 1, 7, 6, 0,
    ];
    let closed_up = [2, 3, 0, 3, 5, 7, 10, 2, 20, 0, 3, 6, 14, 17, 2, 22, 1, 2, 20, 1, 1, 7, 6, 0];
    assert_eq!(shorter(&ways_back), closed_up);
    // "Reached jumps that form or lead into a ring stay."
    assert_eq!(shorter(&[2, 3, 0, 2, 6, 0, 2, 3, 0]), [2, 3, 0, 2, 6, 0, 2, 3, 0]);
    // Of the loop's code the three ends go that no path reaches.
    let made = shorter(&LOOP_CODE);
    assert_eq!(made.len(), LOOP_CODE.len() - 6);
    assert_eq!(shorter(&made), made);
    for answers in [&[][..], &[1], &[1, 0, 0], &[1, 5, 0], &[1, 0, 1, 7, 0]] {
        let (mut old, mut new) = ([0; 20], [0; 20]);
        assert_eq!(run(&LOOP_CODE, answers, &mut old), run(&made, answers, &mut new));
        assert_eq!(old, new);
    }
}

#[test]
fn a_lent_code_slice() {
    assert_eq!(run(&[1, 7, 6, 2], &[], &mut [0]), Ok(shown(1, 2, 0)));
    assert_eq!(run(&[1, 7, 6, 2], &[], &mut []), Err(refusal(12, 0, Some(1))));
    assert_eq!(run(&[6, 3], &[], &mut []), Ok(shown(0, 5, 0)));
    // "More instructions pass without an answer than the slice has numbers": a ring of two.
    assert_eq!(run(&[2, 3, 0, 1, 9, 2, 3, 0], &[], &mut [0; 9]), Ok(shown(4, 5, 0)));
    // "Pending ends run below none."
    assert_eq!(run(&[2, 0, 0], &[], &mut []), Ok(shown(0, 5, 0)));
    // ".. or above 512": each turn opens one more.
    let opens = [2, 3, 0, 5, 3, 3, 9, 3, 3];
    let with = |answers: usize| run(&opens, &vec![1; answers], &mut [0; 600]);
    assert_eq!(with(511), Ok(shown(511, 3, 511)));
    assert_eq!(with(512), Ok(shown(512, 5, 512)));
}

#[test]
fn the_longest_shared_beginning() {
    let tables = tree(&LOOP);
    let t = tables.lend();
    assert_eq!(shared(&t, 0, &[1, 0, 0], &[1, 5, 0], 42), Ok(2));
    assert_eq!(shared(&t, 0, &[1, 0, 0], &[1, 0, 0, 4], 42), Ok(4));
    assert_eq!(shared(&t, 0, &[1, 0, 0], &[2, 0, 0], 42), Ok(4));
    assert_eq!(shared(&t, 0, &[], &[1], 42), Ok(0));
    assert_eq!(shared(&t, 0, &[], &[1], 41), Err(refusal(11, 0, Some(42))));
}

/// Names written, and each node's start and length.
fn renamed(tables: &OwnedTables) -> (Vec<u8>, Vec<(u32, u32)>) {
    let (mut nodes, mut names) = (vec![0; tables.nodes.len()], vec![0; 9999]);
    let length = rename(&tables.lend(), &mut nodes, &mut names).expect("renamed");
    names.truncate(length);
    let again = OwnedTables { nodes: nodes.clone(), names: names.clone(), ..tables.clone() };
    let (mut other_nodes, mut other_names) = (nodes.clone(), names.clone());
    assert_eq!(rename(&again.lend(), &mut other_nodes, &mut other_names), Ok(length));
    assert_eq!((&other_nodes, &other_names), (&nodes, &names));
    for (old, new) in tables.nodes.chunks(10).zip(nodes.chunks(10)) {
        assert_eq!(old[..8], new[..8]);
    }
    (names, nodes.chunks(10).map(|r| (r[8], r[9])).collect())
}

#[test]
fn labels_by_first_appearance() {
    let nodes =
        ["6,0,3", "33,1,6,long", "10,1,3", "32,3,1,test", "18,3,3", "33,5,6,long", "6,0,3", "33,7,6,a", "22,7,3"];
    let (names, places) = renamed(&tree(&nodes));
    assert_eq!(names, b"atestab");
    assert_eq!(places, [(0, 0), (0, 0), (0, 1), (1, 0), (1, 4), (5, 0), (5, 1), (6, 0), (6, 1), (7, 0)]);
    // A nameless label stays so, and is not counted; kind 33 with another role is no label.
    let (names, _) = renamed(&tree(&["6,0,3", "33,1,6", "6,1,3", "33,3,6,b", "22,3,3", "33,5,0,b"]));
    assert_eq!(names, b"ab");
}

/// So many labels of different names, each on a statement of its own.
fn labels(count: usize) -> OwnedTables {
    let nodes: Vec<String> = (0..count)
        .flat_map(|i| [String::from("6,0,3"), format!("33,{},6,label{i}", 3 * i + 1), format!("22,{},3", 3 * i + 1)])
        .collect();
    tree(&nodes.iter().map(String::as_str).collect::<Vec<_>>())
}

#[test]
fn short_names_without_do_if_and_in() {
    let (names, places) = renamed(&labels(699));
    let name = |i: usize| {
        let (start, length) = places[3 * i + 2];
        String::from_utf8(names[start as usize..][..length as usize].to_vec()).unwrap()
    };
    assert_eq!([name(0), name(25), name(26), name(27), name(698)], ["a", "z", "aa", "ab", "zz"]);
    let all: Vec<String> = (0..699).map(name).collect();
    assert!(!all.iter().any(|n| ["do", "if", "in"].contains(&n.as_str())));
    assert!(all[26..].windows(2).all(|pair| pair[0] < pair[1]));
}

#[test]
fn refusals_19_and_20() {
    let of = |tables: &OwnedTables, nodes: usize, names: usize| {
        let (mut out, mut bytes) = (vec![7; nodes], vec![7; names]);
        let answer = rename(&tables.lend(), &mut out, &mut bytes);
        assert!(answer.is_ok() || (out.iter().all(|&n| n == 7) && bytes.iter().all(|&b| b == 7)));
        answer
    };
    // The 700th different label, before 20.
    assert_eq!(of(&labels(700), 0, 0), Err(refusal(19, 3 * 699 + 2, None)));
    for word in
        ["await", "implements", "interface", "let", "package", "private", "protected", "public", "static", "yield"]
    {
        let label = format!("33,1,6,{word}");
        assert_eq!(of(&tree(&["6,0,3", &label, "22,1,3"]), 99, 99), Err(refusal(19, 2, None)), "{word}");
    }
    let small = tree(&["6,0,3", "33,1,6,arguments", "22,1,3", "32,3,1,eval"]);
    assert_eq!(of(&small, 50, 5), Ok(5));
    assert_eq!(of(&small, 49, 5), Err(refusal(20, 0, Some(5))));
    assert_eq!(of(&small, 50, 4), Err(refusal(20, 0, Some(5))));
    // Names that lie across one another: their sum counts.
    let mut long = tree(&["22,0,3", "32,1,1,x", "32,1,1,x"]);
    long.names = vec![b'x'; 1 << 20];
    for n in 2..4 {
        long.nodes[10 * n + 8..][..2].copy_from_slice(&[0, 1 << 20]);
    }
    assert_eq!(of(&long, 40, 3 << 20), Err(refusal(20, 0, Some(2 << 20))));
    // After the refusals of the input; findings don't stop it.
    assert_eq!(of(&tree(&["6,0,3", "33,1,6,let"]), 0, 0), Err(refusal(14, 1, None)));
    assert_eq!(of(&tree(&["18,0,3", "33,1,6,q"]), 30, 1), Ok(1));
}
