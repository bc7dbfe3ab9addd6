//! Requests of document 02, sentence by sentence, on small trees.

use plain::reader::OwnedTables;
use plain::{code_length, code_refusal, input_refusal, route, routes, Refusal, Tables};

/// Nodes "kind,parent,role,flags,extra,name", the end of it free; a Program comes first. One scope, which is sloppy.
fn tree(nodes: &[&str]) -> OwnedTables {
    let mut t = OwnedTables { scopes: vec![0, 2, 0], ..OwnedTables::default() };
    for text in ["0,0,0"].iter().chain(nodes) {
        let mut parts = text.splitn(6, ',');
        let numbers: Vec<u32> = parts.by_ref().take(5).map(|n| n.parse().expect("a number")).collect();
        let name = parts.next().unwrap_or("");
        let field = |i: usize| numbers.get(i).copied().unwrap_or(0);
        let start = t.names.len() as u32;
        t.nodes.extend([field(0), field(1), field(2), 0, 0, 0, field(3), field(4), start, name.len() as u32]);
        t.names.extend(name.bytes());
    }
    t
}

/// List, end and answers taken of the program.
fn shown(nodes: &[&str], answers: &[u32]) -> (Vec<u32>, u32, usize) {
    shown_of(nodes, 0, answers)
}

/// Of another unit. Findings, as of a class without a name, are left aside.
fn shown_of(nodes: &[&str], unit: usize, answers: &[u32]) -> (Vec<u32>, u32, usize) {
    let tables = tree(nodes);
    assert_eq!(input_refusal(&tables.lend()), None);
    let run = routes::run(&tables.lend(), unit, answers);
    (run.list, run.end, run.answers_taken)
}

fn refused(nodes: &[&str]) -> Option<(u32, usize)> {
    input_refusal(&tree(nodes).lend()).map(|r| (r.number, r.place))
}

#[test]
fn a_try_is_not_listed() {
    let falls = ["16,0,3", "5,1,3", "22,2,3", "17,1,4", "5,4,3", "22,5,3", "5,1,5", "22,7,3"];
    assert_eq!(shown(&falls, &[]), (vec![3, 8], 0, 0));
}

#[test]
fn a_throw_goes_to_the_nearest_catch() {
    // try { throw; x; } catch { y; } z;
    let caught = ["16,0,3", "5,1,3", "21,2,3", "22,2,3", "17,1,4", "5,5,3", "22,6,3", "22,0,3"];
    assert_eq!(shown(&caught, &[]), (vec![3, 7, 8], 0, 0));
    // try { try { throw; } finally { x; } } catch { y; }: past a try without a catch.
    let outer = ["16,0,3", "5,1,3", "16,2,3", "5,3,3", "21,4,3", "5,3,5", "22,6,3", "17,1,4", "5,8,3", "22,9,3"];
    assert_eq!(shown(&outer, &[]), (vec![5, 7, 10], 0, 0));
    // try { throw; } catch { throw; } finally { x; } y;: a throw in a catch, and one in a finally, go further out.
    let again = ["16,0,3", "5,1,3", "21,2,3", "17,1,4", "5,4,3", "21,5,3", "5,1,5", "22,7,3", "22,0,3"];
    assert_eq!(shown(&again, &[]), (vec![3, 6, 8], 2, 0));
    let last = ["16,0,3", "5,1,3", "17,1,4", "5,3,3", "22,4,3", "5,1,5", "21,6,3"];
    assert_eq!(shown(&last, &[]), (vec![7], 2, 0));
}

/// "A finally block runs on each way out, and if it ends by a jump, a return or a throw, that end replaces the earlier
/// one."
#[test]
fn a_finally_runs_on_each_way_out() {
    let of = |first: &str, last: &str| shown(&["16,0,3", "5,1,3", first, "5,1,5", last, "22,0,3"], &[]);
    assert_eq!(of("22,2,3", "22,4,3"), (vec![3, 5, 6], 0, 0));
    assert_eq!(of("20,2,3", "22,4,3"), (vec![3, 5], 1, 0));
    assert_eq!(of("21,2,3", "22,4,3"), (vec![3, 5], 2, 0));
    assert_eq!(of("20,2,3", "21,4,3"), (vec![3, 5], 2, 0));
    assert_eq!(of("21,2,3", "20,4,3"), (vec![3, 5], 1, 0));
    // while (t) { try { return; } finally { break; } }, then continue in its place.
    let looped =
        |jump: &str| ["10,0,3", "5,1,3", "16,2,3", "5,3,3", "20,4,3", "5,3,5", jump, "22,0,3"].map(String::from);
    let run = |jump: &str, answers: &[u32]| shown(&looped(jump).each_ref().map(String::as_str), answers);
    assert_eq!(run("18,6,3", &[1, 1]), (vec![1, 5, 7, 8], 0, 1));
    assert_eq!(run("19,6,3", &[1, 1]), (vec![1, 5, 7, 1, 5, 7], 3, 2));
    assert_eq!(run("19,6,3", &[1, 0]), (vec![1, 5, 7, 1, 8], 0, 2));
}

#[test]
fn spent_answers_run_no_finally() {
    // try { if (t) x; } finally { if (u) y; }
    let nodes = ["16,0,3", "5,1,3", "12,2,3", "22,3,3", "5,1,5", "12,5,3", "22,6,3"];
    assert_eq!(shown(&nodes, &[]), (vec![], 3, 0));
    assert_eq!(shown(&nodes, &[1]), (vec![3, 4], 3, 1));
    assert_eq!(shown(&nodes, &[1, 0]), (vec![3, 4, 6], 0, 2));
}

/// finally, then catch, then block: document 01 asks for no order.
#[test]
fn parts_in_any_order() {
    let nodes = ["16,0,3", "5,1,5", "22,2,3", "17,1,4", "5,4,3", "22,5,3", "5,1,3", "21,7,3"];
    assert_eq!(refused(&nodes), None);
    assert_eq!(shown(&nodes, &[]), (vec![8, 6, 3], 0, 0));
}

/// class C { static { x; } static { y; } } z;
const CLASS: [&str; 7] = ["26,0,3,32", "27,1,0", "3,2,0", "22,3,3", "3,2,0", "22,5,3", "22,0,3"];

#[test]
fn static_blocks_run_behind_their_class() {
    assert_eq!(shown(&CLASS, &[]), (vec![1, 4, 6, 7], 0, 0));
    assert_eq!(shown_of(&CLASS, 3, &[]), (vec![4], 0, 0));
    // Listed with role 3, whatever flag 32 says.
    assert_eq!(shown(&[&["26,0,3"], &CLASS[1..]].concat(), &[]), (vec![1, 4, 6, 7], 0, 0));
    // A method's body is another unit, a class in an expression is not entered.
    let method = ["26,0,3,32", "27,1,0", "28,2,0", "55,3,2", "1,3,1", "4,5,3", "22,6,3", "3,2,0", "22,8,3"];
    assert_eq!(shown(&method, &[]), (vec![1, 9], 0, 0));
    assert_eq!(shown(&["22,0,3", "26,1,0,32", "27,2,0", "3,3,0", "22,4,3"], &[]), (vec![1], 0, 0));
    // A class in a static block is entered in its turn.
    let nested = ["26,0,3", "27,1,0", "3,2,0", "26,3,3", "27,4,0", "3,5,0", "22,6,3", "22,3,3"];
    assert_eq!(shown(&nested, &[]), (vec![1, 4, 7, 8], 0, 0));
}

#[test]
fn a_throw_leaves_the_class() {
    // try { class C { static { throw; } static { x; } } y; } catch { z; }
    let nodes = [
        "16,0,3", "5,1,3", "26,2,3", "27,3,0", "3,4,0", "21,5,3", "3,4,0", "22,7,3", "22,2,3", "17,1,4", "5,10,3",
        "22,11,3",
    ];
    assert_eq!(shown(&nodes, &[]), (vec![3, 6, 12], 0, 0));
    // Without the try the unit ends.
    assert_eq!(shown(&["26,0,3", "27,1,0", "3,2,0", "21,3,3", "22,0,3"], &[]), (vec![1, 4], 2, 0));
    // A try in the block is the unit's own.
    let inside = ["26,0,3", "27,1,0", "3,2,0", "16,3,3", "5,4,3", "21,5,3", "17,4,4", "5,7,3", "22,8,3"];
    assert_eq!(shown(&inside, &[]), (vec![1, 6, 9], 0, 0));
}

#[test]
fn a_class_that_an_export_declares() {
    let of = |flags: u32, role: u32| {
        let class = format!("26,1,0,{flags}");
        shown(&[&format!("54,0,{role}"), &class, "27,2,0", "3,3,0", "22,4,3"], &[])
    };
    // Entered after the export, and not listed itself.
    assert_eq!(of(32, 3), (vec![1, 5], 0, 0));
    assert_eq!(of(0, 3), (vec![1], 0, 0));
    // An export that isn't held is not listed.
    assert_eq!(of(32, 0), (vec![], 0, 0));
    // Several: all in node order.
    let two = ["53,0,3", "26,1,0,32", "27,2,0", "3,3,0", "22,4,3", "26,1,1,32", "27,6,0", "3,7,0", "22,8,3"];
    assert_eq!(shown(&two, &[]), (vec![1, 5, 9], 0, 0));
}

#[test]
fn refusal_15() {
    assert_eq!(refused(&["26,0,3", "27,1,0", "3,2,0", "5,3,3", "20,4,3"]), Some((15, 5)));
    // Entered or not, and the lowest.
    assert_eq!(refused(&["22,0,3", "26,1,0", "27,2,0", "3,3,0", "20,4,3", "20,4,3"]), Some((15, 5)));
    // A function's return, in a static block or around it, is none.
    assert_eq!(refused(&["26,0,3", "27,1,0", "3,2,0", "1,3,3", "4,4,3", "20,5,3"]), None);
    assert_eq!(refused(&["1,0,3", "4,1,3", "26,2,3", "27,3,0", "3,4,0", "20,2,3"]), None);
    // After 14 and 6.
    assert_eq!(refused(&["26,0,3", "27,1,0", "3,2,0", "20,3,3", "10,0,3"]), Some((14, 5)));
    assert_eq!(refused(&["26,0,3", "27,1,0", "3,2,0", "20,3,3", "22,3,3", "37,5,0"]), Some((6, 6)));
}

#[test]
fn eight_is_no_longer_given() {
    let tables = tree(&["16,0,3", "5,1,3", "5,1,5"]);
    assert_eq!(code_refusal(&tables.lend(), 0, 100), Ok(8 + 3 + 5));
}

/// The length of the program's code.
fn length(nodes: &[&str]) -> usize {
    code_length(&tree(nodes).lend(), 0)
}

#[test]
fn exact_lengths() {
    assert_eq!(length(&[]), 8);
    for (kind, number) in [(18, 5), (19, 5), (20, 5), (21, 5), (22, 5), (1, 5), (24, 5), (53, 5), (54, 5), (14, 7)] {
        assert_eq!(length(&[&format!("{kind},0,3")]), 8 + number, "kind {kind}");
    }
    for (kind, number) in [(6, 0), (7, 10), (8, 10), (9, 10), (10, 10), (11, 10), (12, 7), (13, 2)] {
        assert_eq!(length(&[&format!("{kind},0,3"), "22,1,3"]), 8 + number + 5, "kind {kind}");
    }
    assert_eq!(length(&["14,0,3", "15,1,3", "22,2,3"]), 8 + 7 + 4 + 5);
    assert_eq!(length(&["12,0,3", "5,1,3", "1,1,4"]), 8 + 7 + 3 + 5);
    assert_eq!(length(&["16,0,3", "5,1,3", "17,1,4", "5,3,3", "5,1,5"]), 8 + 3 + 3 + 5);
    // Not a statement.
    assert_eq!(length(&["1,0,0", "22,0,3", "24,2,3", "26,2,0", "27,4,0"]), 8 + 5);
    assert_eq!(length(&CLASS), 8 + 5 + 3 + 5 + 3 + 5 + 5);
    assert_eq!(code_length(&tree(&CLASS).lend(), 3), 8 + 5);
    assert_eq!(length(&["54,0,3", "26,1,0,32", "27,2,0", "3,3,0"]), 8 + 5 + 3);
    assert_eq!(length(&["54,0,3", "26,1,0", "27,2,0", "3,3,0"]), 8 + 5);
    assert_eq!(length(&["1,0,3", "4,1,3", "22,2,3"]), 8 + 5);
    // `a: while(t){ switch(s){ case c: continue a; } x; }`, the 42 numbers of docs/CODE.md.
    let nodes = ["6,0,3", "33,1,6", "10,1,3", "5,3,3", "14,4,3", "15,5,3", "19,6,3", "33,7,6", "22,4,3"];
    assert_eq!(length(&nodes), 42);
}

#[test]
fn eleven_gives_the_sum() {
    let tables = tree(&["22,0,3"]);
    let t: Tables = tables.lend();
    for room in [0, 12] {
        assert_eq!(code_refusal(&t, 0, room), Err(Refusal { number: 11, place: 0, needed: Some(13) }));
        assert_eq!(route(&t, 0, &[], room, &mut []), Err(Refusal { number: 11, place: 0, needed: Some(13) }));
    }
    assert_eq!(code_refusal(&t, 0, 13), Ok(13));
    assert_eq!(route(&t, 0, &[], 13, &mut []), Err(Refusal { number: 12, place: 0, needed: Some(1) }));
    assert_eq!(routes::run(&t, 0, &[]).list, [1]);
}
