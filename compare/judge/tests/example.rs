use judge::{Verdict, judge};

/// Document 01's example, `a: { continue a; }`.
#[test]
fn the_example() {
    let nodes = [
        [0, 0, 0, 0, 18, 0, 0, 0, 0, 0],
        [6, 0, 3, 0, 18, 0, 0, 0, 0, 0],
        [33, 1, 6, 0, 1, 0, 0, 0, 0, 1],
        [5, 1, 3, 3, 18, 0, 0, 0, 0, 0],
        [19, 3, 3, 5, 16, 1, 0, 0, 0, 0],
        [33, 4, 6, 14, 15, 1, 0, 0, 0, 1],
    ];
    let verdict = judge(0, &nodes.concat(), &[0, 2, 0, 0, 0, 3], b"a: { continue a; }", b"a");
    assert_eq!(verdict, Verdict::Findings(vec![[22, 4, 0, 1, 14, 15, 0]]));
}

/// A function scope whose node is the Program: the crate's text ends in a failed `unwrap`.
#[test]
fn a_stuck_walk() {
    let nodes = [[0, 0, 0, 0, 0, 0, 0, 0, 0, 0], [22, 0, 3, 0, 0, 0, 0, 0, 0, 0], [37, 1, 0, 0, 0, 0, 0, 0, 0, 0]];
    assert_eq!(judge(0, &nodes.concat(), &[0, 4, 0], b"", b""), Verdict::Stuck(2));
}
