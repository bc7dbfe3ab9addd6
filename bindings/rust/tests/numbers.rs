//! The enums of numbers, errors in words, and the limits.

use std::collections::HashSet;
use std::error::Error as _;
use std::thread;

use velkunshe::{
    check, code_of, renamed, route_of, route_within, shared_of, walk_of, walk_within, Code, Context, End, Error,
    Finding, Kind, Marks, Reason, Refusal, Role, Rule, SourceType, Stop, NODE, STACK,
};

/// Each number goes to its case and back, has words of its own, and what is not known stays a number.
macro_rules! there_and_back {
    ($($name:ident: $first:literal to $last:literal, without $missing:expr;)*) => {$(
        let numbers: Vec<u32> = $name::ALL.iter().map(|case| case.number()).collect();
        let listed: Vec<u32> = ($first..=$last).filter(|n| $missing != Some(*n)).collect();
        assert_eq!(numbers, listed, stringify!($name));
        assert!($name::ALL.iter().all(|&case| $name::from_number(case.number()) == case));
        let words: HashSet<String> = $name::ALL.iter().map(|case| case.to_string()).collect();
        assert_eq!(words.len(), $name::ALL.len(), stringify!($name));
        for unknown in [$last + 1, u32::MAX] {
            assert_eq!($name::from_number(unknown), $name::Unknown(unknown));
            assert_eq!($name::from_number(unknown).number(), unknown);
        }
    )*};
}

#[test]
fn there_and_back() {
    there_and_back! {
        SourceType: 0 to 2, without None;
        Kind: 0 to 55, without None;
        Role: 0 to 7, without None;
        Code: 1 to 35, without None;
        Context: 0 to 4, without None;
        End: 0 to 5, without None;
        Reason: 1 to 20, without Some(8);
    }
}

#[test]
fn errors_in_words() {
    let refusal = Refusal { reason: Reason::RouteSlice, place: 0, needed: Some(4) };
    let error = Error::from(refusal);
    assert_eq!(error.to_string(), "refusal 12 at 0: the route slice is too short (length needed: 4)");
    assert_eq!(error.refusal(), Some(refusal));
    assert!(error.source().is_none() && refusal.source().is_none());
    let long = Error::TooLong { needed: 9, limit: 8 };
    assert_eq!((long.to_string().as_str(), long.refusal()), ("9 entries are more than the limit of 8", None));
    assert_eq!(Error::NoMemory { needed: 9 }.to_string(), "there is no memory for 9 entries");
}

#[test]
fn findings_in_words() {
    let words = |context| {
        let finding = Finding { code: Code::LegacyOctal, node: 3, first: (0, 2), second: (0, 0), context };
        finding.to_string()
    };
    assert_eq!(words(Context::None), "a legacy octal number or escape stands in strict code [9] at node 3");
    assert!(words(Context::Class).ends_with("[9] at node 3, in a class, whose code is strict"));
    assert!(words(Context::Unknown(7)).ends_with(", a number that this version does not know"));
}

const LOOP: Rule = Rule {
    source_type: 0,
    async_bodies: false,
    // while (t) x;
    nodes: &[
        0, 0, 0, 0, 0, 0, 0, 0, 0, 0, //
        10, 0, 3, 0, 0, 0, 0, 0, 0, 0, //
        32, 1, 0, 0, 0, 0, 0, 0, 0, 0, //
        22, 1, 3, 0, 0, 0, 0, 0, 0, 0,
    ],
    scopes: &[0, 2, 0],
    source: b"",
    names: b"",
};

/// The limit is the last length that is made, below and above the room of a first try.
#[test]
fn limits_of_routes() {
    for turns in [0, 1, 100, 127, 128, 200] {
        let (answers, length) = (vec![1; turns], 2 * turns);
        for engine in [route_within, walk_within] {
            assert_eq!(engine(&LOOP, 0, &answers, length).map(|route| route.nodes.len()), Ok(length));
            if let Some(limit) = length.checked_sub(1) {
                let needed = length as u64;
                assert_eq!(engine(&LOOP, 0, &answers, limit), Err(Error::TooLong { needed, limit }));
            }
        }
    }
}

/// Whiles in one another as deep as a tree may be, each with its question and its block.
fn deepest() -> Vec<u32> {
    let mut nodes = vec![0; NODE];
    let mut parent = 0;
    for _ in 0..256 {
        let at = nodes.len() as u32 / 10;
        nodes.extend([10, parent, 3, 0, 0, 0, 0, 0, 0, 0]);
        nodes.extend([5, at, 3, 0, 0, 0, 0, 0, 0, 0]);
        parent = at + 1;
    }
    nodes
}

/// Every call has enough of the stack that the documentation names, and of some pages for the thread itself.
#[test]
fn the_stack_is_enough() {
    let calls = || {
        let nodes = deepest();
        let rule = Rule { nodes: &nodes, ..LOOP };
        let answers = [1; 300];
        assert_eq!(check(&rule, &mut []), Ok(0));
        let code = code_of(&rule, 0).unwrap();
        assert!(code.len() > 256 * 10);
        let route = route_of(&rule, 0, &answers).unwrap();
        assert_eq!(route.end, End::AnswersSpent);
        assert_eq!(walk_of(&rule, 0, &answers), Ok(route.clone()));
        assert_eq!(shared_of(&rule, 0, &answers, &answers[1..]), Ok(299));
        assert!(renamed(&rule).is_ok());
        let mut marks = Box::new(Marks::new());
        let stop = |mark| Stop { mark, answers: 100 };
        let begun = marks.route_stop_of(&rule, 0, &answers[..100], stop(0)).unwrap();
        let next = marks.route_resume_stop_of(&rule, 0, 0, &answers[..100], stop(1)).unwrap();
        let last = marks.route_resume_of(&rule, 0, 1, &answers[..100]).unwrap();
        assert_eq!([begun.nodes, next.nodes, last.nodes].concat(), route.nodes);
    };
    let own = 64 * 1024;
    thread::Builder::new().stack_size(STACK + own).spawn(calls).unwrap().join().unwrap();
}
