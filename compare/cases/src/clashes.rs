//! A second reading of the clashes of class elements, since the crate's text gets its keys from a stand-in. For each
//! element the one before it that it is held against is sought by lists that are made anew each time.

use plain::Tables;

/// A finding at two class elements of one name, and whether the name is private.
pub type Clash = (bool, [u32; 7]);

/// The clashes of each class's elements. An element is held against the last one before it of its name and privacy; but
/// a private setter looks for setters first, and a private element of another sort for such as are no setters.
pub fn of(t: &Tables) -> Vec<Clash> {
    let bodies = (0..t.node_count()).filter(|&n| t.kind(n) == 27);
    let clash_of = |e: usize| {
        let (private, is_static) = (t.flags(e) & 4 != 0, t.flags(e) & 2 != 0);
        let before: Vec<usize> = (t.parent(e)..e)
            .filter(|&d| t.parent(d) == t.parent(e) && named(t, d).is_some() && named(t, d) == named(t, e))
            .filter(|&d| (t.flags(d) & 4 != 0) == private)
            .collect();
        let alike = before.iter().rfind(|&&d| !private || (sort(t, d) == 3) == (sort(t, e) == 3));
        let d = *alike.or(before.last())?;
        let one_static = (t.flags(d) & 2 != 0) != is_static;
        let pair = [sort(t, d), sort(t, e)];
        let clash = match (pair == [2, 3] || pair == [3, 2], private) {
            (true, private) => private && one_static,
            (false, private) => private || !one_static,
        };
        let code = if private && one_static && t.source_type == 2 { 35 } else { 1 };
        let [d, e] = [d, e].map(|n| t.span(part(t, n, 2).expect("a key")));
        clash.then_some((private, [code, 0, d.0, d.1, e.0, e.1, 0]))
    };
    bodies.flat_map(|body| t.children(body).filter_map(clash_of).collect::<Vec<_>>()).collect()
}

/// The name under which an element is held against others, if it is.
fn named<'a>(t: &Tables<'a>, e: usize) -> Option<&'a [u8]> {
    let key = part(t, e, 2).filter(|_| (28..=30).contains(&t.kind(e)))?;
    let bodiless = || t.children(part(t, e, 1).expect("a Function")).all(|c| t.kind(c) != 4);
    let typescript = t.source_type == 2;
    let fixed = if typescript { t.flags(e) & 16384 == 0 } else { t.kind(key) != 32 && t.name_length(key) > 0 };
    let entered = fixed && (typescript || t.flags(e) & 4 != 0);
    (entered && !(t.kind(e) == 28 && (t.extra(e) == 0 || bodiless()))).then(|| t.name(key))
}

/// 2 a getter, 3 a setter, else something else.
fn sort(t: &Tables, e: usize) -> u32 {
    if t.kind(e) == 28 { t.extra(e) } else { 0 }
}

fn part(t: &Tables, n: usize, role: u32) -> Option<usize> {
    t.children(n).find(|&c| t.role(c) == role)
}
