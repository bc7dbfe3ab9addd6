//! Tables that are hard on one part of the check. Each is well-formed.

use plain::reader::OwnedTables;

pub struct Shape {
    pub name: &'static str,
    /// What grows, and how far.
    pub sizes: [usize; 2],
    pub make: fn(usize) -> OwnedTables,
    /// Whether it is one for code and routes too.
    pub routes: bool,
}

pub const SHAPES: [Shape; 20] = [
    Shape { name: "depth 512", sizes: [8_192, 65_535], make: deep, routes: true },
    Shape { name: "one long block", sizes: [8_192, 65_535], make: long_block, routes: true },
    Shape { name: "labels nested", sizes: [8_192, 65_535], make: nested_labels, routes: true },
    Shape { name: "breaks deep down", sizes: [8_192, 65_535], make: deep_breaks, routes: true },
    Shape { name: "loops in one another", sizes: [8_192, 65_535], make: loops, routes: true },
    Shape { name: "labelled breaks deep down", sizes: [8_192, 65_535], make: labelled_breaks, routes: true },
    Shape { name: "labels behind bodies, 16 around breaks", sizes: [1_024, 8_192], make: late_labels, routes: true },
    Shape { name: "class: private elements", sizes: [2_500, 20_000], make: private_elements, routes: false },
    Shape {
        name: "class: private elements of one name",
        sizes: [2_500, 20_000],
        make: one_private_name,
        routes: false,
    },
    Shape {
        name: "class: private references, one element",
        sizes: [2_500, 20_000],
        make: references_to_one,
        routes: false,
    },
    Shape {
        name: "class: private references, a fourth as many elements",
        sizes: [2_500, 20_000],
        make: references,
        routes: false,
    },
    Shape { name: "scopes in one chain", sizes: [8_192, 65_535], make: scope_chain, routes: false },
    Shape { name: "await under a chain of scopes", sizes: [2_048, 16_384], make: awaits_in_scopes, routes: false },
    Shape { name: "super under a chain of scopes", sizes: [2_048, 16_384], make: supers_in_scopes, routes: false },
    Shape { name: "object of properties", sizes: [2_500, 20_000], make: object, routes: false },
    Shape { name: "long equal names (labels)", sizes: [8_192, 65_535], make: long_labels, routes: false },
    Shape {
        name: "long names, last byte differs (references)",
        sizes: [2_500, 20_000],
        make: long_names,
        routes: false,
    },
    Shape {
        name: "class: private elements, names overlap in 1 MB",
        sizes: [25, 200],
        make: overlapping,
        routes: false,
    },
    Shape {
        name: "loop around a switch, 100 turns to its last case",
        sizes: [8_192, 65_535],
        make: switch,
        routes: true,
    },
    Shape { name: "nested ifs, one in each branch", sizes: [8_192, 65_535], make: ifs, routes: true },
];

/// A name's start and length.
type Name = (u32, u32);

const NAMELESS: Name = (0, 0);

struct Maker {
    t: OwnedTables,
    /// The nodes that are open, outermost first.
    path: Vec<u32>,
    scope: u32,
}

impl Maker {
    fn new() -> Maker {
        let mut made = Maker { t: OwnedTables::default(), path: Vec::new(), scope: 0 };
        made.t.scopes = vec![0, 2, 0];
        made.open(0, 0, NAMELESS);
        made
    }

    fn nodes(&self) -> usize {
        self.t.nodes.len() / 10
    }

    fn name(&mut self, bytes: &[u8]) -> Name {
        let start = self.t.names.len() as u32;
        self.t.names.extend(bytes);
        (start, bytes.len() as u32)
    }

    fn open_with(&mut self, kind: u32, role: u32, flags: u32, name: Name) {
        let parent = self.path.last().copied().unwrap_or(0);
        self.path.push(self.nodes() as u32);
        self.t.nodes.extend([kind, parent, role, 0, 0, self.scope, flags, 0, name.0, name.1]);
    }

    fn open(&mut self, kind: u32, role: u32, name: Name) {
        self.open_with(kind, role, 0, name);
    }

    fn leaf(&mut self, kind: u32, role: u32, name: Name) {
        self.open(kind, role, name);
        self.path.pop();
    }

    /// Closes all but the outermost so many.
    fn close_to(&mut self, open: usize) {
        self.path.truncate(open);
    }

    fn labeled(&mut self, name: Name) {
        self.open(6, 3, NAMELESS);
        self.leaf(33, 6, name);
    }

    /// Class, id and ClassBody.
    fn class(&mut self) {
        self.open_with(26, 3, 32, NAMELESS);
        let name = self.name(b"C");
        self.leaf(31, 0, name);
        self.open(27, 0, NAMELESS);
    }

    /// A private field without a value.
    fn private_field(&mut self, name: Name) {
        self.open_with(29, 0, 4, NAMELESS);
        self.leaf(34, 2, name);
        self.path.pop();
    }

    /// `x = [y.#name, ..]`, a field of the class.
    fn references(&mut self, count: usize, name: Name) {
        self.open(29, 0, NAMELESS);
        self.leaf(55, 2, NAMELESS);
        self.open(55, 1, NAMELESS);
        for _ in 0..count {
            self.open(41, 0, NAMELESS);
            self.leaf(34, 0, name);
            self.path.pop();
        }
        self.close_to(4);
    }

    /// So many scopes, each in the one before.
    fn chain(&mut self, scopes: usize) {
        (1..scopes as u32).for_each(|s| self.t.scopes.extend([s - 1, 0, 0]));
        self.scope = scopes as u32 - 1;
    }
}

/// Chains of Blocks, each with `arguments` at the bottom.
fn deep(nodes: usize) -> OwnedTables {
    let mut m = Maker::new();
    let name = m.name(b"arguments");
    while m.nodes() + 512 <= nodes {
        (1..=510).for_each(|_| m.open(5, 3, NAMELESS));
        m.open(22, 3, NAMELESS);
        m.leaf(32, 0, name);
        m.close_to(1);
    }
    m.t
}

fn long_block(nodes: usize) -> OwnedTables {
    let mut m = Maker::new();
    m.open(5, 3, NAMELESS);
    (m.nodes()..nodes).for_each(|_| m.leaf(22, 3, NAMELESS));
    m.t
}

fn nested_labels(nodes: usize) -> OwnedTables {
    let mut m = Maker::new();
    let names: Vec<Name> = (0..510).map(|i| m.name(format!("{i:03}").as_bytes())).collect();
    while m.nodes() + 1_021 <= nodes {
        names.iter().for_each(|&name| m.labeled(name));
        m.leaf(22, 3, NAMELESS);
        m.close_to(1);
    }
    m.t
}

fn deep_breaks(nodes: usize) -> OwnedTables {
    let mut m = Maker::new();
    m.open(10, 3, NAMELESS);
    (2..=510).for_each(|_| m.open(5, 3, NAMELESS));
    (m.nodes()..nodes).for_each(|_| m.leaf(18, 3, NAMELESS));
    m.t
}

/// Chains of While, each with a statement at the bottom.
fn loops(nodes: usize) -> OwnedTables {
    let mut m = Maker::new();
    while m.nodes() + 511 <= nodes {
        (1..=510).for_each(|_| m.open(10, 3, NAMELESS));
        m.leaf(22, 3, NAMELESS);
        m.close_to(1);
    }
    m.t
}

fn labelled_breaks(nodes: usize) -> OwnedTables {
    let mut m = Maker::new();
    let outermost = m.name(b"outermost");
    m.labeled(outermost);
    for i in 0..508 {
        let name = m.name(format!("inner_{i:03}").as_bytes());
        m.labeled(name);
    }
    m.open(5, 3, NAMELESS);
    while m.nodes() + 2 <= nodes {
        m.open(18, 3, NAMELESS);
        m.leaf(33, 6, outermost);
        m.path.pop();
    }
    m.t
}

fn late_labels(nodes: usize) -> OwnedTables {
    let mut m = Maker::new();
    let names: Vec<Name> = (b'a'..=b'p').map(|b| m.name(&[b])).collect();
    names.iter().for_each(|_| m.open(6, 3, NAMELESS));
    m.open(5, 3, NAMELESS);
    while m.nodes() + 2 + names.len() <= nodes {
        m.open(18, 3, NAMELESS);
        m.leaf(33, 6, names[0]);
        m.path.pop();
    }
    for (i, &name) in names.iter().enumerate().rev() {
        m.close_to(i + 2);
        m.leaf(33, 6, name);
    }
    m.t
}

fn private_elements(count: usize) -> OwnedTables {
    let mut m = Maker::new();
    m.class();
    for i in 0..count {
        let name = m.name(format!("p{i:05}").as_bytes());
        m.private_field(name);
    }
    m.t
}

fn one_private_name(count: usize) -> OwnedTables {
    let mut m = Maker::new();
    m.class();
    let name = m.name(b"secret");
    (0..count).for_each(|_| m.private_field(name));
    m.t
}

fn references_to_one(count: usize) -> OwnedTables {
    let mut m = Maker::new();
    m.class();
    let name = m.name(b"secret");
    m.private_field(name);
    m.references(count, name);
    m.t
}

fn references(count: usize) -> OwnedTables {
    let mut m = Maker::new();
    m.class();
    let mut name = NAMELESS;
    for i in 0..count / 4 {
        name = m.name(format!("p{i:05}").as_bytes());
        m.private_field(name);
    }
    m.references(count, name);
    m.t
}

fn scope_chain(nodes: usize) -> OwnedTables {
    let mut m = Maker::new();
    m.chain(nodes);
    (1..nodes).for_each(|_| m.leaf(55, 0, NAMELESS));
    m.t
}

fn awaits_in_scopes(nodes: usize) -> OwnedTables {
    let mut m = Maker::new();
    m.chain(nodes);
    (1..nodes).for_each(|_| m.leaf(47, 0, NAMELESS));
    m.t
}

fn supers_in_scopes(nodes: usize) -> OwnedTables {
    let mut m = Maker::new();
    m.chain(nodes);
    (1..nodes).for_each(|_| m.leaf(37, 0, NAMELESS));
    m.t
}

fn object(count: usize) -> OwnedTables {
    let mut m = Maker::new();
    m.open(22, 3, NAMELESS);
    m.open(43, 0, NAMELESS);
    for i in 0..count {
        let name = m.name(format!("name_{i:05}").as_bytes());
        m.open(44, 0, NAMELESS);
        m.leaf(55, 2, name);
        m.path.pop();
    }
    m.t
}

fn long_labels(nodes: usize) -> OwnedTables {
    let mut m = Maker::new();
    let name = m.name(&[b'n'; 1_024]);
    while m.nodes() + 1_021 <= nodes {
        (0..510).for_each(|_| m.labeled(name));
        m.leaf(22, 3, NAMELESS);
        m.close_to(1);
    }
    m.t
}

/// 64 elements whose names of 1,024 bytes differ in the last one.
fn long_names(count: usize) -> OwnedTables {
    let mut m = Maker::new();
    m.class();
    let mut name = NAMELESS;
    for i in 0..64 {
        let mut bytes = [b'n'; 1_024];
        bytes[1_023] = b'0' + i;
        name = m.name(&bytes);
        m.private_field(name);
    }
    m.references(count, name);
    m.t
}

/// Elements whose names are all but the first bytes of one text of a megabyte.
fn overlapping(count: usize) -> OwnedTables {
    let mut m = Maker::new();
    m.class();
    let (start, length) = m.name(&vec![b'n'; (1 << 20) - 1]);
    for i in 0..count as u32 {
        m.private_field((start + i, length - i));
    }
    m.t
}

/// A While around a Switch of cases with a statement each.
fn switch(nodes: usize) -> OwnedTables {
    let mut m = Maker::new();
    m.open(10, 3, NAMELESS);
    m.open(14, 3, NAMELESS);
    while m.nodes() + 2 <= nodes {
        m.open(15, 3, NAMELESS);
        m.leaf(22, 3, NAMELESS);
        m.path.pop();
    }
    m.t
}

/// Ifs within both branches of Ifs, 9 deep, one such tree after the other.
fn ifs(nodes: usize) -> OwnedTables {
    fn branch(m: &mut Maker, role: u32, deep: usize) {
        if deep == 0 {
            return m.leaf(22, role, NAMELESS);
        }
        m.open(12, role, NAMELESS);
        branch(m, 3, deep - 1);
        branch(m, 4, deep - 1);
        m.path.pop();
    }
    let mut m = Maker::new();
    while m.nodes() + 1_023 <= nodes {
        branch(&mut m, 3, 9);
    }
    m.t
}

/// Yes and the number of the last case by turns, for 100 turns, and then no.
pub fn answers(nodes: usize) -> Vec<u32> {
    let last = (nodes as u32).saturating_sub(3) / 2 - 1;
    (0..200).map(|i| if i % 2 == 0 { 1 } else { last }).chain([0]).collect()
}
