//! Patterns in a flat list of edges, each before those below it.

#[derive(Clone, Copy, PartialEq)]
pub enum Axis {
    Child,
    Descendant,
}

#[derive(Clone, Copy, PartialEq)]
pub enum Mark {
    One,
    Optional,
    Some,
    Any,
}

/// An edge: the node above it, 0 for the document node and e + 1 for the lower end of edge e; the name and the
/// least number that its own lower end must have; and whether that is shown whole.
pub struct Edge {
    pub up: usize,
    pub axis: Axis,
    pub mark: Mark,
    pub name: &'static [u8],
    pub least: Option<i64>,
    pub whole: bool,
}

const fn edge(up: usize, axis: Axis, mark: Mark, name: &'static [u8], least: Option<i64>) -> Edge {
    Edge { up, axis, mark, name, least, whole: false }
}

const fn whole(edge: Edge) -> Edge {
    Edge { whole: true, ..edge }
}

/// `(//- book (/- year [>= 1960], /+ author !))`
pub const LIBRARY: &[Edge] = &[
    edge(0, Axis::Descendant, Mark::One, b"book", None),
    edge(1, Axis::Child, Mark::One, b"year", Some(1960)),
    whole(edge(1, Axis::Child, Mark::Some, b"author", None)),
];

/// `(//- book (/- year [>= 1960], /+ author !, /- publisher))`
pub const EMPTY: &[Edge] = &[
    edge(0, Axis::Descendant, Mark::One, b"book", None),
    edge(1, Axis::Child, Mark::One, b"year", Some(1960)),
    whole(edge(1, Axis::Child, Mark::Some, b"author", None)),
    edge(1, Axis::Child, Mark::One, b"publisher", None),
];

/// `(//- sec (//- fig))`
pub const SECTIONS: &[Edge] = &[
    edge(0, Axis::Descendant, Mark::One, b"sec", None),
    edge(1, Axis::Descendant, Mark::One, b"fig", None),
];

/// `(//- a (//- b (//- c), /? d))`
pub const DEEP: &[Edge] = &[
    edge(0, Axis::Descendant, Mark::One, b"a", None),
    edge(1, Axis::Descendant, Mark::One, b"b", None),
    edge(2, Axis::Descendant, Mark::One, b"c", None),
    edge(1, Axis::Child, Mark::Optional, b"d", None),
];

/// `(//- a (//- a (//- a (//- a (//- z)))))`
pub const VAIN: &[Edge] = &[
    edge(0, Axis::Descendant, Mark::One, b"a", None),
    edge(1, Axis::Descendant, Mark::One, b"a", None),
    edge(2, Axis::Descendant, Mark::One, b"a", None),
    edge(3, Axis::Descendant, Mark::One, b"a", None),
    edge(4, Axis::Descendant, Mark::One, b"z", None),
];

/// `(//- a (//- a (//- a)), //- z)`
pub const BESIDE: &[Edge] = &[
    edge(0, Axis::Descendant, Mark::One, b"a", None),
    edge(1, Axis::Descendant, Mark::One, b"a", None),
    edge(2, Axis::Descendant, Mark::One, b"a", None),
    edge(0, Axis::Descendant, Mark::One, b"z", None),
];
