//! Trees of witnesses, written while their rows are chosen: no row and no tree is kept.

use crate::joins::{asks, start_of, Link};
use crate::page::Page;
use crate::patterns::{Edge, Mark};
use crate::store::Store;

/// The edges with how many are below each, their links, and the document.
struct Ground<'a> {
    edges: &'a [Edge],
    sizes: Vec<usize>,
    links: &'a [Vec<Link>],
    store: &'a Store,
}

/// A node, and the pattern node that it met: 0 for the document node and e + 1 for the lower end of edge e.
#[derive(Clone, Copy)]
struct Stem {
    place: usize,
    node: u32,
}

/// Where the links of an edge stand that were looked up last.
#[derive(Clone, Copy, Default)]
struct Cursor {
    from: usize,
    to: usize,
}

struct Pen {
    page: Page,
    cursors: Vec<Cursor>,
}

/// How many trees the witnesses have, and their lines. None of the links is in vain.
pub fn witness_text(store: &Store, edges: &[Edge], links: &[Vec<Link>]) -> (u64, Vec<u8>) {
    if edges.iter().zip(links).any(|(edge, links)| edge.up == 0 && asks(edge.mark) && links.is_empty()) {
        return (0, Vec::new());
    }
    let ground = Ground { edges, sizes: sizes_of(edges), links, store };
    let mut pen = Pen { page: Page::default(), cursors: vec![Cursor::default(); edges.len()] };
    let trees = ground.write_trees(Stem { place: 0, node: 0 }, &mut pen);
    (trees, pen.page.into_lines())
}

/// How many edges are below each.
fn sizes_of(edges: &[Edge]) -> Vec<usize> {
    let mut sizes = vec![0; edges.len()];
    for e in (0..edges.len()).rev().filter(|e| edges[*e].up > 0) {
        sizes[edges[e].up - 1] += 1 + sizes[e];
    }
    sizes
}

impl<'a> Ground<'a> {
    fn below(&self, place: usize) -> usize {
        if place == 0 { self.edges.len() } else { self.sizes[place - 1] }
    }

    /// The trees of a node, for all its rows; and how many there are.
    fn write_trees(&self, stem: Stem, pen: &mut Pen) -> u64 {
        let rungs = &self.edges[stem.place..stem.place + self.below(stem.place)];
        let mut chosen = Vec::with_capacity(rungs.len() + 1);
        chosen.push(Some(stem.node));
        let mut trees = 0;
        self.write_rows(stem, rungs, stem.place, &mut chosen, pen, &mut trees);
        trees
    }

    /// The trees of the rows that go on from one. These edges are left, the first of which has the number f.
    fn write_rows(&self, stem: Stem, rungs: &[Edge], f: usize, chosen: &mut Vec<Option<u32>>, pen: &mut Pen, trees: &mut u64) {
        let [rung, rest @ ..] = rungs else {
            self.write_tree(stem, &chosen[1..], pen);
            *trees += 1;
            return;
        };
        let (blank, run) = self.choices(rung.mark, f, chosen[rung.up - stem.place], pen);
        if blank {
            self.write_choice(stem, rest, f + 1, None, chosen, pen, trees);
        }
        for link in run {
            self.write_choice(stem, rest, f + 1, Some(link.below), chosen, pen, trees);
        }
    }

    #[allow(clippy::too_many_arguments)]
    fn write_choice(&self, stem: Stem, rungs: &[Edge], f: usize, choice: Option<u32>, chosen: &mut Vec<Option<u32>>, pen: &mut Pen, trees: &mut u64) {
        chosen.push(choice);
        self.write_rows(stem, rungs, f, chosen, pen, trees);
        chosen.pop();
    }

    /// Whether none may be chosen for edge f, and the links to those that may.
    fn choices(&self, mark: Mark, f: usize, above: Option<u32>, pen: &mut Pen) -> (bool, &'a [Link]) {
        let Some(node) = above else { return (true, &[]) };
        let run = self.run(f, node, pen);
        match mark {
            Mark::One => (false, run),
            Mark::Optional => (run.is_empty(), run),
            Mark::Some => (!run.is_empty(), &[]),
            Mark::Any => (true, &[]),
        }
    }

    /// The links of edge f that lead from node n.
    fn run(&self, f: usize, n: u32, pen: &mut Pen) -> &'a [Link] {
        let (links, cursor) = (&self.links[f][..], &mut pen.cursors[f]);
        let starts_at = |at: usize| (at == 0 || links[at - 1].above < n) && (at == links.len() || links[at].above >= n);
        let from = if starts_at(cursor.to) {
            cursor.to
        } else if starts_at(cursor.from) {
            cursor.from
        } else {
            start_of(links, n)
        };
        let len = links[from..].iter().take_while(|link| link.above == n).count();
        *cursor = Cursor { from, to: from + len };
        &links[from..from + len]
    }

    /// The tree of a node with the part of a row that is below it.
    fn write_tree(&self, stem: Stem, row: &[Option<u32>], pen: &mut Pen) {
        let name = self.name(stem.node);
        if stem.place > 0 && self.edges[stem.place - 1].whole {
            pen.page.lines(self.store.attribute_lines(stem.node));
            pen.page.open(name);
            pen.page.content(self.store.content_lines(stem.node), self.store.ends_with_text(stem.node));
        } else {
            pen.page.open(name);
        }
        self.write_inside(stem, row, pen);
        pen.page.close(name);
    }

    fn name(&self, node: u32) -> &'a [u8] {
        if node == 0 { b"witness" } else { self.store.name(node) }
    }

    /// What stands in the tree of a node for the edges that leave it.
    fn write_inside(&self, stem: Stem, row: &[Option<u32>], pen: &mut Pen) {
        let end = stem.place + self.below(stem.place);
        let mut f = stem.place;
        while f < end {
            let at = f - stem.place;
            self.write_offer(f, stem.node, &row[at..at + 1 + self.sizes[f]], pen);
            f += 1 + self.sizes[f];
        }
    }

    fn write_offer(&self, f: usize, n: u32, row: &[Option<u32>], pen: &mut Pen) {
        match self.edges[f].mark {
            Mark::One | Mark::Optional => {
                if let Some(node) = row[0] {
                    self.write_tree(Stem { place: f + 1, node }, &row[1..], pen);
                }
            }
            Mark::Some | Mark::Any => {
                for link in self.run(f, n, pen) {
                    self.write_trees(Stem { place: f + 1, node: link.below }, pen);
                }
            }
        }
    }
}
