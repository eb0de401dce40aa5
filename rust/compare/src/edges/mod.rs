//! Records at the edges of the rules, laid out by hand: on each side of every bound, with all else right. The right answers
//! are written here from the rules.

mod edge;
mod leads;
mod opening;
mod streams;
mod tables;

pub use edge::Edge;
use edge::Edges;

/// All of them.
pub fn all() -> Vec<Edge> {
    let mut edges = Edges::default();
    opening::add(&mut edges);
    tables::add(&mut edges);
    leads::add(&mut edges);
    streams::add(&mut edges);
    edges.0
}
