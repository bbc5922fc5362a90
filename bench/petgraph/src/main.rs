//! The closure of a graph by petgraph: `closure` prints its edges, `closure NODE` the nodes to which
//! NODE leads. It reads edges, two names a line, and prints nodes in the order of their first names.

use petgraph::graph::{DiGraph, NodeIndex};
use petgraph::visit::{Dfs, VisitMap, Visitable};
use std::collections::HashMap;
use std::io::{self, BufWriter, Read, Write};

type Graph<'a> = DiGraph<&'a str, ()>;

fn read_graph(text: &str) -> Graph<'_> {
    let mut graph = Graph::new();
    let mut nodes = HashMap::new();
    for line in text.lines() {
        let mut ends = line
            .split_whitespace()
            .map(|name| *nodes.entry(name).or_insert_with(|| graph.add_node(name)))
            .collect::<Vec<_>>()
            .into_iter();
        if let (Some(from), Some(to)) = (ends.next(), ends.next()) {
            graph.add_edge(from, to, ());
        }
    }
    graph
}

/// Visits all nodes to which a path of one edge or more leads.
fn search(graph: &Graph<'_>, dfs: &mut Dfs<NodeIndex, <Graph<'_> as Visitable>::Map>, node: NodeIndex) {
    dfs.reset(graph);
    for next in graph.neighbors(node) {
        if !dfs.discovered.is_visited(&next) {
            dfs.move_to(next);
            while dfs.next(graph).is_some() {}
        }
    }
}

fn main() -> io::Result<()> {
    let mut text = String::new();
    io::stdin().read_to_string(&mut text)?;
    let graph = read_graph(&text);
    let from = std::env::args().nth(1);
    let mut output = BufWriter::new(io::stdout().lock());
    let mut dfs = Dfs::empty(&graph);
    for node in graph.node_indices() {
        if from.as_deref().map_or(false, |name| name != graph[node]) {
            continue;
        }
        search(&graph, &mut dfs, node);
        for to in dfs.discovered.ones() {
            let to = graph[NodeIndex::new(to)];
            match from {
                Some(_) => writeln!(output, "{to}")?,
                None => writeln!(output, "{} {to}", graph[node])?,
            }
        }
    }
    output.flush()
}
