//! The immediate dominator of each node by petgraph, printed as `./conthiral flow --analysis immediate` does. It reads
//! lines `name: next a b`, the entry first.

use petgraph::algo::dominators::simple_fast;
use petgraph::graph::{DiGraph, NodeIndex};
use std::collections::HashMap;
use std::io::{self, BufWriter, Read, Write};

fn main() -> io::Result<()> {
    let mut text = String::new();
    io::stdin().read_to_string(&mut text)?;
    let mut graph = DiGraph::<&str, ()>::new();
    let mut nodes = HashMap::new();
    for line in text.lines() {
        let name = line.split(':').next().unwrap_or(line);
        nodes.insert(name, graph.add_node(name));
    }
    for line in text.lines() {
        let (name, next) = line.split_once(':').unwrap_or((line, ""));
        for end in next.split_whitespace().skip(1) {
            graph.add_edge(nodes[name], nodes[end], ());
        }
    }
    let tree = simple_fast(&graph, NodeIndex::new(0));
    let mut output = BufWriter::new(io::stdout().lock());
    for node in graph.node_indices() {
        write!(output, "{}: immediate", graph[node])?;
        if let Some(above) = tree.immediate_dominator(node) {
            write!(output, " {}", graph[above])?;
        }
        writeln!(output)?;
    }
    output.flush()
}
