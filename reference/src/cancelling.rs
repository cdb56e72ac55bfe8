//! Document 01, "Draining". "A channel is wet while its flow is above 0, else dry."

use crate::text::{flows, Network};
use std::collections::BTreeSet;

/// The positive edges that leave a vertex, lowest first.
pub fn leaving(network: &Network, flows: &[u64], vertex: usize) -> Vec<usize> {
    let edges = 0..network.edges.len();
    edges.filter(|edge| flows[*edge] > 0 && network.edges[*edge].tail == vertex).collect()
}

/// The positive edges that enter a vertex, lowest first.
pub fn entering(network: &Network, flows: &[u64], vertex: usize) -> Vec<usize> {
    let edges = 0..network.edges.len();
    edges.filter(|edge| flows[*edge] > 0 && network.edges[*edge].head == vertex).collect()
}

/// The vertices that can be reached from a vertex over positive edges, itself among them.
pub fn reachable(network: &Network, flows: &[u64], from: usize) -> BTreeSet<usize> {
    fn visit(network: &Network, flows: &[u64], vertex: usize, seen: &mut BTreeSet<usize>) {
        if seen.insert(vertex) {
            for edge in leaving(network, flows, vertex) {
                visit(network, flows, network.edges[edge].head, seen);
            }
        }
    }
    let mut seen = BTreeSet::new();
    visit(network, flows, from, &mut seen);
    seen
}

/// The lowest positive edge that leaves `vertex` and "from whose head that pool can still be reached".
fn onward(network: &Network, flows: &[u64], vertex: usize, goal: usize) -> Option<usize> {
    let mut edges = leaving(network, flows, vertex).into_iter();
    edges.find(|edge| reachable(network, flows, network.edges[*edge].head).contains(&goal))
}

/// Whether the vertex is on a cycle of positive edges.
pub fn is_on_cycle(network: &Network, flows: &[u64], vertex: usize) -> bool {
    onward(network, flows, vertex, vertex).is_some()
}

/// "From it follow, each time, the lowest wet channel from whose head that pool can still be reached, until some pool comes a second time":
/// the edges "walked since its first visit".
fn cycle_from(network: &Network, flows: &[u64], start: usize) -> Vec<usize> {
    let mut visited = vec![start];
    let mut walked = Vec::new();
    loop {
        let here = *visited.last().unwrap();
        let edge = onward(network, flows, here, start).expect("the start can be reached from every vertex of the walk");
        walked.push(edge);
        let head = network.edges[edge].head;
        if let Some(first_visit) = visited.iter().position(|vertex| *vertex == head) {
            return walked.split_off(first_visit);
        }
        visited.push(head);
    }
}

/// "The flows then are the drained first flows."
pub fn acyclic_flows(network: &Network) -> Vec<u64> {
    let mut flows = flows(network);
    // "Take the lowest pool on a ring of wet channels. .. Repeat until no ring is left."
    while let Some(start) = (0..network.vertices).find(|vertex| is_on_cycle(network, &flows, *vertex)) {
        let cycle = cycle_from(network, &flows, start);
        // "Lower each channel walked since its first visit by the smallest flow among them."
        let smallest = cycle.iter().map(|edge| flows[*edge]).min().unwrap();
        for edge in cycle {
            flows[edge] -= smallest;
        }
    }
    flows
}
