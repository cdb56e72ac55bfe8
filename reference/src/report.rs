//! Document 01, "Route sheet", as document 02's E4 changes it.

use crate::text::Network;

/// "load is the sum of needs routed over it"
pub fn load(network: &Network, routes: &[Vec<usize>], edge: usize) -> u64 {
    let terminals = network.terminals.iter().zip(routes);
    terminals.filter(|(_, route)| route.contains(&edge)).map(|(terminal, _)| terminal.demand).sum()
}

/// "`R,mills,channels`; then per mill `M,mill,steps,` and its channels from the spring on; then per channel `L,channel,first flow,load`". "The
/// third field of an L line becomes the drained first flow."
pub fn report(network: &Network, acyclic_flows: &[u64], routes: &[Vec<usize>]) -> Vec<u8> {
    let mut text = format!("R,{},{}\n", network.terminals.len(), network.edges.len());
    for (terminal, route) in routes.iter().enumerate() {
        let edges: Vec<String> = route.iter().map(usize::to_string).collect();
        text += &format!("M,{terminal},{},{}\n", route.len(), edges.join(","));
    }
    for (edge, flow) in acyclic_flows.iter().enumerate() {
        text += &format!("L,{edge},{flow},{}\n", load(network, routes, edge));
    }
    text.into_bytes()
}
