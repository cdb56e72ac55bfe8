//! Texts made by hand, for the program that reads and writes texts: document 01's boards, the order of the refusals, counts that disagree,
//! balances off by one, the greatest boards.

use crate::boards::random_board;
use crate::damage::{at_every_field, damaged, every_start, surplus};
use crate::random::Random;
use crate::text::{write, Edge, Network, Terminal};

/// Document 01's boards S and T.
pub const S: &str = "B,2,1,1,0\nC,0,1,5\nW,1,5\n";
pub const T: &str = "B,4,4,2,0\nC,0,1,3\nC,0,2,3\nC,1,3,3\nC,2,3,3\nW,3,2\nW,3,4\n";

/// The board with a misfit: a terminal that needs less than a marked edge into its vertex has.
pub const MISFIT: &str = "B,4,6,2,2 C,2,0,4 C,1,0,1 C,2,1,7 C,2,0,0 C,1,3,8 C,2,1,2 W,0,5 W,3,8 ";

/// Two ways into a vertex and two out of it, each with half of what the terminal needs: an edge that is not singular is in a cycle.
pub const DOUBLED: &str = "B,3,4,1,0 C,0,1,1 C,0,1,1 C,1,2,1 C,1,2,1 W,2,2 ";

/// Boards whose walk goes some way before it meets the cycle: behind three carries, and as loaded.
pub const TAIL: &str = "B,5,5,2,0 C,2,4,3 C,3,4,3 C,1,3,3 C,1,2,3 C,0,1,6 W,4,2 W,4,4 ";
pub const DOWN_AGAIN: &str = "B,4,5,1,0 C,0,1,2 C,1,2,3 C,3,2,2 C,3,1,1 C,0,3,3 W,2,5 ";

/// The longest text that can be accepted, and the longest that the program takes.
pub const LONGEST: usize = 1_246;
pub const GREATEST: usize = 65_535;

/// Texts written with a blank for each line feed.
const BY_HAND: [&str; 79] = [
    // Document 01's boards.
    "B,2,1,1,0 C,1,1,5 W,1,5 ",
    "B,2,1,1,0 C,0,1,5 W,0,5 ",
    "B,2,1,1,0 C,0,1,4 W,1,5 ",
    "B,2,1,1,0 C,0,1,1000000 W,1,1000000 ",
    "B,2,1,1,0 C,0,1,1000001 W,1,1000001 ",
    "B,2,1,1,0 C,0,1,05 W,1,5 ",
    "B,3,3,1,0 C,0,1,4 C,1,2,3 C,2,1,3 W,1,4 ",
    // 1 before 2 in one field; 1 or 2, the earlier in the file.
    "B,99 ",
    "B,99,x",
    "B,99,",
    "B,2,0,",
    "B,2,1,17, ",
    "B,2,1,1,2 ",
    "B,2,1,1,2",
    "B,2,1,1,0 C,9x,",
    "B,2,1,1,0 C,9999999x,",
    "B,2,1,1,0 C,9999999,",
    "B,2,1,1,0 C,9999999",
    "B,2,1,1,0 C,99999999,",
    "B,2,1,1,0 C,2,",
    "B,2,1,1,0 C,0,2,",
    "B,2,1,1,0 C,0,1,1000001 ",
    "B,2,1,1,0 C,0,1,1000001",
    "B,2,1,1,0 C,0,1,5 W,2,",
    "B,2,1,1,0 C,0,1,5 W,1,0",
    "B,2,1,1,0 C,0,1,1000001 X,1,5 ",
    "B,2,1,1,0 X,0,1,1000001 W,1,5 ",
    // 2 before 3, 4 and 5, though it stands last in the file; 1 too.
    "B,2,1,1,0 C,1,1,5 W,1,1000001 ",
    "B,2,1,2,0 C,0,1,5 W,0,5 W,1,0 ",
    "B,2,1,2,0 C,0,1,5 W,1,4 W,2,5 ",
    "B,2,2,2,0 C,1,1,5 C,0,1,5 W,0,4 W,1,1000001 ",
    "B,2,2,2,0 C,1,1,5 C,0,1,5 W,0,4 W,1,05 ",
    "B,2,1,1,0 C,1,1,5 W,1,5  ",
    "B,2,1,1,0 C,0,1,5 W,0,5 W,1,5 ",
    "B,2,1,1,0 C,0,1,4 W,1,5 x",
    "B,2,1,1,0 C,0,1,5 W,1,1000001 x",
    // 3, 4 and 5 together, with the edge that is a 3 first, in between and last.
    "B,3,3,2,0 C,2,2,5 C,0,1,5 C,1,2,4 W,0,1 W,2,3 ",
    "B,3,3,2,0 C,0,1,5 C,2,2,5 C,1,2,4 W,0,1 W,2,3 ",
    "B,3,3,2,0 C,0,1,5 C,1,2,4 C,0,0,0 W,0,1 W,2,3 ",
    // 3 and 4; 3 and 5; 4 and 5, with the terminal that is a 4 first and last.
    "B,3,3,3,0 C,0,1,5 C,2,2,5 C,1,2,4 W,0,1 W,1,1 W,2,4 ",
    "B,3,3,2,0 C,0,1,5 C,1,2,4 C,0,0,0 W,1,2 W,2,3 ",
    "B,3,2,2,0 C,0,1,5 C,1,2,4 W,0,1 W,2,3 ",
    "B,3,2,2,0 C,0,1,5 C,1,2,4 W,2,3 W,0,1 ",
    // 4 alone, every other vertex in balance; 3 alone, the balance kept, zero edges among them.
    "B,3,2,3,0 C,0,1,5 C,1,2,4 W,1,1 W,2,4 W,0,1 ",
    "B,3,2,3,2 C,2,1,5 C,1,0,4 W,2,1 W,1,1 W,0,4 ",
    "B,2,2,1,0 C,0,1,5 C,1,1,7 W,1,5 ",
    "B,2,2,1,0 C,0,1,5 C,1,1,0 W,1,5 ",
    "B,2,2,1,0 C,0,0,0 C,0,1,5 W,1,5 ",
    // The source: no vertex, the last one.
    "B,2,1,1,32 C,0,1,5 W,1,5 ",
    "B,32,1,1,32 C,0,1,5 W,1,5 ",
    "B,32,1,1,31 C,31,1,5 W,1,5 ",
    "B,2,1,1,1 C,1,0,5 W,0,5 ",
    // A demand of 0, at a vertex that would balance by it.
    "B,2,1,1,0 C,0,1,0 W,1,0 ",
    "B,3,1,2,0 C,0,1,5 W,1,5 W,2,0 ",
    // Counts that disagree with the lines.
    "B,4,5,2,0 C,0,1,3 C,0,2,3 C,1,3,3 C,2,3,3 W,3,2 W,3,4 ",
    "B,4,3,2,0 C,0,1,3 C,0,2,3 C,1,3,3 C,2,3,3 W,3,2 W,3,4 ",
    "B,4,4,3,0 C,0,1,3 C,0,2,3 C,1,3,3 C,2,3,3 W,3,2 W,3,4 ",
    "B,4,4,1,0 C,0,1,3 C,0,2,3 C,1,3,3 C,2,3,3 W,3,2 W,3,4 ",
    "B,5,4,2,0 C,0,1,3 C,0,2,3 C,1,3,3 C,2,3,3 W,3,2 W,3,4 ",
    "B,3,4,2,0 C,0,1,3 C,0,2,3 C,1,3,3 C,2,3,3 W,3,2 W,3,4 ",
    // Both of two vertices out of balance, so that the sums over all agree; flow past a terminal; flow from nowhere.
    "B,3,2,2,0 C,0,1,5 C,0,2,5 W,1,4 W,2,6 ",
    "B,3,2,2,0 C,0,1,5 C,0,2,5 W,1,5 W,1,5 ",
    "B,3,2,1,0 C,0,1,5 C,1,2,5 W,1,5 ",
    "B,3,2,1,0 C,0,1,5 C,2,1,5 W,1,10 ",
    "B,3,2,1,0 C,1,2,5 C,2,1,5 W,1,5 ",
    "B,3,2,1,0 C,0,1,5 C,2,0,3 W,1,5 ",
    // The source need not balance.
    "B,3,3,1,1 C,1,0,9 C,0,1,4 C,0,2,5 W,2,5 ",
    "B,2,2,1,0 C,0,1,1000000 C,1,0,999999 W,1,1 ",
    "B,2,3,1,1 C,1,0,3 C,1,0,3 C,0,1,1 W,0,5 ",
    // Zero edges, parallel edges, terminals at one vertex; the board with a misfit.
    "B,3,4,1,0 C,0,2,0 C,2,1,0 C,0,1,1 C,1,0,0 W,1,1 ",
    "B,2,4,1,1 C,1,0,1 C,1,0,2 C,1,0,1 C,1,0,1 W,0,5 ",
    "B,2,1,3,0 C,0,1,6 W,1,1 W,1,2 W,1,3 ",
    MISFIT,
    // Cycles: two at one vertex; one through the source; a walk that closes behind its start; two that share an edge.
    "B,4,5,1,0 C,0,1,2 C,1,2,3 C,2,1,3 C,1,3,4 C,3,1,4 W,1,2 ",
    "B,3,3,1,0 C,0,1,5 C,1,2,3 C,2,0,3 W,1,2 ",
    "B,4,5,1,0 C,0,1,1 C,1,2,2 C,2,3,5 C,3,2,3 C,3,1,2 W,1,1 ",
    "B,4,6,1,0 C,0,1,7 C,1,2,5 C,2,3,2 C,3,1,2 C,2,1,3 C,1,0,0 W,1,7 ",
    // Lines in another order.
    "C,0,1,5 W,1,5 B,2,1,1,0 ",
    "B,2,1,1,0 W,1,5 C,0,1,5 ",
];

/// A cycle through every vertex, whose edges have two digits: two ways of 16 edges each, of flow 1, from the source to one terminal, behind ten edges
/// without flow.
pub fn longest_cycle() -> Network {
    let edge = |tail, head, flow| Edge { tail, head, flow };
    let mut edges = vec![edge(0, 1, 0); 10];
    edges.extend((0..16).map(|vertex| edge(vertex, vertex + 1, 1)));
    edges.push(edge(0, 31, 1));
    edges.extend((17..32).rev().map(|vertex| edge(vertex, vertex - 1, 1)));
    Network { vertices: 32, edges, terminals: vec![Terminal { home: 16, demand: 2 }], source: 0 }
}

/// A board as long as a text can be: each of 16 terminals with four edges of its own in a row, every number with the most digits.
pub fn longest_board() -> Network {
    let source = 31;
    let mut edges = Vec::new();
    let mut terminals = Vec::new();
    for terminal in 0..16 {
        let way: Vec<usize> = (0..4).map(|at| 10 + (5 * at + terminal) % 21).collect();
        let tails = [&[source], &way[..3]].concat();
        edges.extend(tails.iter().zip(&way).map(|(tail, head)| Edge { tail: *tail, head: *head, flow: 1_000_000 }));
        terminals.push(Terminal { home: way[3], demand: 1_000_000 });
    }
    Network { vertices: 32, edges, terminals, source }
}

/// The fewest of everything: two vertices, one edge and one terminal.
pub fn smallest_board() -> Network {
    Network { vertices: 2, edges: vec![Edge { tail: 1, head: 0, flow: 1 }], terminals: vec![Terminal { home: 0, demand: 1 }], source: 1 }
}

/// The most of everything: 32 vertices in a row behind the source, 64 edges, two of them without flow, and 16 terminals at the last vertex.
pub fn greatest_board() -> Network {
    let edge = |(tail, head, flow)| Edge { tail, head, flow };
    let pairs = (0..31).flat_map(|at| [(at, at + 1, 500_000), (at, at + 1, 300_000)]);
    let edges = pairs.chain([(0, 1, 0), (0, 31, 0)]).map(edge).collect();
    Network { vertices: 32, edges, terminals: vec![Terminal { home: 31, demand: 50_000 }; 16], source: 0 }
}

/// The greatest sums at one vertex: 40 edges enter it, 24 leave it, 16 terminals stand there.
fn greatest_sums() -> Network {
    let edge = |(tail, head)| Edge { tail, head, flow: 1_000_000 };
    let edges = [vec![edge((0, 1)); 40], vec![edge((1, 0)); 24]].concat();
    Network { vertices: 2, edges, terminals: vec![Terminal { home: 1, demand: 1_000_000 }; 16], source: 0 }
}

/// 32 vertices, each but the source with an edge from it, and each but the last with one back: one more on any edge is out of balance.
pub fn star() -> Network {
    let out = (1..32).map(|head| Edge { tail: 0, head, flow: 7 });
    let back = (1..31).map(|tail| Edge { tail, head: 0, flow: 7 });
    let terminals = vec![Terminal { home: 31, demand: 7 }];
    Network { vertices: 32, edges: out.chain(back).collect(), terminals, source: 0 }
}

/// Many cycles between two vertices, and behind them a way over all lower vertices, from the highest to the lowest, its edges in that order: each
/// round asks of every lower vertex whether it is on a cycle, and each pass against the edges adds one vertex to the set that reaches it.
fn many_rounds() -> Network {
    let edge = |(tail, head, flow)| Edge { tail, head, flow };
    let way = [31].into_iter().chain((2..30).rev()).zip((1..30).rev()).map(|(tail, head)| (tail, head, 10));
    let there = (0..16).map(|at| (30, 31, 7 * at + 1));
    let back = (0..16).map(|at| (31, 30, 5 * at + 2)).chain([(31, 30, 214)]);
    let edges = [(0, 30, 10)].into_iter().chain(way).chain(there).chain(back).map(edge).collect();
    Network { vertices: 32, edges, terminals: vec![Terminal { home: 1, demand: 10 }], source: 0 }
}

/// The board, and the board with one more or one less on each edge.
fn off_by_one(network: &Network) -> Vec<Vec<u8>> {
    let mut texts = vec![write(network)];
    for edge in 0..network.edges.len() {
        for change in [1, -1] {
            let mut changed = network.clone();
            changed.edges[edge].flow = changed.edges[edge].flow.saturating_add_signed(change);
            texts.push(write(&changed));
        }
    }
    texts
}

/// Texts far longer than a board's.
fn great_texts() -> Vec<Vec<u8>> {
    let fill = |start: &str, byte: u8| {
        let mut text = start.as_bytes().to_vec();
        text.resize(GREATEST, byte);
        text
    };
    vec![fill("", b'7'), fill("B,2,1,1,0\nC,0,1,", b'7'), fill("B", b','), fill(T, b'\n'), fill("B,2,1,1,2\n", 0)]
}

/// All texts, each once. The last one is accepted, so that what goes before it is seen to have been read to its end.
pub fn texts() -> Vec<Vec<u8>> {
    let mut texts: Vec<Vec<u8>> = vec![S.into(), T.into()];
    texts.extend(BY_HAND.iter().map(|text| text.replace(' ', "\n").into_bytes()));
    texts.extend(at_every_field(S.as_bytes()));
    texts.extend(every_start(T.as_bytes()));
    texts.extend(surplus(S.as_bytes()));
    texts.push(T.replace('\n', "\r\n").into_bytes());
    texts.push([b"\xef\xbb\xbf", S.as_bytes()].concat());
    texts.extend(off_by_one(&star()));
    let longest = write(&longest_board());
    assert_eq!(longest.len(), LONGEST);
    texts.extend(surplus(&longest));
    texts.push(longest[..LONGEST - 1].to_vec());
    texts.push(longest);
    texts.push(write(&greatest_sums()));
    texts.extend(off_by_one(&greatest_sums()).into_iter().take(2));
    texts.push(write(&many_rounds()));
    let mut rng = Random::new(2026);
    for _ in 0..60 {
        let network = random_board(&mut rng);
        texts.push(write(&network));
        texts.push(damaged(&mut rng, &network));
    }
    texts.extend(great_texts());
    texts.push(b"B,2,1,1,1\nC,1,0,1\nW,0,1\n".to_vec());
    let mut seen = std::collections::BTreeSet::new();
    texts.retain(|text| seen.insert(text.clone()));
    texts
}
