//! Texts loaded by engine and reference, good and damaged, and written back.

use crate::driven::{Driven, BOARD_TEXT};
use crate::noise::compare_unloaded;
use crate::tally::{same, Tally};
use reference::cancelling::acyclic_flows;
use reference::engine::Game;
use reference::random::Random;
use reference::text::{flows, read, write, Network};

/// A board with cycles beside the one without them: both show the same, yet they are other games, since their texts are others.
fn compare_without_cycles(driven: &Driven, mut network: Network, acyclic_flows: &[u64], tally: &mut Tally) -> Result<(), String> {
    network.edges.iter_mut().zip(acyclic_flows).for_each(|(edge, flow)| edge.flow = *flow);
    let mut other = Game::anywhere();
    same(driven.text, 0, other.load(&write(&network)))?;
    same(driven.text, driven.game.look(), other.look())?;
    tally.count("with cycles");
    match driven.game.bytes() == other.bytes() {
        false => Ok(()),
        true => Err(format!("the games with and without cycles are equal\nas text:\n{}", String::from_utf8_lossy(driven.text))),
    }
}

/// A text loaded by both, and written into a buffer of this length, which held something else before. The load of an accepted text has given the same
/// bytes as another one; a refused one leaves the closed board.
pub fn compare_load(rng: &mut Random, text: &[u8], length: usize, tally: &mut Tally) -> Result<(), String> {
    let mut driven = Driven::load(rng, text, tally)?;
    driven.compare_whole(tally)?;
    driven.compare_text(&BOARD_TEXT, rng.bytes(length), tally)?;
    let Ok(network) = read(text) else {
        return if rng.chance(1, 4) { compare_unloaded(rng, &mut driven.game, tally) } else { Ok(()) };
    };
    driven.compare_standing(rng)?;
    let acyclic_flows = acyclic_flows(&network);
    if acyclic_flows != flows(&network) {
        compare_without_cycles(&driven, network, &acyclic_flows, tally)?;
    }
    Ok(())
}
