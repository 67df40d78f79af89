//! Edges of the pages: the last of them full, and one instruction more.

use super::{Edge, Numbered, small, step};
use crate::slow::kernel::SET;
use crate::slow::lowered;
use crate::writer::Step;

pub fn edges() -> Vec<Edge> {
    [55, 56, 110, 111].map(filled).into()
}

/// A kernel of so many instructions at level 2: SETs behind those of a small one.
fn filled(count: usize) -> Edge {
    Edge::new(&format!("{count} instructions at level 2"), 0, move |random| {
        let fewest = count.div_ceil(64);
        let lanes = fewest + random.below(5 - fewest);
        let mut draft = small(random, lanes);
        let written = lowered(2, &draft.file()).map_or(0, |sheet| (sheet.len() - 16) / 8);
        for _ in written..count {
            let open: Vec<usize> = (0..lanes).filter(|lane| draft.lanes[*lane].len() < 64).collect();
            let constant = random.draw() as u32;
            draft.lanes[random.pick(&open)].push(Step { constant, ..step(SET, 1, 0) });
        }
        (Numbered::new(random, &draft).file, 0)
    })
}
