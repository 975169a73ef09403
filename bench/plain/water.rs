//! The rule of water on a small flat world: five layers of air in one chunk. The world ends below them, which is floor.
use crate::rule::{Blocks, Pos, around, below};
use crate::rules::Wet;

const SIDE: i32 = 16;
const LAYERS: i32 = 5;

pub struct World {
    /// Each is air or water.
    cells: Vec<Wet>,
    /// Which cells have an entry that waits, by index.
    pending: Vec<bool>,
    entries: Vec<Pos>,
}

impl World {
    pub fn flat() -> World {
        let cells = vec![Wet::Dry; (LAYERS * SIDE * SIDE) as usize];
        World {
            pending: vec![false; cells.len()],
            cells,
            entries: Vec::new(),
        }
    }

    fn index((x, y, z): Pos) -> Option<usize> {
        let inside = (0..SIDE).contains(&x) && (0..LAYERS).contains(&y) && (0..SIDE).contains(&z);
        inside.then_some((SIDE * (SIDE * y + z) + x) as usize)
    }

    fn wake(&mut self, pos: Pos) {
        let Some(index) = World::index(pos) else {
            return;
        };
        if self.cells[index].is_wet() && !self.pending[index] {
            self.pending[index] = true;
            self.entries.push(pos);
        }
    }

    fn amounts(&self) -> u64 {
        self.cells.iter().map(|cell| u64::from(cell.amount())).sum()
    }
}

impl Blocks for World {
    fn wet(&self, pos: Pos) -> Wet {
        World::index(pos).map_or(Wet::Dry, |index| self.cells[index])
    }

    fn is_open(&self, pos: Pos) -> bool {
        World::index(pos).is_some()
    }

    fn is_floor(&self, pos: Pos) -> bool {
        World::index(pos).is_none()
    }

    fn can_enter(&self, pos: Pos) -> bool {
        World::index(pos).is_some_and(|index| self.cells[index] == Wet::Dry)
    }

    fn can_pass(&self, pos: Pos) -> bool {
        World::index(pos).is_some_and(|index| self.cells[index] != Wet::Source)
    }

    fn has_hole(&self, pos: Pos) -> bool {
        World::index(below(pos)).is_some()
    }

    fn set(&mut self, pos: Pos, wet: Wet) {
        if let Some(index) = World::index(pos) {
            self.cells[index] = wet;
            for pos in around(pos) {
                self.wake(pos);
            }
        }
    }
}

/// So many worlds, in each of which a source spreads and each cell that it wakes is turned once.
/// The answer is the number of turns, and the sum of all amounts of each world at its end.
pub fn run(worlds: u64) -> (u64, u64) {
    let (mut turns, mut amounts) = (0, 0);
    for _ in 0..worlds {
        let mut world = World::flat();
        world.set((8, 2, 8), Wet::Source);
        let mut place = 0;
        while let Some(pos) = world.entries.get(place).copied() {
            world.turn(pos);
            place += 1;
        }
        turns += place as u64;
        amounts += world.amounts();
    }
    (turns, amounts)
}
