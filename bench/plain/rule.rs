//! The rule of water, over any blocks.
use crate::rules::Wet;

pub type Pos = (i32, i32, i32);

/// North, south, west, east, as steps of x and z.
pub const DIRECTIONS: [(i32, i32); 4] = [(0, -1), (0, 1), (-1, 0), (1, 0)];

pub fn beside((x, y, z): Pos, (dx, dz): (i32, i32)) -> Pos {
    (x + dx, y, z + dz)
}

pub fn below((x, y, z): Pos) -> Pos {
    (x, y - 1, z)
}

pub fn above((x, y, z): Pos) -> Pos {
    (x, y + 1, z)
}

/// A block and its six neighbours, in the order in which they are woken.
pub fn around(pos: Pos) -> [Pos; 7] {
    let [north, south, west, east] = DIRECTIONS.map(|d| beside(pos, d));
    [pos, below(pos), above(pos), north, south, west, east]
}

/// Blocks that water flows over. One that is not there is dry, shut and a floor.
pub trait Blocks {
    fn wet(&self, pos: Pos) -> Wet;

    fn is_open(&self, pos: Pos) -> bool;

    fn is_floor(&self, pos: Pos) -> bool;

    /// Sets a block to air or water, and wakes it and its six neighbours.
    fn set(&mut self, pos: Pos, wet: Wet);

    fn can_enter(&self, pos: Pos) -> bool {
        self.is_open(pos) && !self.wet(pos).is_wet()
    }

    fn has_hole(&self, pos: Pos) -> bool {
        let under = below(pos);
        self.wet(under).is_wet() || self.can_enter(under)
    }

    fn can_pass(&self, pos: Pos) -> bool {
        let wet = self.wet(pos);
        wet != Wet::Source && (wet.is_wet() || self.is_open(pos))
    }

    fn sources(&self, pos: Pos) -> usize {
        let sides = DIRECTIONS.iter();
        sides
            .filter(|d| self.wet(beside(pos, **d)) == Wet::Source)
            .count()
    }

    fn incoming(&self, pos: Pos) -> Wet {
        let under = below(pos);
        if self.sources(pos) >= 2 && (self.is_floor(under) || self.wet(under) == Wet::Source) {
            return Wet::Source;
        }
        if self.wet(above(pos)).is_wet() {
            return Wet::Falling;
        }
        let sides = DIRECTIONS.iter();
        match sides.map(|d| self.wet(beside(pos, *d)).amount()).max() {
            Some(most @ 2..) => Wet::Flow(most - 1),
            _ => Wet::Dry,
        }
    }

    /// The length of the shortest walk from the block in that direction to a hole, at most 4.
    fn drop_distance(&self, pos: Pos, direction: (i32, i32)) -> Option<u8> {
        let first = beside(pos, direction);
        let bit = |(x, _, z): Pos| 1u128 << (9 * (z - first.2 + 4) + x - first.0 + 4);
        // The blocks within four steps of the first are 41.
        let mut queue = [(first, 0); 41];
        let (mut next, mut end, mut seen) = (0, 1, bit(first));
        while next < end {
            let (at, distance) = queue[next];
            next += 1;
            if !self.can_pass(at) {
                continue;
            }
            if self.has_hole(at) {
                return Some(distance);
            }
            for direction in DIRECTIONS.iter().filter(|_| distance < 4) {
                let beyond = beside(at, *direction);
                if seen & bit(beyond) == 0 {
                    seen |= bit(beyond);
                    queue[end] = (beyond, distance + 1);
                    end += 1;
                }
            }
        }
        None
    }

    /// The sides that can be entered with the least drop, each with its incoming water; all of them where none has a drop.
    fn chosen(&self, pos: Pos) -> [Option<(Pos, Wet)>; 4] {
        let enterable = DIRECTIONS.map(|d| self.can_enter(beside(pos, d)));
        let drops: [Option<u8>; 4] = std::array::from_fn(|i| {
            let open = enterable[i];
            open.then(|| self.drop_distance(pos, DIRECTIONS[i]))
                .flatten()
        });
        let least = drops.iter().flatten().min();
        std::array::from_fn(|i| {
            let side = beside(pos, DIRECTIONS[i]);
            let taken = enterable[i] && (least.is_none() || drops[i].as_ref() == least);
            taken.then(|| (side, self.incoming(side)))
        })
    }

    fn turn(&mut self, pos: Pos) {
        let wet = self.wet(pos);
        if !wet.is_wet() {
            return;
        }
        if wet != Wet::Source {
            let incoming = self.incoming(pos);
            if incoming != wet {
                self.set(pos, incoming);
            }
            if incoming == Wet::Dry {
                return;
            }
        }
        let under = below(pos);
        let spreads = if self.can_enter(under) {
            self.set(under, self.incoming(under));
            self.sources(pos) >= 3
        } else {
            self.wet(pos) == Wet::Source || !self.has_hole(pos)
        };
        if spreads && self.wet(pos).amount() >= 2 {
            for (side, wet) in self.chosen(pos).into_iter().flatten() {
                self.set(side, wet);
            }
        }
    }
}
