//! Block light, spread from the brightest level down.
use crate::chunk::{LIGHT_BYTES, SECTIONS};
use crate::rule::Pos;
use crate::rules::Kinds;
use crate::world::World;

const SIDES: [Pos; 6] = [
    (0, -1, 0),
    (0, 1, 0),
    (0, 0, -1),
    (0, 0, 1),
    (-1, 0, 0),
    (1, 0, 0),
];

/// Each chunk's light, half a byte a block, in the order of the world's chunks.
pub fn light_all(world: &World, kinds: &Kinds) -> Vec<Vec<u8>> {
    let mut lights = vec![vec![0u8; LIGHT_BYTES * SECTIONS]; world.chunks.len()];
    let mut waiting: [Vec<Pos>; 16] = Default::default();
    for (chunk, (x, z)) in world.chunks.iter().zip(&world.places) {
        for (section, y) in chunk.sections.iter().zip((-64..).step_by(16)) {
            let emits = |number: &u16| kinds.rows[usize::from(*number)].emission > 0;
            if !section.palette().iter().any(emits) {
                continue;
            }
            section.for_each(|place, number| {
                let emission = kinds.rows[usize::from(number)].emission;
                if emission > 0 {
                    let place = place as i32;
                    waiting[usize::from(emission)].push((
                        16 * x + place % 16,
                        y + place / 256,
                        16 * z + place / 16 % 16,
                    ));
                }
            });
        }
    }
    for level in (1..16).rev() {
        for pos in std::mem::take(&mut waiting[level]) {
            settle(world, kinds, &mut lights, &mut waiting, pos, level as u8);
        }
    }
    lights
}

/// The chunk, the byte and the half of a loaded block.
fn half_of(world: &World, (x, y, z): Pos) -> Option<(usize, usize, u32)> {
    if !(-64..320).contains(&y) {
        return None;
    }
    let chunk = world.chunk_index(x, z)?;
    let place = (256 * (y + 64) + 16 * (z & 15) + (x & 15)) as usize;
    Some((chunk, place / 2, 4 * (place % 2) as u32))
}

fn settle(
    world: &World,
    kinds: &Kinds,
    lights: &mut [Vec<u8>],
    waiting: &mut [Vec<Pos>; 16],
    pos: Pos,
    level: u8,
) {
    let Some((chunk, byte, shift)) = half_of(world, pos) else {
        return;
    };
    if lights[chunk][byte] >> shift & 15 != 0 {
        return;
    }
    lights[chunk][byte] |= level << shift;
    for (dx, dy, dz) in SIDES {
        let side = (pos.0 + dx, pos.1 + dy, pos.2 + dz);
        let Some((chunk, byte, shift)) = half_of(world, side) else {
            continue;
        };
        if lights[chunk][byte] >> shift & 15 != 0 {
            continue;
        }
        if let Some(number) = world.number(side) {
            let cost = kinds.rows[usize::from(number)].opacity.max(1);
            if level > cost {
                waiting[usize::from(level - cost)].push(side);
            }
        }
    }
}
