//! The plan of a tick: its entries in parts that share no section of 16 blocks a side.
use crate::chunk::{Chunk, Entry, place_in_height};
use crate::rule::Pos;
use crate::world::World;
use std::collections::HashMap;
use std::collections::hash_map;

/// x, y and z, in sections.
type SectionPos = (i32, i32, i32);

struct Part {
    /// With their indices in the tick.
    entries: Vec<(usize, Entry)>,
    sections: Vec<SectionPos>,
}

/// Calls with each loaded section that a turn may read or change.
fn for_territory(world: &World, (x, y, z): Pos, mut found: impl FnMut(SectionPos)) {
    for section_z in (z - 5) >> 4..=(z + 5) >> 4 {
        for section_x in (x - 5) >> 4..=(x + 5) >> 4 {
            if world.chunk_index(section_x << 4, section_z << 4).is_some() {
                for section_y in (y - 2) >> 4..=(y + 1) >> 4 {
                    let number = i8::try_from(section_y).ok();
                    if number.and_then(place_in_height).is_some() {
                        found((section_x, section_y, section_z));
                    }
                }
            }
        }
    }
}

/// The first index of the group of one. Halves the way to it.
fn find(parents: &mut [usize], mut index: usize) -> usize {
    while parents[index] != index {
        parents[index] = parents[parents[index]];
        index = parents[index];
    }
    index
}

fn join(parents: &mut [usize], a: usize, b: usize) {
    let (a, b) = (find(parents, a), find(parents, b));
    parents[a.max(b)] = a.min(b);
}

fn plan(world: &World, entries: &[Entry]) -> Vec<Part> {
    let mut owners: HashMap<SectionPos, usize> = HashMap::new();
    let mut parents: Vec<usize> = (0..entries.len()).collect();
    for (index, entry) in entries.iter().enumerate() {
        for_territory(world, (entry.x, entry.y, entry.z), |section| {
            match owners.entry(section) {
                hash_map::Entry::Occupied(owner) => join(&mut parents, *owner.get(), index),
                hash_map::Entry::Vacant(free) => {
                    free.insert(index);
                }
            }
        });
    }
    let mut parts: Vec<Part> = Vec::new();
    let mut numbers = Vec::with_capacity(entries.len());
    for (index, entry) in entries.iter().enumerate() {
        let first = find(&mut parents, index);
        let number = if first == index {
            parts.push(Part {
                entries: Vec::new(),
                sections: Vec::new(),
            });
            parts.len() - 1
        } else {
            numbers[first]
        };
        numbers.push(number);
        parts[number].entries.push((index, *entry));
    }
    for (section, owner) in owners {
        parts[numbers[owner]].sections.push(section);
    }
    parts
}

/// The block of the entry with a number, in a square of 32 chunks a side.
fn place_of(kind: &str, number: u32) -> Option<Pos> {
    let mixed = number.wrapping_mul(2_654_435_761);
    match kind {
        // One layer of water, row after row.
        "lake" => Some(((number % 512) as i32, 62, (number / 512 % 512) as i32)),
        // Anywhere.
        "spread" => Some((
            (mixed / 1024 % 512) as i32,
            (mixed / 524_288 % 384) as i32 - 64,
            (mixed % 512) as i32,
        )),
        // In the middles of sections, so that each section is a part of its own.
        "pools" => {
            let (low, mixed) = (number % 1024, mixed / 65_536);
            Some((
                (low % 32 * 16 + 6 + mixed % 4) as i32,
                (mixed / 16 % 24 * 16) as i32 - 60,
                (low / 32 * 16 + 6 + mixed / 4 % 4) as i32,
            ))
        }
        _ => None,
    }
}

fn entry_of(kind: &str, number: u32) -> Option<Entry> {
    let (x, y, z) = place_of(kind, number)?;
    Some(Entry {
        x,
        y,
        z,
        due: 5,
        priority: 0,
    })
}

/// The sums of the entries' indices and of the sections' coordinates, each times the number of its part.
fn sums_of(parts: &[Part]) -> (u64, i64) {
    let (mut indices, mut sections) = (0u64, 0i64);
    for (number, part) in (1i64..).zip(parts) {
        let of_part: u64 = part.entries.iter().map(|(index, _)| *index as u64).sum();
        indices = indices.wrapping_add((number as u64).wrapping_mul(of_part));
        for (x, y, z) in &part.sections {
            let section = i64::from(*x) + 1_000 * i64::from(*y) + 1_000_000 * i64::from(*z);
            sections = sections.wrapping_add(number.wrapping_mul(section));
        }
    }
    (indices, sections)
}

/// Plans so many entries, so many times.
pub fn run(kind: &str, count: u32, rounds: u32) -> Option<String> {
    let chunks = (0..1024).map(|index| ((index % 32, index / 32), Chunk::air()));
    let world = World::new(chunks.collect());
    let entries: Vec<Entry> = (0..count)
        .map(|number| entry_of(kind, number))
        .collect::<Option<_>>()?;
    let (mut parts, mut sums) = (0, (0, 0));
    for _ in 0..rounds {
        let plan = plan(&world, &entries);
        parts = plan.len();
        sums = sums_of(&plan);
    }
    let (indices, sections) = sums;
    Some(format!("parts {parts} indices {indices} sections {sections}"))
}
