//! Loaded chunks as one world: its blocks, its scheduled water ticks, and the rule of water over them.
use crate::chunk::{Chunk, Entry, place_in_height};
use crate::rule::{Blocks, Pos, around};
use crate::rules::{Kinds, Wet};
use std::cell::Cell;
use std::collections::HashMap;

pub struct World {
    /// By rising (z, x).
    pub places: Vec<(i32, i32)>,
    pub chunks: Vec<Chunk>,
    index: HashMap<(i32, i32), usize>,
    /// The chunk that was looked up last, by the lowest bits of its coordinates.
    last: [Cell<((i32, i32), usize)>; 4],
}

#[derive(Clone)]
pub struct Edit {
    pub tick: u32,
    pub pos: Pos,
    pub number: u16,
}

impl World {
    pub fn new(mut chunks: Vec<((i32, i32), Chunk)>) -> World {
        chunks.sort_by_key(|((x, z), _)| (*z, *x));
        let (places, chunks): (Vec<_>, Vec<_>) = chunks.into_iter().unzip();
        let index = places.iter().copied().zip(0..).collect();
        let nowhere = ((i32::MAX, i32::MAX), 0);
        World {
            places,
            chunks,
            index,
            last: std::array::from_fn(|_| Cell::new(nowhere)),
        }
    }

    pub fn chunk_index(&self, x: i32, z: i32) -> Option<usize> {
        let at = (x >> 4, z >> 4);
        let slot = &self.last[((at.0 & 1) + 2 * (at.1 & 1)) as usize];
        let (last, index) = slot.get();
        if last == at {
            return Some(index);
        }
        let index = *self.index.get(&at)?;
        slot.set((at, index));
        Some(index)
    }

    pub fn number(&self, (x, y, z): Pos) -> Option<u16> {
        let index = self.chunk_index(x, z)?;
        self.chunks[index].number(x, y, z)
    }

    /// Sets a block, and wakes it and its six neighbours.
    pub fn set(&mut self, kinds: &Kinds, now: u32, pos: Pos, number: u16) {
        if let Some(index) = self.chunk_index(pos.0, pos.2) {
            self.chunks[index].set(pos.0, pos.1, pos.2, number);
        }
        for pos in around(pos) {
            self.wake(kinds, now, pos);
        }
    }

    fn wake(&mut self, kinds: &Kinds, now: u32, pos: Pos) {
        if !self.wet(kinds, pos).is_wet() {
            return;
        }
        if let Some(index) = self.chunk_index(pos.0, pos.2) {
            self.chunks[index].add(Entry {
                x: pos.0,
                y: pos.1,
                z: pos.2,
                due: i64::from(now) + 5,
                priority: 0,
            });
        }
    }

    fn wet(&self, kinds: &Kinds, pos: Pos) -> Wet {
        self.number(pos)
            .map_or(Wet::Dry, |number| kinds.wet[usize::from(number)])
    }

    /// The edits of the tick, and then all that is due, by (due, priority, chunk z, chunk x, place in the list).
    fn tick(&mut self, kinds: &Kinds, now: u32, edits: &[Edit]) -> u64 {
        for edit in edits {
            self.set(kinds, now, edit.pos, edit.number);
        }
        let mut due = Vec::new();
        for chunk in &mut self.chunks {
            chunk.take_due(now, &mut due);
        }
        due.sort_by_key(|entry| (entry.due, entry.priority));
        let mut turning = Turning {
            world: self,
            kinds,
            now,
        };
        for entry in &due {
            turning.turn((entry.x, entry.y, entry.z));
        }
        due.len() as u64
    }

    /// Ticks 1 to n. The edits are sorted by tick, stably.
    pub fn run(&mut self, kinds: &Kinds, edits: &[Edit], n: u32) -> u64 {
        let mut turns = 0;
        let mut left = edits;
        for now in 1..=n {
            let (these, later) = left.split_at(left.partition_point(|edit| edit.tick <= now));
            left = later;
            turns += self.tick(kinds, now, these);
        }
        turns
    }
}

/// A world in a tick.
struct Turning<'a> {
    world: &'a mut World,
    kinds: &'a Kinds,
    now: u32,
}

impl Blocks for Turning<'_> {
    fn wet(&self, pos: Pos) -> Wet {
        self.world.wet(self.kinds, pos)
    }

    fn is_open(&self, pos: Pos) -> bool {
        let number = self.world.number(pos);
        number.is_some_and(|number| self.kinds.rows[usize::from(number)].open)
    }

    fn is_floor(&self, pos: Pos) -> bool {
        let number = self.world.number(pos);
        number.is_none_or(|number| self.kinds.rows[usize::from(number)].floor)
    }

    fn can_enter(&self, pos: Pos) -> bool {
        self.world.number(pos).is_some_and(|number| {
            let number = usize::from(number);
            self.kinds.rows[number].open && !self.kinds.wet[number].is_wet()
        })
    }

    fn can_pass(&self, pos: Pos) -> bool {
        self.world.number(pos).is_some_and(|number| {
            let wet = self.kinds.wet[usize::from(number)];
            wet != Wet::Source && (wet.is_wet() || self.kinds.rows[usize::from(number)].open)
        })
    }

    fn set(&mut self, pos: Pos, wet: Wet) {
        let number = self.kinds.number_of(wet);
        self.world.set(self.kinds, self.now, pos, number);
    }
}

/// Sixty-four blocks a word: which blocks of a section an entry waits for.
#[derive(Default)]
pub struct Pending(Vec<Option<Box<[u64; 64]>>>);

impl Pending {
    pub fn new(sections: usize) -> Pending {
        Pending((0..sections).map(|_| None).collect())
    }

    fn slot(x: i32, y: i32, z: i32) -> Option<(usize, usize, u64)> {
        let section = place_in_height(i8::try_from(y.div_euclid(16)).ok()?)?;
        let place = 256 * (y & 15) + 16 * (z & 15) + (x & 15);
        Some((section, (place / 64) as usize, 1 << (place % 64)))
    }

    /// Whether the block was new.
    pub fn insert(&mut self, x: i32, y: i32, z: i32) -> bool {
        let Some((section, word, bit)) = Pending::slot(x, y, z) else {
            return false;
        };
        let words = self.0[section].get_or_insert_with(|| Box::new([0; 64]));
        let new = words[word] & bit == 0;
        words[word] |= bit;
        new
    }

    pub fn remove(&mut self, x: i32, y: i32, z: i32) {
        if let Some((section, word, bit)) = Pending::slot(x, y, z)
            && let Some(words) = &mut self.0[section]
        {
            words[word] &= !bit;
        }
    }
}
