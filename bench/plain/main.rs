//! A plain counterpart of Anvilwater's hot paths, to measure it by. Ordinary Rust over std alone.
mod chunk;
mod fault;
mod folder;
mod light;
mod nbt;
mod plan;
mod region;
mod rule;
mod rules;
mod section;
mod state;
mod water;
mod world;

use chunk::Chunk;
use region::{CHUNKS, Region};
use state::StateTable;
use std::error::Error;
use std::fs;
use std::time::Instant;

/// The region's coordinates, of a path that ends in `r.X.Z.mca`.
pub fn region_of(path: &str) -> Option<(i32, i32)> {
    let name = path.rsplit('/').next()?;
    let (x, z) = name
        .strip_prefix("r.")?
        .strip_suffix(".mca")?
        .split_once('.')?;
    Some((x.parse().ok()?, z.parse().ok()?))
}

pub fn chunk_at(region: (i32, i32), index: usize) -> (i32, i32) {
    (
        32 * region.0 + (index % CHUNKS % 32) as i32,
        32 * region.1 + (index / 32) as i32,
    )
}

fn block(path: &str, x: i32, y: i32, z: i32) -> Result<String, Box<dyn Error>> {
    let bytes = fs::read(path)?;
    let at = region_of(path).ok_or("not a region's name")?;
    let region = Region::read(&bytes)?;
    if (x >> 9, z >> 9) != at {
        return Ok("unloaded".into());
    }
    let index = ((x >> 4) & 31) + 32 * ((z >> 4) & 31);
    let Some(payload) = region.payload(index as usize)? else {
        return Ok("unloaded".into());
    };
    let mut table = StateTable::new();
    let read = Chunk::read(nbt::decode(payload)?, (x >> 4, z >> 4), &mut table)?;
    let number = read.and_then(|(chunk, _)| chunk.number(x, y, z));
    Ok(number.map_or("unloaded".into(), |number| table.state(number).text()))
}

/// Decodes every chunk of a region, so many times.
fn decode(path: &str, rounds: u32) -> Result<String, Box<dyn Error>> {
    let bytes = fs::read(path)?;
    let region = Region::read(&bytes)?;
    let mut chunks = 0;
    let mut tally = nbt::Tally::default();
    for _ in 0..rounds {
        for index in 0..CHUNKS {
            if let Some(payload) = region.payload(index)? {
                chunks += 1;
                tally.compound(&nbt::decode(payload)?.tags);
            }
        }
    }
    Ok(format!(
        "chunks {chunks} tags {} sum {}",
        tally.tags, tally.sum
    ))
}

/// Decodes every chunk of a region, and writes a region of what was decoded.
fn recode(input: &str, output: &str) -> Result<String, Box<dyn Error>> {
    let bytes = fs::read(input)?;
    let region = Region::read(&bytes)?;
    let mut payloads = Vec::with_capacity(CHUNKS);
    for index in 0..CHUNKS {
        let payload = region.payload(index)?;
        let root = payload.map(nbt::decode).transpose()?;
        payloads.push(root.map(|root| nbt::encode(&root)));
    }
    let stamps: Vec<u32> = (0..CHUNKS).map(|index| region.stamp(index)).collect();
    let written = region::write(&payloads, &stamps);
    fs::write(output, &written)?;
    Ok(format!("bytes {}", written.len()))
}

enum Slot {
    Absent,
    Kept(Vec<u8>),
    Full(Box<(Chunk, chunk::Rest)>),
}

/// Reads every chunk of a region, and writes a region of them.
fn rewrite(input: &str, output: &str) -> Result<String, Box<dyn Error>> {
    let bytes = fs::read(input)?;
    let at = region_of(input).ok_or("not a region's name")?;
    let region = Region::read(&bytes)?;
    let mut table = StateTable::new();
    let mut slots = Vec::with_capacity(CHUNKS);
    for index in 0..CHUNKS {
        slots.push(match region.payload(index)? {
            None => Slot::Absent,
            Some(payload) => {
                match Chunk::read(nbt::decode(payload)?, chunk_at(at, index), &mut table)? {
                    None => Slot::Kept(payload.to_vec()),
                    Some(read) => Slot::Full(Box::new(read)),
                }
            }
        });
    }
    let stamps: Vec<u32> = (0..CHUNKS).map(|index| region.stamp(index)).collect();
    let write = |slot: Slot| match slot {
        Slot::Absent => None,
        Slot::Kept(payload) => Some(payload),
        Slot::Full(read) => {
            let is_source = |number| table.state(number).is_source();
            Some(nbt::encode(
                &read.0.write(&read.1, &is_source, &table, None, 0),
            ))
        }
    };
    let payloads: Vec<Option<Vec<u8>>> = slots.into_iter().map(write).collect();
    let written = region::write(&payloads, &stamps);
    fs::write(output, &written)?;
    Ok(format!("bytes {}", written.len()))
}

/// Lights a region so many times.
/// The quickest of some lightings counts.
fn light(path: &str, rules: &str, times: u32) -> Result<String, Box<dyn Error>> {
    let rules = rules::Rules::read(&fs::read_to_string(rules)?);
    let bytes = fs::read(path)?;
    let at = region_of(path).ok_or("not a region's name")?;
    let region = Region::read(&bytes)?;
    let mut table = StateTable::new();
    let mut chunks = Vec::new();
    for index in 0..CHUNKS {
        let at = chunk_at(at, index);
        if let Some(payload) = region.payload(index)?
            && let Some((chunk, _)) = Chunk::read(nbt::decode(payload)?, at, &mut table)?
        {
            chunks.push((at, chunk));
        }
    }
    let kinds = rules::Kinds::new(&mut table, &rules);
    let world = world::World::new(chunks);
    let mut lights = Vec::new();
    let mut best = u128::MAX;
    for _ in 0..times {
        let start = Instant::now();
        let lit = light::light_all(&world, &kinds);
        best = best.min(start.elapsed().as_micros());
        lights = lit;
    }
    let add = |sum: u64, byte: &u8| sum.wrapping_mul(31).wrapping_add(u64::from(*byte));
    let sum = lights.iter().flatten().fold(0, add);
    Ok(format!("chunks {} sum {sum} us {best}", lights.len()))
}

fn run(words: &[&str]) -> Result<String, Box<dyn Error>> {
    match words {
        ["block", path, x, y, z] => block(path, x.parse()?, y.parse()?, z.parse()?),
        ["decode", path, rounds] => decode(path, rounds.parse()?),
        ["recode", input, output] => recode(input, output),
        ["rewrite", input, output] => rewrite(input, output),
        ["turn", worlds] => {
            let (turns, amounts) = water::run(worlds.parse()?);
            Ok(format!("turns {turns} amounts {amounts}"))
        }
        ["plan", kind, entries, rounds] => {
            plan::run(kind, entries.parse()?, rounds.parse()?).ok_or("no such kind".into())
        }
        ["time", path, table, times] => light(path, table, times.parse()?),
        ["run", input, output, table, edits, ticks] => {
            folder::run(input, output, table, edits, ticks.parse()?)
        }
        ["ticks", path, table, edits, ticks] => folder::ticks(path, table, edits, ticks.parse()?),
        _ => Err(
            "plain block FILE X Y Z | decode FILE ROUNDS | recode IN OUT | rewrite IN OUT | turn WORLDS | plan KIND ENTRIES ROUNDS | time FILE TABLE TIMES | run IN OUT TABLE EDITS TICKS | ticks FILE TABLE EDITS TICKS"
                .into(),
        ),
    }
}

fn main() -> Result<(), Box<dyn Error>> {
    let words: Vec<String> = std::env::args().skip(1).collect();
    let words: Vec<&str> = words.iter().map(String::as_str).collect();
    println!("{}", run(&words)?);
    Ok(())
}
