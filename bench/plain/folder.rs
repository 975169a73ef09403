//! A whole run: a folder of regions, edits, ticks, light, and the folder that is written.
use crate::chunk::{Chunk, Rest};
use crate::region::{self, CHUNKS, Region};
use crate::rules::{Kinds, Rules, Wet};
use crate::state::{State, StateTable};
use crate::world::{Edit, World};
use crate::{chunk_at, light, nbt, region_of};
use std::error::Error;
use std::fs;
use std::path::{Path, PathBuf};
use std::time::Instant;

enum Slot {
    Absent,
    Kept(Vec<u8>),
    Full(Rest),
}

struct Loaded {
    name: String,
    at: (i32, i32),
    slots: Vec<Slot>,
    stamps: Vec<u32>,
}

fn load(
    path: &Path,
    table: &mut StateTable,
    chunks: &mut Vec<((i32, i32), Chunk)>,
) -> Result<Option<Loaded>, Box<dyn Error>> {
    let name = path.file_name().and_then(|name| name.to_str());
    let Some((name, at)) = name.and_then(|name| Some((name.to_owned(), region_of(name)?))) else {
        return Ok(None);
    };
    let bytes = fs::read(path)?;
    let region = Region::read(&bytes)?;
    let mut slots = Vec::with_capacity(CHUNKS);
    for index in 0..CHUNKS {
        slots.push(match region.payload(index)? {
            None => Slot::Absent,
            Some(payload) => {
                let at = chunk_at(at, index);
                match Chunk::read(nbt::decode(payload)?, at, table)? {
                    None => Slot::Kept(payload.to_vec()),
                    Some((chunk, rest)) => {
                        chunks.push((at, chunk));
                        Slot::Full(rest)
                    }
                }
            }
        });
    }
    let stamps = (0..CHUNKS).map(|index| region.stamp(index)).collect();
    Ok(Some(Loaded {
        name,
        at,
        slots,
        stamps,
    }))
}

fn read_edits(text: &str, table: &mut StateTable) -> Result<Vec<Edit>, Box<dyn Error>> {
    let mut edits = Vec::new();
    for line in text
        .lines()
        .filter(|line| !line.is_empty() && !line.starts_with('#'))
    {
        let words: Vec<&str> = line.split(' ').collect();
        let [tick, x, y, z, state] = words.as_slice() else {
            return Err("an edit has five words".into());
        };
        edits.push(Edit {
            tick: tick.parse()?,
            pos: (x.parse()?, y.parse()?, z.parse()?),
            number: table.intern(State::parse(state)?)?,
        });
    }
    edits.sort_by_key(|edit| edit.tick);
    Ok(edits)
}

/// What a run begins with.
struct Input {
    regions: Vec<Loaded>,
    world: World,
    table: StateTable,
    kinds: Kinds,
    edits: Vec<Edit>,
}

fn read_input(paths: &[PathBuf], rules: &str, edits: &str) -> Result<Input, Box<dyn Error>> {
    let rules = Rules::read(&fs::read_to_string(rules)?);
    let edits = fs::read_to_string(edits)?;
    let mut table = StateTable::new();
    let (mut regions, mut chunks) = (Vec::new(), Vec::new());
    for path in paths {
        regions.extend(load(path, &mut table, &mut chunks)?);
    }
    let edits = read_edits(&edits, &mut table)?;
    let kinds = Kinds::new(&mut table, &rules);
    Ok(Input {
        regions,
        world: World::new(chunks),
        table,
        kinds,
        edits,
    })
}

pub fn run(
    input: &str,
    output: &str,
    rules: &str,
    edits: &str,
    ticks: u32,
) -> Result<String, Box<dyn Error>> {
    let mut paths = fs::read_dir(input)?
        .map(|entry| entry.map(|entry| entry.path()))
        .collect::<Result<Vec<_>, _>>()?;
    paths.sort();
    let mut input = read_input(&paths, rules, edits)?;
    let turns = input.world.run(&input.kinds, &input.edits, ticks);
    let lights = light::light_all(&input.world, &input.kinds);
    for region in &input.regions {
        let bytes = save(
            region,
            &input.world,
            &input.kinds,
            &input.table,
            &lights,
            ticks,
        );
        fs::write(Path::new(output).join(&region.name), bytes)?;
    }
    Ok(format!("chunks {} turns {turns}", input.world.chunks.len()))
}

/// The ticks of one region, and how many microseconds they alone took.
pub fn ticks(path: &str, rules: &str, edits: &str, ticks: u32) -> Result<String, Box<dyn Error>> {
    let mut input = read_input(&[PathBuf::from(path)], rules, edits)?;
    let start = Instant::now();
    let turns = input.world.run(&input.kinds, &input.edits, ticks);
    let took = start.elapsed().as_micros();
    Ok(format!("turns {turns} us {took}"))
}

fn save(
    loaded: &Loaded,
    world: &World,
    kinds: &Kinds,
    table: &StateTable,
    lights: &[Vec<u8>],
    elapsed: u32,
) -> Vec<u8> {
    let is_source = |number| kinds.wet[usize::from(number)] == Wet::Source;
    let payload = |(index, slot): (usize, &Slot)| match slot {
        Slot::Absent => None,
        Slot::Kept(payload) => Some(payload.clone()),
        Slot::Full(rest) => {
            let (x, z) = chunk_at(loaded.at, index);
            let chunk = world
                .chunk_index(16 * x, 16 * z)
                .expect("a full chunk is loaded");
            let light = Some(lights[chunk].as_slice());
            Some(nbt::encode(
                &world.chunks[chunk].write(rest, &is_source, table, light, elapsed),
            ))
        }
    };
    let payloads: Vec<_> = loaded.slots.iter().enumerate().map(payload).collect();
    region::write(&payloads, &loaded.stamps)
}
