//! Full chunks: their cells and water ticks, and the tags that are kept beside them.
use crate::fault::Fault;
use crate::nbt::{Named, Root, Tag, find};
use crate::section::Section;
use crate::state::{StateTable, int_of, text_of};
use crate::world::Pending;
use std::collections::HashSet;
use std::mem;

const LOWEST_SECTION: i8 = -4;
pub const SECTIONS: usize = 24;
pub const LIGHT_BYTES: usize = 2048;

#[derive(Clone, Copy)]
pub struct Entry {
    pub x: i32,
    pub y: i32,
    pub z: i32,
    pub due: i64,
    pub priority: i32,
}

pub struct Chunk {
    /// Of the whole height, lowest first.
    pub sections: Vec<Section>,
    ticks: Vec<Entry>,
    pending: Pending,
    soonest: i64,
}

/// What a chunk keeps as read. The tags that are written anew stand in it as empty lists.
pub struct Rest {
    name: Vec<u8>,
    tags: Vec<Named>,
    foreign: Vec<Tag>,
    /// Each section's tags by its number, in and out of the height.
    sections: Vec<(i8, Vec<Named>)>,
    /// The tags in `block_states` beside palette and data, by section.
    beside: Vec<Vec<Named>>,
}

fn blank() -> Tag {
    Tag::List(0, Vec::new())
}

/// Takes a tag out of its place, which stays as an empty list. One that is missing gets the last place.
fn take(tags: &mut Vec<Named>, name: &[u8]) -> Option<Tag> {
    match tags.iter_mut().find(|named| named.name == name) {
        Some(named) => Some(mem::replace(&mut named.tag, blank())),
        None => {
            tags.push(Named {
                name: name.to_vec(),
                tag: blank(),
            });
            None
        }
    }
}

fn put(tags: &mut [Named], name: &[u8], tag: Tag) {
    let place = tags.iter_mut().find(|named| named.name == name);
    place.expect("each written tag has its place").tag = tag;
}

fn compounds(list: Option<Tag>) -> Result<Vec<Vec<Named>>, Fault> {
    match list {
        Some(Tag::List(_, items)) if items.is_empty() => Ok(Vec::new()),
        Some(Tag::List(10, items)) => Ok(items
            .into_iter()
            .filter_map(|item| match item {
                Tag::Compound(tags) => Some(tags),
                _ => None,
            })
            .collect()),
        _ => Err(Fault::BadChunk),
    }
}

pub fn place_in_height(y: i8) -> Option<usize> {
    let place = usize::try_from(i32::from(y) - i32::from(LOWEST_SECTION)).ok()?;
    (place < SECTIONS).then_some(place)
}

impl Chunk {
    /// Air, and no entry.
    pub fn air() -> Chunk {
        Chunk {
            sections: (0..SECTIONS).map(|_| Section::air()).collect(),
            ticks: Vec::new(),
            pending: Pending::new(SECTIONS),
            soonest: soonest_of(&[]),
        }
    }

    /// None where the chunk is not full.
    pub fn read(
        root: Root,
        at: (i32, i32),
        table: &mut StateTable,
    ) -> Result<Option<(Chunk, Rest)>, Fault> {
        let Root { name, mut tags } = root;
        if find(&tags, b"Level").is_some() {
            return Err(Fault::OldLayout);
        }
        let status = text_of(&tags, b"Status").ok_or(Fault::BadChunk)?;
        if status != b"full" && status != b"minecraft:full" {
            return Ok(None);
        }
        let x = int_of(&tags, b"xPos").ok_or(Fault::BadChunk)?;
        let z = int_of(&tags, b"zPos").ok_or(Fault::BadChunk)?;
        let read_sections = compounds(take(&mut tags, b"sections"))?;
        let fluid_ticks = compounds(take(&mut tags, b"fluid_ticks").or(Some(blank())))?;
        let numbers = section_numbers(&read_sections)?;
        if (x, z) != at {
            return Err(Fault::WrongPlace);
        }
        let (ticks, foreign) = read_ticks(fluid_ticks, at)?;
        let mut sections: Vec<Section> = (0..SECTIONS).map(|_| Section::air()).collect();
        let mut beside: Vec<Vec<Named>> = (0..SECTIONS).map(|_| Vec::new()).collect();
        let mut kept = Vec::with_capacity(read_sections.len());
        for (y, mut tags) in numbers.into_iter().zip(read_sections) {
            if let Some(place) = place_in_height(y) {
                (sections[place], beside[place]) = read_section(&mut tags, table)?;
            }
            kept.push((y, tags));
        }
        add_missing(&mut kept);
        let mut pending = Pending::new(SECTIONS);
        for entry in &ticks {
            pending.insert(entry.x, entry.y, entry.z);
        }
        let soonest = soonest_of(&ticks);
        let chunk = Chunk {
            sections,
            ticks,
            pending,
            soonest,
        };
        Ok(Some((
            chunk,
            Rest {
                name,
                tags,
                foreign,
                sections: kept,
                beside,
            },
        )))
    }

    /// The state's number at a position of the chunk.
    pub fn number(&self, x: i32, y: i32, z: i32) -> Option<u16> {
        let place = place_in_height(i8::try_from(y.div_euclid(16)).ok()?)?;
        let cell = 256 * y.rem_euclid(16) + 16 * z.rem_euclid(16) + x.rem_euclid(16);
        Some(self.sections[place].get(cell as usize))
    }

    pub fn set(&mut self, x: i32, y: i32, z: i32, number: u16) {
        if let Some(place) = i8::try_from(y.div_euclid(16))
            .ok()
            .and_then(place_in_height)
        {
            let cell = 256 * y.rem_euclid(16) + 16 * z.rem_euclid(16) + x.rem_euclid(16);
            self.sections[place].set(cell as usize, number);
        }
    }

    /// Appends an entry, unless one of its block waits.
    pub fn add(&mut self, entry: Entry) {
        if self.pending.insert(entry.x, entry.y, entry.z) {
            self.soonest = self.soonest.min(entry.due);
            self.ticks.push(entry);
        }
    }

    /// Moves the entries that are due out of the list.
    pub fn take_due(&mut self, now: u32, due: &mut Vec<Entry>) {
        let now = i64::from(now);
        if self.soonest > now {
            return;
        }
        let pending = &mut self.pending;
        self.ticks.retain(|entry| {
            if entry.due <= now {
                pending.remove(entry.x, entry.y, entry.z);
                due.push(*entry);
            }
            entry.due > now
        });
        self.soonest = soonest_of(&self.ticks);
    }

    /// The chunk's tags, after so many ticks. Its light is that given, or dark.
    pub fn write(
        &self,
        rest: &Rest,
        is_source: &impl Fn(u16) -> bool,
        table: &StateTable,
        light: Option<&[u8]>,
        elapsed: u32,
    ) -> Root {
        let mut tags = rest.tags.clone();
        let sections = rest
            .sections
            .iter()
            .map(|(y, tags)| self.write_section(*y, tags, rest, table, light))
            .collect();
        put(&mut tags, b"sections", Tag::List(10, sections));
        let own = self
            .ticks
            .iter()
            .map(|entry| self.write_tick(entry, is_source, elapsed));
        let ticks = rest.foreign.iter().cloned().chain(own).collect();
        put(&mut tags, b"fluid_ticks", Tag::List(10, ticks));
        Root {
            name: rest.name.clone(),
            tags,
        }
    }

    fn write_section(
        &self,
        y: i8,
        tags: &[Named],
        rest: &Rest,
        table: &StateTable,
        light: Option<&[u8]>,
    ) -> Tag {
        let mut tags = tags.to_vec();
        if let Some(place) = place_in_height(y) {
            let (palette, longs) = self.sections[place].write(table);
            let mut states = vec![Named {
                name: b"palette".to_vec(),
                tag: Tag::List(10, palette),
            }];
            states.extend(longs.map(|longs| Named {
                name: b"data".to_vec(),
                tag: Tag::LongArray(longs),
            }));
            states.extend_from_slice(&rest.beside[place]);
            put(&mut tags, b"block_states", Tag::Compound(states));
            put(
                &mut tags,
                b"BlockLight",
                Tag::ByteArray(light.map_or_else(
                    || vec![0; LIGHT_BYTES],
                    |light| light[LIGHT_BYTES * place..][..LIGHT_BYTES].to_vec(),
                )),
            );
        }
        Tag::Compound(tags)
    }

    fn write_tick(&self, entry: &Entry, is_source: &impl Fn(u16) -> bool, elapsed: u32) -> Tag {
        let source = self
            .number(entry.x, entry.y, entry.z)
            .is_some_and(is_source);
        let fluid: &[u8] = if source {
            b"minecraft:water"
        } else {
            b"minecraft:flowing_water"
        };
        let int = |name: &[u8], value| Named {
            name: name.to_vec(),
            tag: Tag::Int(value),
        };
        Tag::Compound(vec![
            Named {
                name: b"i".to_vec(),
                tag: Tag::Text(fluid.to_vec()),
            },
            int(b"x", entry.x),
            int(b"y", entry.y),
            int(b"z", entry.z),
            int(b"t", (entry.due - i64::from(elapsed)) as i32),
            int(b"p", entry.priority),
        ])
    }
}

fn soonest_of(ticks: &[Entry]) -> i64 {
    ticks
        .iter()
        .map(|entry| entry.due)
        .min()
        .unwrap_or(i64::MAX)
}

/// The sections' numbers, each there once; in the height `block_states` is a Compound.
fn section_numbers(sections: &[Vec<Named>]) -> Result<Vec<i8>, Fault> {
    let mut seen = [false; 256];
    let mut numbers = Vec::with_capacity(sections.len());
    for tags in sections {
        let Some(Tag::Byte(y)) = find(tags, b"Y") else {
            return Err(Fault::BadChunk);
        };
        let states = find(tags, b"block_states");
        let odd = place_in_height(*y).is_some() && !matches!(states, None | Some(Tag::Compound(_)));
        if odd || mem::replace(&mut seen[usize::from(*y as u8)], true) {
            return Err(Fault::BadChunk);
        }
        numbers.push(*y);
    }
    Ok(numbers)
}

fn read_section(
    tags: &mut Vec<Named>,
    table: &mut StateTable,
) -> Result<(Section, Vec<Named>), Fault> {
    let states = take(tags, b"block_states");
    take(tags, b"BlockLight");
    let Some(Tag::Compound(states)) = states else {
        return Ok((Section::air(), Vec::new()));
    };
    let (mut palette, mut data, mut beside) = (None, None, Vec::new());
    for named in states {
        match named.name.as_slice() {
            b"palette" => palette = Some(named.tag),
            b"data" => data = Some(named.tag),
            _ => beside.push(named),
        }
    }
    let section = Section::read(palette.ok_or(Fault::BadPalette)?, data, table)?;
    Ok((section, beside))
}

/// Makes each section of the height stand in the list, by rising number.
fn add_missing(sections: &mut Vec<(i8, Vec<Named>)>) {
    let present: HashSet<i8> = sections.iter().map(|(y, _)| *y).collect();
    for y in (LOWEST_SECTION..)
        .take(SECTIONS)
        .filter(|y| !present.contains(y))
    {
        let named = |name: &[u8], tag| Named {
            name: name.to_vec(),
            tag,
        };
        sections.push((
            y,
            vec![
                named(b"Y", Tag::Byte(y)),
                named(b"block_states", blank()),
                named(b"BlockLight", blank()),
            ],
        ));
    }
    sections.sort_by_key(|(y, _)| *y);
}

/// The water entries, one a position, and all other entries.
fn read_ticks(entries: Vec<Vec<Named>>, at: (i32, i32)) -> Result<(Vec<Entry>, Vec<Tag>), Fault> {
    let (mut ticks, mut foreign, mut taken) = (Vec::new(), Vec::new(), HashSet::new());
    for tags in entries {
        let fluid = text_of(&tags, b"i").ok_or(Fault::BadTick)?;
        let water = fluid == b"minecraft:water" || fluid == b"minecraft:flowing_water";
        let int = |name: &[u8]| int_of(&tags, name);
        let numbers = (int(b"x"), int(b"y"), int(b"z"), int(b"t"), int(b"p"));
        match numbers {
            (Some(x), Some(y), Some(z), Some(t), Some(priority)) if water && tags.len() == 6 => {
                let inside = (x >> 4, z >> 4) == at
                    && i8::try_from(y >> 4).is_ok_and(|y| place_in_height(y).is_some());
                if !inside {
                    return Err(Fault::BadTick);
                }
                if taken.insert((x, y, z)) {
                    ticks.push(Entry {
                        x,
                        y,
                        z,
                        due: t.into(),
                        priority,
                    });
                }
            }
            _ => foreign.push(Tag::Compound(tags)),
        }
    }
    Ok((ticks, foreign))
}
