//! Block states, numbered in order of first sight.
use crate::fault::Fault;
use crate::nbt::{Named, Tag, find};
use std::collections::HashMap;

#[derive(Clone, Debug, PartialEq, Eq, Hash)]
pub struct State {
    pub name: Vec<u8>,
    /// Sorted by key.
    pub properties: Vec<(Vec<u8>, Vec<u8>)>,
}

impl State {
    /// The state of a palette's entry, in the form in which it is kept: water has its level alone, air nothing.
    pub fn read(entry: Tag) -> Result<State, Fault> {
        let Tag::Compound(tags) = entry else {
            return Err(Fault::BadPalette);
        };
        let (mut name, mut properties) = (None, Vec::new());
        for named in tags {
            match (named.name.as_slice(), named.tag) {
                (b"Name", Tag::Text(text)) => name = Some(text),
                (b"Properties", Tag::Compound(tags)) => properties = read_properties(tags)?,
                _ => return Err(Fault::BadPalette),
            }
        }
        let name = name.ok_or(Fault::BadPalette)?;
        State { name, properties }.kept()
    }

    fn kept(mut self) -> Result<State, Fault> {
        match self.name.as_slice() {
            b"minecraft:air" => self.properties.clear(),
            b"minecraft:water" => {
                let level = self.properties.iter().find(|(key, _)| key == b"level");
                let level = level.map_or(Ok(0), |(_, value)| level_of(value))?;
                self.properties = vec![(b"level".to_vec(), level.to_string().into_bytes())];
            }
            _ => self.properties.sort(),
        }
        Ok(self)
    }

    /// The state that an edit names, as `NAME` or `NAME[k=v,..]`.
    pub fn parse(text: &str) -> Result<State, Fault> {
        let (name, pairs) = match text.strip_suffix(']').and_then(|text| text.split_once('[')) {
            Some((name, pairs)) => (name, pairs.split(',').collect()),
            None => (text, Vec::new()),
        };
        let pair = |pair: &str| {
            let (key, value) = pair.split_once('=').ok_or(Fault::BadEdit)?;
            Ok((key.into(), value.into()))
        };
        let properties = pairs.into_iter().map(pair).collect::<Result<_, _>>()?;
        State {
            name: name.into(),
            properties,
        }
        .kept()
    }

    pub fn is_source(&self) -> bool {
        self.name == b"minecraft:water" && self.properties[0].1 == b"0"
    }

    pub fn tag(&self) -> Tag {
        let mut tags = vec![Named {
            name: b"Name".to_vec(),
            tag: Tag::Text(self.name.clone()),
        }];
        if !self.properties.is_empty() {
            let property = |(key, value): &(Vec<u8>, Vec<u8>)| Named {
                name: key.clone(),
                tag: Tag::Text(value.clone()),
            };
            let properties = self.properties.iter().map(property).collect();
            tags.push(Named {
                name: b"Properties".to_vec(),
                tag: Tag::Compound(properties),
            });
        }
        Tag::Compound(tags)
    }

    pub fn text(&self) -> String {
        let name = String::from_utf8_lossy(&self.name);
        let text = |(key, value): &(Vec<u8>, Vec<u8>)| {
            format!(
                "{}={}",
                String::from_utf8_lossy(key),
                String::from_utf8_lossy(value)
            )
        };
        match self.properties.as_slice() {
            [] => name.into_owned(),
            properties => format!(
                "{name}[{}]",
                properties.iter().map(text).collect::<Vec<_>>().join(",")
            ),
        }
    }
}

fn read_properties(tags: Vec<Named>) -> Result<Vec<(Vec<u8>, Vec<u8>)>, Fault> {
    tags.into_iter()
        .map(|named| match named.tag {
            Tag::Text(value) => Ok((named.name, value)),
            _ => Err(Fault::BadPalette),
        })
        .collect()
}

/// Levels from 8 on are falling water and are kept as 8.
fn level_of(text: &[u8]) -> Result<u8, Fault> {
    let level = (0..16u8).find(|level| level.to_string().as_bytes() == text);
    level.map(|level| level.min(8)).ok_or(Fault::BadWaterLevel)
}

#[derive(Default)]
pub struct StateTable {
    states: Vec<State>,
    numbers: HashMap<State, u16>,
}

impl StateTable {
    /// Air is number 0.
    pub fn new() -> Self {
        let mut table = StateTable::default();
        let air = State {
            name: b"minecraft:air".to_vec(),
            properties: Vec::new(),
        };
        table.intern(air).expect("an empty table has room");
        table
    }

    pub fn intern(&mut self, state: State) -> Result<u16, Fault> {
        if let Some(number) = self.numbers.get(&state) {
            return Ok(*number);
        }
        if self.states.len() == 65_535 {
            return Err(Fault::TooManyStates);
        }
        let number = self.states.len() as u16;
        self.states.push(state.clone());
        self.numbers.insert(state, number);
        Ok(number)
    }

    /// In the order of their numbers.
    pub fn states(&self) -> &[State] {
        &self.states
    }

    pub fn state(&self, number: u16) -> &State {
        &self.states[usize::from(number)]
    }
}

/// A palette's states, as numbers of the table.
pub fn read_palette(palette: Tag, table: &mut StateTable) -> Result<Vec<u16>, Fault> {
    match palette {
        Tag::List(10, entries) if (1..=4096).contains(&entries.len()) => entries
            .into_iter()
            .map(|entry| table.intern(State::read(entry)?))
            .collect(),
        _ => Err(Fault::BadPalette),
    }
}

pub fn text_of<'a>(tags: &'a [Named], name: &[u8]) -> Option<&'a [u8]> {
    match find(tags, name) {
        Some(Tag::Text(text)) => Some(text),
        _ => None,
    }
}

pub fn int_of(tags: &[Named], name: &[u8]) -> Option<i32> {
    match find(tags, name) {
        Some(Tag::Int(value)) => Some(*value),
        _ => None,
    }
}
