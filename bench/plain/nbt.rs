//! Named binary tags: an owned tree, read and written.
use crate::fault::Fault;
use std::collections::HashSet;

#[derive(Clone, Debug, PartialEq)]
pub enum Tag {
    Byte(i8),
    Short(i16),
    Int(i32),
    Long(i64),
    Float([u8; 4]),
    Double([u8; 8]),
    ByteArray(Vec<u8>),
    Text(Vec<u8>),
    List(u8, Vec<Tag>),
    Compound(Vec<Named>),
    IntArray(Vec<i32>),
    LongArray(Vec<i64>),
}

#[derive(Clone, Debug, PartialEq)]
pub struct Named {
    pub name: Vec<u8>,
    pub tag: Tag,
}

pub struct Root {
    pub name: Vec<u8>,
    pub tags: Vec<Named>,
}

pub fn find<'a>(tags: &'a [Named], name: &[u8]) -> Option<&'a Tag> {
    tags.iter()
        .find(|named| named.name == name)
        .map(|named| &named.tag)
}

const MAX_DEPTH: u32 = 512;

struct Reader<'a> {
    bytes: &'a [u8],
}

impl<'a> Reader<'a> {
    fn take(&mut self, count: usize) -> Result<&'a [u8], Fault> {
        let (taken, rest) = self.bytes.split_at_checked(count).ok_or(Fault::BadNbt)?;
        self.bytes = rest;
        Ok(taken)
    }

    fn array<const N: usize>(&mut self) -> Result<[u8; N], Fault> {
        let (taken, rest) = self.bytes.split_first_chunk().ok_or(Fault::BadNbt)?;
        self.bytes = rest;
        Ok(*taken)
    }

    fn byte(&mut self) -> Result<u8, Fault> {
        Ok(self.array::<1>()?[0])
    }

    fn length(&mut self) -> Result<i32, Fault> {
        Ok(i32::from_be_bytes(self.array()?))
    }

    /// So many elements of a fixed size, as bytes.
    fn elements(&mut self, size: usize) -> Result<&'a [u8], Fault> {
        let count = usize::try_from(self.length()?).map_err(|_| Fault::BadNbt)?;
        self.take(count * size)
    }

    fn text(&mut self) -> Result<Vec<u8>, Fault> {
        let length = u16::from_be_bytes(self.array()?);
        Ok(self.take(length.into())?.to_vec())
    }

    fn tag(&mut self, number: u8, depth: u32) -> Result<Tag, Fault> {
        Ok(match number {
            1 => Tag::Byte(i8::from_be_bytes(self.array()?)),
            2 => Tag::Short(i16::from_be_bytes(self.array()?)),
            3 => Tag::Int(i32::from_be_bytes(self.array()?)),
            4 => Tag::Long(i64::from_be_bytes(self.array()?)),
            5 => Tag::Float(self.array()?),
            6 => Tag::Double(self.array()?),
            7 => Tag::ByteArray(self.elements(1)?.to_vec()),
            8 => Tag::Text(self.text()?),
            9 => self.list(depth)?,
            10 => Tag::Compound(self.compound(depth)?),
            11 => Tag::IntArray(
                self.elements(4)?
                    .as_chunks()
                    .0
                    .iter()
                    .map(|chunk| i32::from_be_bytes(*chunk))
                    .collect(),
            ),
            12 => Tag::LongArray(
                self.elements(8)?
                    .as_chunks()
                    .0
                    .iter()
                    .map(|chunk| i64::from_be_bytes(*chunk))
                    .collect(),
            ),
            _ => return Err(Fault::BadNbt),
        })
    }

    fn list(&mut self, depth: u32) -> Result<Tag, Fault> {
        if depth == MAX_DEPTH {
            return Err(Fault::BadNbt);
        }
        let element = self.byte()?;
        let count = usize::try_from(self.length()?).unwrap_or(0);
        // An item takes at least one byte.
        if element > 12 || count > self.bytes.len() || (element == 0 && count > 0) {
            return Err(Fault::BadNbt);
        }
        let mut items = Vec::with_capacity(count);
        for _ in 0..count {
            items.push(self.tag(element, depth + 1)?);
        }
        Ok(Tag::List(element, items))
    }

    fn compound(&mut self, depth: u32) -> Result<Vec<Named>, Fault> {
        if depth == MAX_DEPTH {
            return Err(Fault::BadNbt);
        }
        let mut tags = Vec::new();
        loop {
            let number = self.byte()?;
            if number == 0 {
                break;
            }
            let name = self.text()?;
            tags.push(Named {
                name,
                tag: self.tag(number, depth + 1)?,
            });
        }
        if are_distinct(&tags) {
            Ok(tags)
        } else {
            Err(Fault::BadNbt)
        }
    }
}

fn are_distinct(tags: &[Named]) -> bool {
    if tags.len() <= 16 {
        return tags
            .iter()
            .enumerate()
            .all(|(i, named)| tags[..i].iter().all(|other| other.name != named.name));
    }
    let mut names = HashSet::with_capacity(tags.len());
    tags.iter().all(|named| names.insert(named.name.as_slice()))
}

pub fn decode(bytes: &[u8]) -> Result<Root, Fault> {
    let mut reader = Reader { bytes };
    if reader.byte()? != 10 {
        return Err(Fault::BadNbt);
    }
    let name = reader.text()?;
    let tags = reader.compound(0)?;
    if reader.bytes.is_empty() {
        Ok(Root { name, tags })
    } else {
        Err(Fault::BadNbt)
    }
}

impl Tag {
    fn number(&self) -> u8 {
        match self {
            Tag::Byte(_) => 1,
            Tag::Short(_) => 2,
            Tag::Int(_) => 3,
            Tag::Long(_) => 4,
            Tag::Float(_) => 5,
            Tag::Double(_) => 6,
            Tag::ByteArray(_) => 7,
            Tag::Text(_) => 8,
            Tag::List(..) => 9,
            Tag::Compound(_) => 10,
            Tag::IntArray(_) => 11,
            Tag::LongArray(_) => 12,
        }
    }
}

fn write_text(text: &[u8], out: &mut Vec<u8>) {
    out.extend((text.len() as u16).to_be_bytes());
    out.extend_from_slice(text);
}

fn write_length(length: usize, out: &mut Vec<u8>) {
    out.extend((length as i32).to_be_bytes());
}

fn write_payload(tag: &Tag, out: &mut Vec<u8>) {
    match tag {
        Tag::Byte(value) => out.extend(value.to_be_bytes()),
        Tag::Short(value) => out.extend(value.to_be_bytes()),
        Tag::Int(value) => out.extend(value.to_be_bytes()),
        Tag::Long(value) => out.extend(value.to_be_bytes()),
        Tag::Float(value) => out.extend(value),
        Tag::Double(value) => out.extend(value),
        Tag::ByteArray(values) => {
            write_length(values.len(), out);
            out.extend_from_slice(values);
        }
        Tag::Text(text) => write_text(text, out),
        Tag::List(element, items) => {
            out.push(*element);
            write_length(items.len(), out);
            items.iter().for_each(|item| write_payload(item, out));
        }
        Tag::Compound(tags) => write_compound(tags, out),
        Tag::IntArray(values) => {
            write_length(values.len(), out);
            out.extend(values.iter().flat_map(|value| value.to_be_bytes()));
        }
        Tag::LongArray(values) => {
            write_length(values.len(), out);
            out.extend(values.iter().flat_map(|value| value.to_be_bytes()));
        }
    }
}

fn write_compound(tags: &[Named], out: &mut Vec<u8>) {
    for Named { name, tag } in tags {
        out.push(tag.number());
        write_text(name, out);
        write_payload(tag, out);
    }
    out.push(0);
}

pub fn encode(root: &Root) -> Vec<u8> {
    let mut out = vec![10];
    write_text(&root.name, &mut out);
    write_compound(&root.tags, &mut out);
    out
}

/// The number of tags of a tree, and the wrapping sum of all numbers and bytes in it.
#[derive(Default)]
pub struct Tally {
    pub tags: u64,
    pub sum: i64,
}

impl Tally {
    fn number(&mut self, value: i64) {
        self.sum = self.sum.wrapping_add(value);
    }

    fn bytes(&mut self, bytes: &[u8]) {
        self.number(bytes.iter().map(|byte| i64::from(*byte)).sum());
    }

    pub fn compound(&mut self, tags: &[Named]) {
        for named in tags {
            self.bytes(&named.name);
            self.tag(&named.tag);
        }
    }

    fn tag(&mut self, tag: &Tag) {
        self.tags += 1;
        match tag {
            Tag::Byte(value) => self.number((*value).into()),
            Tag::Short(value) => self.number((*value).into()),
            Tag::Int(value) => self.number((*value).into()),
            Tag::Long(value) => self.number(*value),
            Tag::Float(value) => self.bytes(value),
            Tag::Double(value) => self.bytes(value),
            Tag::ByteArray(values) => self.bytes(values),
            Tag::Text(text) => self.bytes(text),
            Tag::List(_, items) => items.iter().for_each(|item| self.tag(item)),
            Tag::Compound(tags) => self.compound(tags),
            Tag::IntArray(values) => {
                self.number(values.iter().map(|value| i64::from(*value)).sum())
            }
            Tag::LongArray(values) => values.iter().for_each(|value| self.number(*value)),
        }
    }
}
