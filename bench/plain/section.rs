//! A section's cells: a palette of state numbers and packed indices.
use crate::fault::Fault;
use crate::nbt::Tag;
use crate::state::{StateTable, read_palette};

pub const CELLS: usize = 4096;

pub struct Section {
    palette: Vec<u16>,
    longs: Vec<i64>,
    bits: u32,
}

fn bits_for(len: usize) -> u32 {
    (usize::BITS - (len - 1).leading_zeros()).max(4)
}

fn longs_for(bits: u32) -> usize {
    CELLS.div_ceil((64 / bits) as usize)
}

fn pack(indices: &[u16], bits: u32) -> Vec<i64> {
    let long = |part: &[u16]| {
        part.iter()
            .rev()
            .fold(0u64, |long, index| long << bits | u64::from(*index)) as i64
    };
    indices.chunks((64 / bits) as usize).map(long).collect()
}

impl Section {
    pub fn air() -> Section {
        Section {
            palette: vec![0],
            longs: Vec::new(),
            bits: 4,
        }
    }

    pub fn read(palette: Tag, data: Option<Tag>, table: &mut StateTable) -> Result<Section, Fault> {
        let palette = read_palette(palette, table)?;
        let longs = match data {
            None => Vec::new(),
            Some(Tag::LongArray(longs)) => longs,
            Some(_) => return Err(Fault::BadPacked),
        };
        let bits = bits_for(palette.len());
        if longs.is_empty() {
            return if palette.len() == 1 {
                Ok(Section {
                    palette,
                    longs,
                    bits,
                })
            } else {
                Err(Fault::BadPacked)
            };
        }
        let section = Section {
            palette,
            longs,
            bits,
        };
        let fits = section.longs.len() == longs_for(bits)
            && section
                .indices()
                .iter()
                .all(|i| usize::from(*i) < section.palette.len());
        if fits {
            Ok(section)
        } else {
            Err(Fault::BadPacked)
        }
    }

    fn indices(&self) -> Vec<u16> {
        let per_long = 64 / self.bits;
        let mask = (1u64 << self.bits) - 1;
        let mut indices = Vec::with_capacity(CELLS + per_long as usize);
        for long in &self.longs {
            let long = *long as u64;
            for i in 0..per_long {
                indices.push((long >> (self.bits * i) & mask) as u16);
            }
        }
        indices.truncate(CELLS);
        indices
    }

    pub fn get(&self, place: usize) -> u16 {
        if self.longs.is_empty() {
            return self.palette[0];
        }
        let per_long = (64 / self.bits) as usize;
        let long = self.longs[place / per_long] as u64;
        let index = long >> (self.bits * (place % per_long) as u32) & ((1 << self.bits) - 1);
        self.palette[index as usize]
    }

    /// The numbers that places can have.
    pub fn palette(&self) -> &[u16] {
        &self.palette
    }

    /// Calls for each place with its number.
    pub fn for_each(&self, mut visit: impl FnMut(usize, u16)) {
        if self.longs.is_empty() {
            (0..CELLS).for_each(|place| visit(place, self.palette[0]));
        } else {
            for (place, index) in self.indices().into_iter().enumerate() {
                visit(place, self.palette[usize::from(index)]);
            }
        }
    }

    pub fn set(&mut self, place: usize, number: u16) {
        let known = self.palette.iter().position(|other| *other == number);
        let index = known.unwrap_or_else(|| {
            self.palette.push(number);
            self.palette.len() - 1
        });
        let bits = bits_for(self.palette.len());
        if self.longs.is_empty() {
            if self.palette.len() == 1 {
                return;
            }
            self.longs = vec![0; longs_for(bits)];
            self.bits = bits;
        } else if bits != self.bits {
            self.longs = pack(&self.indices(), bits);
            self.bits = bits;
        }
        let per_long = (64 / self.bits) as usize;
        let shift = self.bits * (place % per_long) as u32;
        let mask = ((1u64 << self.bits) - 1) << shift;
        let long = &mut self.longs[place / per_long];
        *long = (*long as u64 & !mask | (index as u64) << shift) as i64;
    }

    /// The palette in the order of first places, and the packed indices if it has more than one entry.
    pub fn write(&self, table: &StateTable) -> (Vec<Tag>, Option<Vec<i64>>) {
        if self.longs.is_empty() {
            return (vec![table.state(self.palette[0]).tag()], None);
        }
        // The same state may stand in the palette twice.
        let first = |number: &u16| {
            self.palette
                .iter()
                .position(|other| other == number)
                .expect("it is in the palette")
        };
        let canonical: Vec<usize> = self.palette.iter().map(first).collect();
        let mut written = vec![None; self.palette.len()];
        let mut palette = Vec::new();
        let indices: Vec<u16> = self
            .indices()
            .into_iter()
            .map(|index| {
                let at = canonical[usize::from(index)];
                *written[at].get_or_insert_with(|| {
                    palette.push(table.state(self.palette[at]).tag());
                    palette.len() as u16 - 1
                })
            })
            .collect();
        let longs = (palette.len() > 1).then(|| pack(&indices, bits_for(palette.len())));
        (palette, longs)
    }
}
