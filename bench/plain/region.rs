//! Region files: a header of 1,024 locations and timestamps, and chunks in sectors of 4,096 bytes.
use crate::fault::Fault;

const SECTOR: usize = 4096;
const HEADER: usize = 2 * SECTOR;
pub const CHUNKS: usize = 1024;

pub struct Region<'a> {
    bytes: &'a [u8],
}

impl<'a> Region<'a> {
    pub fn read(bytes: &'a [u8]) -> Result<Self, Fault> {
        if bytes.is_empty() || bytes.len() >= HEADER {
            Ok(Region { bytes })
        } else {
            Err(Fault::ShortHeader)
        }
    }

    fn word(&self, at: usize) -> u32 {
        self.bytes
            .get(at..at + 4)
            .map_or(0, |word| u32::from_be_bytes(word.try_into().unwrap()))
    }

    pub fn stamp(&self, index: usize) -> u32 {
        self.word(SECTOR + 4 * index)
    }

    pub fn payload(&self, index: usize) -> Result<Option<&'a [u8]>, Fault> {
        let location = self.word(4 * index);
        if location == 0 {
            return Ok(None);
        }
        let (offset, sectors) = ((location >> 8) as usize, (location & 255) as usize);
        if offset < 2 || sectors == 0 {
            return Err(Fault::BadLocation);
        }
        let chunk = self
            .bytes
            .get(SECTOR * offset..)
            .ok_or(Fault::TruncatedChunk)?;
        let (field, data) = chunk
            .split_first_chunk::<4>()
            .ok_or(Fault::TruncatedChunk)?;
        let length = u32::from_be_bytes(*field) as usize;
        let data = data.get(..length).ok_or(Fault::TruncatedChunk)?;
        match data.split_first() {
            None => Err(Fault::BadLength),
            Some(_) if length + 4 > SECTOR * sectors => Err(Fault::BadLength),
            Some((128.., _)) => Err(Fault::ExternalChunk),
            Some((3, payload)) => Ok(Some(payload)),
            Some((kind, _)) => Err(Fault::Compression(*kind)),
        }
    }
}

/// A region file of the payloads, in the order of their indices.
pub fn write(payloads: &[Option<Vec<u8>>], stamps: &[u32]) -> Vec<u8> {
    let mut out = vec![0; HEADER];
    for (index, stamp) in stamps.iter().enumerate() {
        out[SECTOR + 4 * index..][..4].copy_from_slice(&stamp.to_be_bytes());
    }
    for (index, payload) in payloads.iter().enumerate() {
        if let Some(payload) = payload {
            let sectors = (payload.len() + 5).div_ceil(SECTOR);
            let location = ((out.len() / SECTOR) << 8 | sectors) as u32;
            out[4 * index..][..4].copy_from_slice(&location.to_be_bytes());
            out.extend((payload.len() as u32 + 1).to_be_bytes());
            out.push(3);
            out.extend_from_slice(payload);
            out.resize(out.len().next_multiple_of(SECTOR), 0);
        }
    }
    out
}
