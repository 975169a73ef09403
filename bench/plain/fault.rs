//! Why a file was refused.
use std::fmt;

#[derive(Debug)]
pub enum Fault {
    ShortHeader,
    BadLocation,
    TruncatedChunk,
    BadLength,
    ExternalChunk,
    Compression(u8),
    BadNbt,
    OldLayout,
    BadChunk,
    WrongPlace,
    BadPalette,
    BadPacked,
    BadTick,
    BadWaterLevel,
    TooManyStates,
    BadEdit,
}

impl fmt::Display for Fault {
    fn fmt(&self, f: &mut fmt::Formatter) -> fmt::Result {
        let number = match self {
            Fault::ShortHeader => 4,
            Fault::BadLocation => 5,
            Fault::TruncatedChunk => 6,
            Fault::BadLength => 7,
            Fault::ExternalChunk => 8,
            Fault::Compression(kind) => return write!(f, "fault 09: Compression {kind}"),
            Fault::BadNbt => 10,
            Fault::OldLayout => 11,
            Fault::BadChunk => 12,
            Fault::WrongPlace => 13,
            Fault::BadPalette => 14,
            Fault::BadPacked => 15,
            Fault::BadTick => 16,
            Fault::BadWaterLevel => 17,
            Fault::TooManyStates => 18,
            Fault::BadEdit => 20,
        };
        write!(f, "fault {number:02}: {self:?}")
    }
}

impl std::error::Error for Fault {}
