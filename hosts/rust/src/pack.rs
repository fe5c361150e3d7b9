//! The pack's header, and the byte source that it is read from.

/// Where pack bytes come from: a volume, a file or memory.
///
/// ```
/// use std::{fs::File, io::ErrorKind, os::unix::fs::FileExt};
/// use terrain::engine::{Lookahead, Status};
/// use terrain::pack::{Error, Source};
///
/// struct Card(File);
///
/// impl Source for Card {
///     fn read(&mut self, offset: u64, buf: &mut [u8]) -> Result<(), Error> {
///         self.0.read_exact_at(buf, offset).map_err(|error| match error.kind() {
///             ErrorKind::UnexpectedEof => Error::Range,
///             _ => Error::Media,
///         })
///     }
/// }
///
/// let sample = concat!(env!("CARGO_MANIFEST_DIR"), "/../../crates/drive/data/pack");
/// let mut card = Card(File::open(sample).unwrap());
/// let mut engine = Lookahead::new(&mut [], 10_000.0);
/// assert_eq!(engine.step(&mut card), Status::Working);
/// assert_eq!(engine.header().unwrap().tiles, 6);
/// ```
pub trait Source {
    /// Fill `buf` from `offset` bytes into the pack. A short or failed read
    /// is an error; the caller retries later or gives up: [`Error::Media`]
    /// for a read that was missed, any other for one past the pack's end.
    fn read(&mut self, offset: u64, buf: &mut [u8]) -> Result<(), Error>;
}

impl Source for &[u8] {
    fn read(&mut self, offset: u64, buf: &mut [u8]) -> Result<(), Error> {
        let start = usize::try_from(offset).map_err(|_| Error::Range)?;
        let end = start.checked_add(buf.len()).ok_or(Error::Range)?;
        buf.copy_from_slice(self.get(start..end).ok_or(Error::Range)?);
        Ok(())
    }
}

#[derive(Clone, Copy, Debug, PartialEq, Eq)]
pub enum Error {
    /// The source failed to read.
    Media,
    /// Outside the pack or a value out of its range.
    Range,
    /// Not a pack this firmware reads (magic, version or geometry).
    Unsupported,
    /// A checksum or structural check failed.
    Corrupt,
}

/// A tile by grid row (from the south) and column (from the west).
#[derive(Clone, Copy, Debug, PartialEq, Eq, Hash, PartialOrd, Ord)]
pub struct TileKey {
    pub row: u16,
    pub col: u16,
}

#[derive(Clone, Copy, Debug, PartialEq, Eq)]
pub struct Header {
    /// Tile side in micro-degrees.
    pub tile: u32,
    /// South-west corner of the grid, micro-degrees.
    pub south: i32,
    pub west: i32,
    pub rows: u16,
    pub cols: u16,
    pub directory: u32,
    pub data: u32,
    pub total: u32,
    pub tiles: u32,
    /// Seconds since 1970 of the OSM data.
    pub created: u64,
    pub attribution_offset: u32,
    pub attribution_len: u32,
}
