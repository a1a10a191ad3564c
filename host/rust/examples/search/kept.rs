//! Images kept in two files by turns, as in `host/c/kept.c`: a save that is cut short spoils only the older
//! one. A file is a block of the host's own, then the image. The block's words, little-endian: a sequence
//! number, the host's own words, a CRC of everything else in the file.

use crate::layout::{OWN_WORDS, PLACES};
use crate::NODES;
use splitter::{image_array_bytes, BLOCK_BYTES};
use std::fs::{self, File};
use std::io::{self, Write};
use std::path::Path;

/// Where the CRC is, in the block.
const CRC_AT: usize = BLOCK_BYTES - 4;

/// What is in a file, or in part of one.
pub struct Kept {
    bytes: Vec<u8>,
}

/// CRC-32 (IEEE 802.3).
fn crc32<'a>(bytes: impl Iterator<Item = &'a u8>) -> u32 {
    let step = |crc: u32, _| crc >> 1 ^ if crc & 1 == 1 { 0xEDB8_8320 } else { 0 };
    !bytes.fold(!0, |crc, byte| (0..8).fold(crc ^ u32::from(*byte), step))
}

/// The name of the file for a sequence number: A, B, A, .. from 1 on.
pub fn name(sequence: u32) -> &'static str {
    ["B", "A"][sequence as usize % 2]
}

impl Kept {
    /// The host's own words under a sequence number, with room for an image.
    pub fn new(sequence: u32, own: &[u32]) -> Kept {
        let mut kept = Kept { bytes: vec![0; BLOCK_BYTES + image_array_bytes(PLACES, NODES)] };
        for (word, value) in [sequence].iter().chain(own).enumerate() {
            kept.bytes[4 * word..4 * word + 4].copy_from_slice(&value.to_le_bytes());
        }
        kept
    }

    /// A file, whole or not; none if it is not there.
    pub fn read(folder: &Path, name: &str) -> Option<Kept> {
        fs::read(folder.join(name)).ok().map(|bytes| Kept { bytes })
    }

    /// A word of the block; what is missing is zero.
    fn word(&self, word: usize) -> u32 {
        let bytes = self.bytes.get(4 * word..4 * word + 4).and_then(|bytes| bytes.try_into().ok());
        bytes.map_or(0, u32::from_le_bytes)
    }

    pub fn sequence(&self) -> u32 {
        self.word(0)
    }

    pub fn own(&self) -> Vec<u32> {
        (1..=OWN_WORDS).map(|word| self.word(word)).collect()
    }

    pub fn image(&self) -> &[u8] {
        self.bytes.get(BLOCK_BYTES..).unwrap_or(&[])
    }

    pub fn image_mut(&mut self) -> &mut [u8] {
        &mut self.bytes[BLOCK_BYTES..]
    }

    /// Of all but the CRC itself.
    fn crc(&self) -> u32 {
        crc32(self.bytes.iter().take(CRC_AT).chain(self.image()))
    }

    /// Is everything as it was written?
    pub fn right(&self) -> bool {
        self.word(CRC_AT / 4) == self.crc()
    }

    /// Sets the CRC and writes the file. The bytes must be on the medium before the next save begins, which
    /// writes over the other file.
    pub fn write(&mut self, folder: &Path) -> io::Result<()> {
        let crc = self.crc();
        self.bytes[CRC_AT..BLOCK_BYTES].copy_from_slice(&crc.to_le_bytes());
        let mut file = File::create(folder.join(name(self.sequence())))?;
        file.write_all(&self.bytes)?;
        file.sync_all()
    }
}
