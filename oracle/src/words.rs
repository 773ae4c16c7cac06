//! Little-endian 32-bit words, as every file of the oracle is made of them.

use std::io::{self, Read, Write};

pub fn to_bytes(words: &[u32]) -> Vec<u8> {
    words.iter().flat_map(|word| word.to_le_bytes()).collect()
}

pub fn from_bytes(bytes: &[u8]) -> Result<Vec<u32>, String> {
    let chunks = bytes.chunks_exact(4);
    if !chunks.remainder().is_empty() {
        return Err(format!(
            "{} bytes are no whole number of words",
            bytes.len()
        ));
    }
    let word = |chunk: &[u8]| u32::from_le_bytes([chunk[0], chunk[1], chunk[2], chunk[3]]);
    Ok(chunks.map(word).collect())
}

pub fn read_all(mut from: impl Read) -> Result<Vec<u32>, String> {
    let mut bytes = Vec::new();
    from.read_to_end(&mut bytes)
        .map_err(|error| error.to_string())?;
    from_bytes(&bytes)
}

pub fn write_all(mut to: impl Write, words: &[u32]) -> io::Result<()> {
    to.write_all(&to_bytes(words))?;
    to.flush()
}

/// A 64-bit number as its low and high word.
pub fn halves(number: u64) -> [u32; 2] {
    [number as u32, (number >> 32) as u32]
}

pub fn joined(low: u32, high: u32) -> u64 {
    u64::from(low) | u64::from(high) << 32
}

/// A signed word widened with its sign and read as unsigned.
pub fn widened(word: i32) -> u64 {
    i64::from(word) as u64
}
