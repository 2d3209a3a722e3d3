//! A lent area between guard bytes, filled at random beforehand, so that what stays is seen to stay.

use second::random::Random;

/// The guard bytes on either side.
const GUARD: usize = 64;

/// The lent bytes with their guards.
#[derive(Clone, PartialEq, Eq)]
pub struct Area {
    bytes: Vec<u8>,
}

impl Area {
    /// An area of this length, filled at random, guards too.
    pub fn new(random: &mut Random, len: usize) -> Self {
        let mut bytes = vec![0; len + 2 * GUARD];
        for part in bytes.chunks_mut(8) {
            let filling = random.bits().to_le_bytes();
            part.copy_from_slice(&filling[..part.len()]);
        }
        Area { bytes }
    }

    /// The bytes that are lent.
    pub fn lent(&mut self) -> &mut [u8] {
        let end = self.bytes.len() - GUARD;
        &mut self.bytes[GUARD..end]
    }

    /// The lent bytes, to look at.
    pub fn seen(&self) -> &[u8] {
        &self.bytes[GUARD..self.bytes.len() - GUARD]
    }

    /// The places, counted from the first lent byte, where two areas of one length differ.
    pub fn differing(&self, other: &Area) -> Vec<isize> {
        (0..self.bytes.len())
            .filter(|&at| self.bytes[at] != other.bytes[at])
            .map(|at| at as isize - GUARD as isize)
            .collect()
    }

    /// The byte at a place counted from the first lent byte.
    pub fn at(&self, place: isize) -> u8 {
        self.bytes[(place + GUARD as isize) as usize]
    }
}
