//! A lent buffer: a part of some memory. Before the call the memory holds a
//! pattern, or the part small numbers and what lies around it the pattern.
//! What lies around must be kept.

use crate::memory::Memory;
use second::generate::Random;
use std::ops::Range;

/// Numbers that a buffer may hold: any bytes are one.
pub trait Entry: Copy {}

impl Entry for u16 {}
impl Entry for u64 {}

/// What the lent entries hold before a call. What lies around them is always
/// large.
#[derive(Clone, Copy, Debug, PartialEq, Eq)]
pub enum Numbers {
    /// A pattern of which no byte is zero.
    Large,
    /// A few numbers again and again, counting up from a number below 40,
    /// mostly below 4: such as a call might take for a place in a list, or
    /// for what it left there itself.
    Small,
}

/// How many small numbers there are before they come again. One is the same
/// number everywhere, seven are as many as a node record has.
const FEW: [u8; 5] = [1, 2, 3, 7, 64];

/// What a call must leave in a lent buffer.
#[derive(Clone, Copy, Debug)]
pub enum Left<'a> {
    /// What it held before.
    Kept,
    /// These numbers in front; the rest as before.
    Front(&'a [u16]),
    /// Zero everywhere.
    Zero,
}

/// Buffers are filled and compared block by block, of about so many bytes.
const BLOCK: usize = 4_096;

const ZERO: &[u8] = &[0; BLOCK];

pub struct Lent {
    name: &'static str,
    /// Bytes of an entry.
    width: usize,
    memory: Memory,
    /// What the memory held before, in words of 8 bytes.
    pattern: Vec<u64>,
    /// The lent part, in bytes.
    start: usize,
    end: usize,
}

fn bytes_of(words: &[u64]) -> &[u8] {
    // SAFETY: any bytes are bytes.
    unsafe { words.align_to().1 }
}

fn bytes_of_mut(words: &mut [u64]) -> &mut [u8] {
    // SAFETY: any bytes are bytes, and any bytes are words.
    unsafe { words.align_to_mut().1 }
}

impl Lent {
    pub fn new(name: &'static str, width: usize, memory: Memory) -> Lent {
        Lent {
            name,
            width,
            pattern: vec![0; memory.len().div_ceil(8)],
            memory,
            start: 0,
            end: 0,
        }
    }

    /// How many entries there are to lend.
    pub fn room(&self) -> usize {
        self.memory.len() / self.width
    }

    /// Fills the memory, and with it the lent entries.
    pub fn fill(&mut self, numbers: Numbers, random: &mut Random) {
        let seed = random.number();
        for (number, word) in self.pattern.iter_mut().enumerate() {
            let mixed = seed
                .wrapping_add(number as u64)
                .wrapping_mul(0x9E37_79B9_7F4A_7C15);
            *word = mixed | 0x0101_0101_0101_0101;
        }
        if numbers == Numbers::Small {
            let below = *random.pick(&[4, 4, 40]);
            let first = random.below(below) as u8;
            let count = *random.pick(&FEW);
            self.put(first..first + count);
        }
        let bytes = bytes_of(&self.pattern);
        let size = self.memory.len();
        self.memory.copy_from_slice(&bytes[..size]);
    }

    /// Puts the numbers into the lent entries, again and again.
    fn put(&mut self, numbers: Range<u8>) {
        let entry = |number| u64::to_le_bytes(number).into_iter().take(self.width);
        let once: Vec<u8> = numbers.map(u64::from).flat_map(entry).collect();
        let block = once.repeat(BLOCK / once.len() + 1);
        let part = &mut bytes_of_mut(&mut self.pattern)[self.start..self.end];
        for chunk in part.chunks_mut(block.len()) {
            chunk.copy_from_slice(&block[..chunk.len()]);
        }
    }

    /// What a part of the memory held before the call.
    fn before(&self, first: usize, end: usize) -> &[u8] {
        &bytes_of(&self.pattern)[first..end]
    }

    /// Which entries are lent from now on.
    pub fn lend(&mut self, start: usize, length: usize) {
        assert!(start + length <= self.room(), "{}: room", self.name);
        self.start = start * self.width;
        self.end = self.start + length * self.width;
    }

    pub fn slice<T: Entry>(&mut self) -> &mut [T] {
        assert_eq!(size_of::<T>(), self.width);
        let bytes = &mut self.memory[self.start..self.end];
        // SAFETY: any bytes are entries. The memory begins at a multiple of
        // 8, so that no byte is left out: `entries` are all of them.
        let (none, entries, rest) = unsafe { bytes.align_to_mut() };
        assert!(none.is_empty() && rest.is_empty());
        entries
    }

    /// What is not as it must be.
    pub fn check(&self, left: Left) -> Result<(), String> {
        self.kept(0, self.start)?;
        self.kept(self.end, self.memory.len())?;
        match left {
            Left::Kept => self.kept(self.start, self.end),
            Left::Zero => self.cleared(),
            Left::Front(numbers) => {
                let front: Vec<u8> = numbers.iter().flat_map(|n| n.to_ne_bytes()).collect();
                self.equal(self.start, &front, "not")?;
                self.kept(self.start + front.len(), self.end)
            }
        }
    }

    fn kept(&self, first: usize, end: usize) -> Result<(), String> {
        self.equal(first, self.before(first, end), "but it was")
    }

    fn cleared(&self) -> Result<(), String> {
        for first in (self.start..self.end).step_by(ZERO.len()) {
            let length = ZERO.len().min(self.end - first);
            self.equal(first, &ZERO[..length], "not cleared to")?;
        }
        Ok(())
    }

    /// Whether the memory holds these bytes from a place on.
    fn equal(&self, first: usize, expected: &[u8], how: &str) -> Result<(), String> {
        let found = &self.memory[first..first + expected.len()];
        if found == expected {
            return Ok(());
        }
        let differs = |place: &usize| found[*place] != expected[*place];
        let place = (0..found.len()).find(differs).unwrap() / self.width * self.width;
        let (found, expected) = (
            self.number(&found[place..]),
            self.number(&expected[place..]),
        );
        let entry = self.entry(first + place);
        Err(format!(
            "{}: {entry} is {found}, {how} {expected}",
            self.name
        ))
    }

    /// The entry that these bytes begin with.
    fn number(&self, bytes: &[u8]) -> u64 {
        let mut number = [0; 8];
        number[..self.width].copy_from_slice(&bytes[..self.width]);
        u64::from_le_bytes(number)
    }

    /// The entry at a place in words.
    fn entry(&self, place: usize) -> String {
        if place < self.start {
            format!(
                "guard entry {} before it",
                (self.start - place) / self.width
            )
        } else if place < self.end {
            format!("entry {}", (place - self.start) / self.width)
        } else {
            format!(
                "guard entry {} behind it",
                (place - self.end) / self.width + 1
            )
        }
    }

    #[cfg(test)]
    pub fn length(&self) -> usize {
        (self.end - self.start) / self.width
    }

    #[cfg(test)]
    pub fn bytes(&mut self) -> &mut [u8] {
        &mut self.memory[self.start..self.end]
    }

    /// The lent entries, in order.
    #[cfg(test)]
    pub fn entries(&self) -> impl Iterator<Item = u64> + '_ {
        let entries = self.memory[self.start..self.end].chunks(self.width);
        entries.map(|bytes| self.number(bytes))
    }

    /// Changes the entry in front of the lent ones, as a faulty call would.
    #[cfg(test)]
    pub fn touch_before(&mut self) {
        self.memory[self.start - 1] = 0;
    }

    /// Changes the entry behind the lent ones, as a faulty call would.
    #[cfg(test)]
    pub fn touch_behind(&mut self) {
        self.memory[self.end] = 0;
    }
}
