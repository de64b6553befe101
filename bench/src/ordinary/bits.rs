//! Sets of numbers as bits, and a worklist of such numbers that takes a word
//! of 64 at a time.

/// The members of a set of at most 64, from the lowest upward.
#[inline]
pub fn members(set: impl Into<u64>) -> impl Iterator<Item = usize> {
    let mut left = set.into();
    std::iter::from_fn(move || {
        (left != 0).then(|| {
            let lowest = left.trailing_zeros() as usize;
            left &= left - 1;
            lowest
        })
    })
}

/// Numbers that are marked, and those of them that wait to be looked at.
pub struct Worklist<'a> {
    pub marked: &'a mut [u64],
    waiting: &'a mut [u64],
    /// The words in which a number waits.
    stack: &'a mut [u16],
    /// How many they are.
    top: usize,
}

impl<'a> Worklist<'a> {
    /// `waiting` is zero: what is marked already is not looked at.
    pub fn new(
        marked: &'a mut [u64],
        waiting: &'a mut [u64],
        stack: &'a mut [u16],
    ) -> Worklist<'a> {
        Worklist {
            marked,
            waiting,
            stack,
            top: 0,
        }
    }

    /// Marks these numbers of a word; the new ones wait.
    #[inline]
    pub fn mark_word(&mut self, word: usize, bits: u64) {
        let marked = &mut self.marked[word];
        let new = bits & !*marked;
        if new == 0 {
            return;
        }
        *marked |= new;
        let waiting = &mut self.waiting[word];
        if *waiting == 0 {
            self.stack[self.top] = word as u16;
            self.top += 1;
        }
        *waiting |= new;
    }

    #[inline]
    pub fn mark(&mut self, number: usize) {
        self.mark_word(number / 64, 1 << (number % 64));
    }

    /// A word and all numbers that wait in it.
    #[inline]
    pub fn take(&mut self) -> Option<(usize, u64)> {
        self.top = self.top.checked_sub(1)?;
        let word = self.stack[self.top] as usize;
        Some((word, std::mem::take(&mut self.waiting[word])))
    }
}
