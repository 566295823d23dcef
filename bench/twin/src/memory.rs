//! Physical memory: ranges of 64-bit words.

use crate::parse::Extent;

/// One range of memory.
struct Range {
    start: u64,
    words: Vec<u64>,
}

/// The words of all ranges.
pub struct Memory {
    ranges: Vec<Range>,
}

impl Range {
    /// The number of the word at an aligned place, which is beyond the words of any other range.
    #[inline]
    fn number(&self, pa: u64) -> usize {
        (pa.wrapping_sub(self.start) / 8) as usize
    }
}

impl Memory {
    /// Memory of these ranges, all 0. The system gives each page at its first use.
    pub fn new(ranges: &[Extent]) -> Memory {
        let zeroed = |range: &Extent| vec![0; (range.length / 8) as usize];
        let ranges = ranges.iter().map(|range| Range { start: range.start, words: zeroed(range) });
        Memory { ranges: ranges.collect() }
    }

    /// The word at an aligned place, None where memory lacks it.
    #[inline]
    pub fn load(&self, pa: u64) -> Option<u64> {
        self.ranges.iter().find_map(|range| range.words.get(range.number(pa)).copied())
    }

    /// Changes the word at an aligned place.
    pub fn store(&mut self, pa: u64, value: u64) {
        for range in &mut self.ranges {
            let number = range.number(pa);
            if let Some(word) = range.words.get_mut(number) {
                *word = value;
            }
        }
    }
}
